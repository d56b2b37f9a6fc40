//! Designs that CHECK accepts, or that miss only by their number of movers.

use super::constraints::breakable_constraint;
use super::products::constant;
use crate::builder::{boolean_bytes, file_bytes};
use crate::design::{
    Boolean, Cell, CellKind, Design, Integer, Kind, Matrix, Statement, Variable, MAX_FILE,
    MAX_MATRICES, MAX_MOVERS, MAX_VARIABLES,
};
use crate::random::Random;

/// The size of a design to make.
#[derive(Clone, Copy, Debug)]
pub struct Plan {
    pub variables: usize,
    pub integer_percent: usize,
    pub matrices: usize,
    pub statuses: usize,
    pub events: usize,
    pub movers: usize,
    pub invalid: usize,
    pub depth: usize,
    pub statements: usize,
    pub ifs: usize,
    /// How often an integer operator is a product.
    pub product_percent: usize,
    /// Whether there is a constraint, and the file so of version 2.
    pub constraint: bool,
}

/// Few movers and few bits, so that a search over it is short.
pub fn tiny_plan(random: &mut Random) -> Plan {
    Plan {
        variables: random.between(0, 3),
        integer_percent: random.pick(&[0, 0, 0, 30]),
        matrices: random.pick(&[1, 1, 1, 2]),
        statuses: random.between(1, 4),
        events: random.between(1, 2),
        movers: random.pick(&[1, 2, 2, 2, 3]),
        invalid: random.between(0, 2),
        depth: random.between(1, 3),
        statements: random.between(0, 2),
        ifs: random.pick(&[0, 0, 1]),
        product_percent: random.pick(&[0, 0, 0, 0, 30]),
        constraint: random.chance(50),
    }
}

pub fn middle_plan(random: &mut Random) -> Plan {
    Plan {
        variables: random.between(0, 8),
        integer_percent: 40,
        matrices: random.between(1, 3),
        statuses: random.between(1, 16),
        events: random.between(1, 4),
        movers: random.between(1, 10),
        invalid: random.between(0, 4),
        depth: random.between(1, 6),
        statements: random.between(0, 4),
        ifs: random.between(0, 4),
        product_percent: random.pick(&[0, 20, 50, 100]),
        constraint: random.chance(50),
    }
}

/// At or near the ends of the format.
pub fn wide_plan(random: &mut Random) -> Plan {
    Plan {
        variables: random.pick(&[0, 1, MAX_VARIABLES - 1, MAX_VARIABLES, MAX_VARIABLES]),
        integer_percent: random.pick(&[0, 50, 100]),
        matrices: random.pick(&[1, 2, MAX_MATRICES - 1, MAX_MATRICES]),
        statuses: random.pick(&[1, 15, 16]),
        events: random.pick(&[1, 15, 16]),
        movers: random.pick(&[0, 1, 2, MAX_MOVERS - 1, MAX_MOVERS, MAX_MOVERS, MAX_MOVERS + 1]),
        invalid: random.pick(&[0, 1, 30]),
        depth: random.pick(&[1, 2, 15, 16]),
        statements: random.between(0, 4),
        ifs: random.between(0, 4),
        product_percent: random.pick(&[0, 20, 50, 100]),
        constraint: random.chance(50),
    }
}

/// Deep trees in few cells: long parts of a formula.
pub fn deep_plan(random: &mut Random) -> Plan {
    Plan {
        variables: random.between(1, 4),
        integer_percent: 50,
        matrices: 1,
        statuses: 16,
        events: 1,
        movers: random.between(1, 2),
        invalid: random.between(0, 2),
        depth: random.between(8, 16),
        statements: 2,
        ifs: 4,
        product_percent: random.pick(&[0, 0, 10]),
        constraint: random.chance(50),
    }
}

/// Up to the greatest number of movers, each a small one.
pub fn crowded_plan(random: &mut Random) -> Plan {
    Plan {
        variables: random.between(0, 3),
        integer_percent: 0,
        matrices: 1,
        statuses: 4,
        events: 2,
        movers: random.pick(&[5, 20, 63, 64]),
        invalid: random.between(0, 2),
        depth: 1,
        statements: 1,
        ifs: 0,
        product_percent: 0,
        constraint: random.chance(50),
    }
}

/// Few statuses and some movers, so that a run meets every status and event.
pub fn busy_plan(random: &mut Random) -> Plan {
    Plan {
        variables: random.between(2, 5),
        integer_percent: 30,
        matrices: random.between(1, 2),
        statuses: random.between(2, 3),
        events: random.between(1, 3),
        movers: random.between(4, 12),
        invalid: random.between(0, 2),
        depth: random.between(1, 3),
        statements: 2,
        ifs: 1,
        product_percent: random.pick(&[0, 20]),
        constraint: random.chance(50),
    }
}

pub fn any_plan(random: &mut Random) -> Plan {
    match random.below(10) {
        0..=4 => tiny_plan(random),
        5..=8 => middle_plan(random),
        _ => wide_plan(random),
    }
}

/// A design of the plan whose file is not too long; a plan whose designs come
/// out too long is made smaller.
pub fn design(random: &mut Random, plan: Plan) -> Design {
    let mut plan = plan;
    loop {
        let design = one_design(random, &plan);
        if file_bytes(&design).len() <= MAX_FILE {
            return design;
        }
        plan.depth = plan.depth.div_ceil(2);
        plan.statements /= 2;
    }
}

fn one_design(random: &mut Random, plan: &Plan) -> Design {
    let variables = variables(random, plan);
    let mut trees =
        Trees::new(random, &variables, plan.matrices).with_products(plan.product_percent);
    let matrices: Vec<Matrix> = (0..plan.matrices).map(|_| trees.matrix(plan)).collect();
    let externals = variables.iter().filter(|v| v.kind == Kind::External).count();
    let normal = plan.movers.saturating_sub(externals);
    let cells = trees.cells(plan, &matrices, normal);
    let invariant = trees.short_boolean(plan.depth);
    let constraint = plan.constraint.then(|| trees.constraint(plan.depth));
    Design { variables, matrices, cells, invariant, constraint }
}

fn variables(random: &mut Random, plan: &Plan) -> Vec<Variable> {
    let mut externals_left = plan.movers;
    (0..plan.variables)
        .map(|_| {
            let external = externals_left > 0 && random.chance(50);
            let variable = variable(random, plan, external);
            externals_left -= (variable.kind == Kind::External) as usize;
            variable
        })
        .collect()
}

fn variable(random: &mut Random, plan: &Plan, external: bool) -> Variable {
    if random.chance(plan.integer_percent) {
        return Variable { kind: Kind::Integer, initial: number(random) };
    }
    let kind = if external { Kind::External } else { Kind::Boolean };
    Variable { kind, initial: random.pick(&[0, 0, 0, 1]) }
}

/// A number, often at or near an end of the range.
pub fn number(random: &mut Random) -> i16 {
    match random.below(9) {
        0 => 0,
        1 => 1,
        2 => -1,
        3 => i16::MAX,
        4 => i16::MIN,
        5 => near_end(random),
        6 => random.between(0, 16) as i16,
        _ => random.word() as i16,
    }
}

/// One of the first four numbers or of the last four.
pub fn near_end(random: &mut Random) -> i16 {
    (i16::MAX - 3).wrapping_add(random.below(8) as i16)
}

/// Makes trees over the variables and matrices of one design.
pub struct Trees<'a> {
    random: &'a mut Random,
    integers: Vec<u8>,
    booleans: Vec<u8>,
    matrices: usize,
    product_percent: usize,
    /// Whether leaves may read the next state.
    next_state: bool,
}

impl<'a> Trees<'a> {
    pub fn new(random: &'a mut Random, variables: &[Variable], matrices: usize) -> Trees<'a> {
        let of = |integer: bool| {
            let fits = |i: &usize| (variables[*i].kind == Kind::Integer) == integer;
            (0..variables.len()).filter(fits).map(|i| i as u8).collect()
        };
        let (integers, booleans) = (of(true), of(false));
        Trees { random, integers, booleans, matrices, product_percent: 0, next_state: false }
    }

    /// With so many products among its integer operators.
    pub fn with_products(self, percent: usize) -> Trees<'a> {
        Trees { product_percent: percent, ..self }
    }

    fn matrix(&mut self, plan: &Plan) -> Matrix {
        let statuses = self.random.between(1, plan.statuses) as u8;
        let count = self.random.between(1, plan.events);
        let events = (0..count).map(|_| self.event(plan.depth)).collect();
        Matrix { statuses, events }
    }

    fn event(&mut self, depth: usize) -> Boolean {
        if self.random.chance(50) {
            self.boolean(1)
        } else {
            self.short_boolean(depth)
        }
    }

    /// An expression whose length fits in a byte.
    fn short_boolean(&mut self, depth: usize) -> Boolean {
        let mut depth = depth;
        loop {
            let e = self.boolean(depth);
            if boolean_bytes(&e).len() <= 255 {
                return e;
            }
            depth -= 1;
        }
    }

    /// An expression whose leaves may read the next state.
    pub fn constraint(&mut self, depth: usize) -> Boolean {
        self.next_state = true;
        let constraint = self.short_boolean(depth);
        self.next_state = false;
        constraint
    }

    /// Whether a leaf is to read the next state.
    fn reads_next(&mut self) -> bool {
        self.next_state && self.random.chance(50)
    }

    fn cells(&mut self, plan: &Plan, matrices: &[Matrix], normal: usize) -> Vec<Cell> {
        let mut places = all_places(matrices);
        let most = places.len() - (normal > 0) as usize;
        let mut cells = Vec::new();
        for _ in 0..plan.invalid.min(most) {
            let place = places.swap_remove(self.random.below(places.len()));
            cells.push(cell_at(place, CellKind::Invalid));
        }
        for _ in 0..normal {
            let place = self.random.pick(&places);
            let kind = self.normal(plan, matrices[place.0].statuses);
            cells.push(cell_at(place, kind));
        }
        cells.sort_by_key(|c| (c.matrix, c.status, c.event));
        cells
    }

    fn normal(&mut self, plan: &Plan, statuses: u8) -> CellKind {
        let target = self.random.below(statuses as usize) as u8;
        let guard = self.random.chance(50).then(|| self.short_boolean(plan.depth));
        let action = self.list(plan.statements, plan.depth, plan.ifs);
        CellKind::Normal { target, guard, action }
    }

    fn chain_cell(&mut self, status: u8) -> Cell {
        let guard = self.random.chance(20).then(|| self.boolean(1));
        let action = self.list(1, 1, 0);
        cell_at((0, status, 0), CellKind::Normal { target: status + 1, guard, action })
    }

    /// A list whose ifs nest at most `ifs` deep.
    pub fn list(&mut self, statements: usize, depth: usize, ifs: usize) -> Vec<Statement> {
        let count = self.random.between(0, statements);
        (0..count).map(|_| self.statement(statements, depth, ifs)).collect()
    }

    fn statement(&mut self, statements: usize, depth: usize, ifs: usize) -> Statement {
        let nothing_to_assign = self.integers.is_empty() && self.booleans.is_empty();
        if ifs > 0 && self.random.chance(40) {
            let condition = self.boolean(depth);
            let then = self.list(statements, depth, ifs - 1);
            let other = self.list(statements / 2, depth, ifs - 1);
            return Statement::If(condition, then, other);
        }
        if nothing_to_assign {
            return Statement::If(self.boolean(depth), vec![], vec![]);
        }
        self.assignment(depth)
    }

    fn assignment(&mut self, depth: usize) -> Statement {
        let depth = self.random.between(1, depth);
        let integer =
            self.booleans.is_empty() || (!self.integers.is_empty() && self.random.chance(50));
        if integer {
            let variable = self.random.pick(&self.integers);
            return Statement::AssignInteger(variable, self.integer(depth));
        }
        let variable = self.random.pick(&self.booleans);
        Statement::AssignBoolean(variable, self.boolean(depth))
    }

    /// An expression exactly `depth` deep. Only one operand is that deep, so
    /// that its length grows with the depth and not faster.
    pub fn boolean(&mut self, depth: usize) -> Boolean {
        if depth == 1 {
            return self.boolean_leaf();
        }
        match self.random.below(9) {
            0 | 1 => Boolean::Not(Box::new(self.boolean(depth - 1))),
            2 | 3 => {
                let (a, b) = self.booleans(depth);
                Boolean::And(Box::new(a), Box::new(b))
            }
            4 | 5 => {
                let (a, b) = self.booleans(depth);
                Boolean::Or(Box::new(a), Box::new(b))
            }
            6 => {
                let (a, b) = self.integers(depth);
                Boolean::Equal(a, b)
            }
            _ => {
                let (a, b) = self.integers(depth);
                Boolean::Less(a, b)
            }
        }
    }

    fn boolean_leaf(&mut self) -> Boolean {
        if self.booleans.is_empty() || self.random.chance(20) {
            return Boolean::Constant(self.random.chance(60));
        }
        let variable = self.random.pick(&self.booleans);
        if self.reads_next() {
            Boolean::NextVariable(variable)
        } else {
            Boolean::Variable(variable)
        }
    }

    fn booleans(&mut self, depth: usize) -> (Boolean, Boolean) {
        let other = self.random.between(1, (depth - 1).min(3));
        let deep = self.boolean(depth - 1);
        let small = self.boolean(other);
        if self.random.chance(50) {
            (deep, small)
        } else {
            (small, deep)
        }
    }

    pub fn integer(&mut self, depth: usize) -> Integer {
        if depth == 1 {
            return self.integer_leaf();
        }
        if self.random.chance(self.product_percent) {
            return Integer::Product(constant(self.random), Box::new(self.integer(depth - 1)));
        }
        let (a, b) = self.integers(depth);
        if self.random.chance(50) {
            Integer::Sum(Box::new(a), Box::new(b))
        } else {
            Integer::Difference(Box::new(a), Box::new(b))
        }
    }

    fn integer_leaf(&mut self) -> Integer {
        if !self.integers.is_empty() && self.random.chance(50) {
            let variable = self.random.pick(&self.integers);
            let leaf = if self.reads_next() { Integer::NextVariable } else { Integer::Variable };
            return leaf(variable);
        }
        if self.random.chance(40) {
            let matrix = self.random.below(self.matrices) as u8;
            let leaf = if self.reads_next() { Integer::NextStatus } else { Integer::Status };
            return leaf(matrix);
        }
        Integer::Constant(number(self.random))
    }

    fn integers(&mut self, depth: usize) -> (Integer, Integer) {
        let other = self.random.between(1, (depth - 1).min(2));
        let deep = self.integer(depth - 1);
        let small = self.integer(other);
        if self.random.chance(50) {
            (deep, small)
        } else {
            (small, deep)
        }
    }
}

type Place = (usize, u8, u8);

fn all_places(matrices: &[Matrix]) -> Vec<Place> {
    let mut places = Vec::new();
    for (m, matrix) in matrices.iter().enumerate() {
        for status in 0..matrix.statuses {
            places.extend((0..matrix.events.len()).map(|event| (m, status, event as u8)));
        }
    }
    places
}

fn cell_at(place: Place, kind: CellKind) -> Cell {
    Cell { matrix: place.0 as u8, status: place.1, event: place.2, kind }
}

/// A design whose cells lead from status to status, each after its external
/// was raised, so that a property breaks only after some steps.
pub fn chain_design(random: &mut Random) -> Design {
    let statuses = random.between(2, 3) as u8;
    let externals = random.between(0, 2).min(4 - statuses as usize);
    let mut variables = vec![Variable { kind: Kind::External, initial: 0 }; externals];
    if random.chance(50) {
        variables.push(Variable { kind: Kind::Boolean, initial: 0 });
    }
    let mut trees = Trees::new(random, &variables, 1);
    let event = trees.boolean_leaf();
    let mut cells: Vec<Cell> = (0..statuses - 1).map(|s| trees.chain_cell(s)).collect();
    if random.chance(50) {
        cells.push(cell_at((0, statuses - 1, 0), CellKind::Invalid));
    }
    let matrices = vec![Matrix { statuses, events: vec![event] }];
    let invariant = Boolean::Constant(true);
    let mut design = Design { variables, matrices, cells, invariant, constraint: None };
    design.invariant = breakable(random, &design);
    design.constraint = random.chance(50).then(|| breakable_constraint(random, &design));
    design
}

/// An invariant that is true in the first state and that a few steps may
/// break, or a constant where nothing may change.
pub fn breakable(random: &mut Random, design: &Design) -> Boolean {
    let mut parts: Vec<Boolean> = Vec::new();
    for (m, matrix) in design.matrices.iter().enumerate() {
        let kept = |s: u8| not_equal(Integer::Status(m as u8), s as i16);
        parts.extend((1..matrix.statuses).map(kept));
    }
    for (v, variable) in design.variables.iter().enumerate() {
        parts.push(kept_variable(v as u8, variable));
    }
    if parts.is_empty() {
        return Boolean::Constant(true);
    }
    let first = parts.swap_remove(random.below(parts.len()));
    if parts.is_empty() || random.chance(40) {
        return first;
    }
    let second = parts.swap_remove(random.below(parts.len()));
    // The more parts must fail at once, the later the break.
    Boolean::Or(Box::new(first), Box::new(second))
}

fn not_equal(a: Integer, b: i16) -> Boolean {
    Boolean::Not(Box::new(Boolean::Equal(a, Integer::Constant(b))))
}

fn kept_variable(v: u8, variable: &Variable) -> Boolean {
    match (variable.kind, variable.initial) {
        (Kind::Integer, initial) => not_equal(Integer::Variable(v), initial.wrapping_add(2)),
        (_, 0) => Boolean::Not(Box::new(Boolean::Variable(v))),
        _ => Boolean::Variable(v),
    }
}

/// An expression of exactly `length` bytes, at least 2, over constants only.
pub fn boolean_of_length(random: &mut Random, length: usize) -> Boolean {
    match length {
        0..=2 => Boolean::Constant(random.chance(50)),
        3..=4 => Boolean::Not(Box::new(boolean_of_length(random, length - 1))),
        _ => {
            let left = (length - 1) / 2;
            let a = Box::new(boolean_of_length(random, left));
            let b = Box::new(boolean_of_length(random, length - 1 - left));
            if random.chance(50) {
                Boolean::And(a, b)
            } else {
                Boolean::Or(a, b)
            }
        }
    }
}

/// Lengthens the invariant, or the constraint, until the file has exactly
/// `length` bytes. It becomes one of constants, so that its depth stays small.
pub fn lengthen(random: &mut Random, design: &mut Design, length: usize) {
    let file = file_bytes(design).len();
    let lengthened = match &mut design.constraint {
        Some(constraint) if random.chance(50) => constraint,
        _ => &mut design.invariant,
    };
    let rest = file - boolean_bytes(lengthened).len();
    *lengthened = boolean_of_length(random, length - rest);
}
