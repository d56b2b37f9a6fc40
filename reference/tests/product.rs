//! Multiplying by a constant, document 02: operator 08 in files, steps and
//! formulas.

mod support;

use reference::builder::file_bytes;
use reference::design::{
    check, Boolean, Cell, CellKind, Design, Integer, Kind, Matrix, Statement, Variable,
};
use reference::designs::{chain, design_a, moved};
use reference::formula::{size, Sink, Size};
use reference::generator::trees::{any_plan, design};
use reference::models::models;
use reference::query::{Query, CONSTRAINT, INVARIANT};
use reference::random::Random;
use reference::step::{holds, start, step};
use reference::verdict::Finding;
use support::*;

const EDGES: [i16; 5] = [i16::MIN, -1, 0, 1, i16::MAX];
const OTHERS: [i16; 6] = [2, 3, -3, 256, 0x5555, -12_345];
const GATES: u64 = 1_280;
/// In an action, with two comparisons and two ors for the mark.
const MARKING_GATES: u64 = 1_280 + 160 + 2;

fn numbers() -> Vec<i16> {
    [&EDGES[..], &OTHERS].concat()
}

fn times(constant: i16, operand: Integer) -> Integer {
    Integer::Product(constant, Box::new(operand))
}

fn number(bytes: &[u8]) -> (u8, u64) {
    check(bytes).map_or_else(|r| (r.number, r.place), |_| (0, 0))
}

/// Design A, whose invariant is at 51, with other bytes there.
fn with_invariant(bytes: &[u8]) -> Vec<u8> {
    let file = file_bytes(&design_a());
    [&file[..51], bytes, &file[57..]].concat()
}

/// Its version 2, whose constraint is at 57 and the offset at 78.
fn with_constraint(bytes: &[u8]) -> Vec<u8> {
    let file = file_bytes(&moved());
    [&file[..57], bytes, &file[78..]].concat()
}

/// x = `initial` and one mover, which makes it another number.
fn one_step(initial: i16, next: Integer) -> Design {
    let action = vec![Statement::AssignInteger(0, next)];
    let kind = CellKind::Normal { target: 0, guard: None, action };
    Design {
        variables: vec![Variable { kind: Kind::Integer, initial }],
        matrices: vec![Matrix { statuses: 1, events: vec![Boolean::Constant(true)] }],
        cells: vec![Cell { matrix: 0, status: 0, event: 0, kind }],
        invariant: Boolean::Constant(true),
        constraint: None,
    }
}

fn x() -> Integer {
    Integer::Variable(0)
}

#[test]
fn a_constant_and_an_integer_expression() {
    let good: [&[u8]; 4] = [
        &[0x16, 0x08, 3, 0, 0x02, 1, 0x01, 0, 0],
        &[0x15, 0x03, 0, 0x08, 0, 0x80, 0x08, 0xff, 0xff, 0x03, 0],
        &[0x16, 0x04, 0x08, 0, 0, 0x02, 1, 0x02, 1, 0x01, 9, 0],
        &[0x15, 0x08, 0x08, 0x08, 0x08, 0x08, 0x08, 0x02, 1, 0x01, 9, 0],
    ];
    for bytes in good {
        assert_eq!(number(&with_invariant(bytes)), (0, 0), "{bytes:x?}");
        assert_eq!(number(&with_constraint(bytes)), (0, 0), "{bytes:x?}");
    }
    let bad: [&[u8]; 8] = [
        &[0x16, 0x02, 1, 0x08],
        &[0x16, 0x02, 1, 0x08, 3],
        &[0x16, 0x02, 1, 0x08, 3, 0],
        &[0x16, 0x02, 1, 0x08, 3, 0, 0x11, 0],
        &[0x16, 0x02, 1, 0x08, 3, 0, 0x02, 0],
        &[0x16, 0x02, 1, 0x08, 3, 0, 0x02, 1, 0],
        &[0x16, 0x02, 1, 0x09, 3, 0, 0x02, 1],
        &[0x08, 3, 0, 0x02, 1],
    ];
    for bytes in bad {
        assert_eq!(number(&with_invariant(bytes)), (8, 51), "{bytes:x?}");
        assert_eq!(number(&with_constraint(bytes)), (8, 57), "{bytes:x?}");
    }
    let next = [0x15, 0x08, 3, 0, 0x06, 1, 0x08, 5, 0, 0x07, 0];
    assert_eq!(number(&with_constraint(&next)), (0, 0));
    assert_eq!(number(&with_invariant(&next)), (8, 51));
}

#[test]
fn it_is_legal_in_every_expression() {
    let product = Boolean::Less(times(3, Integer::Status(0)), times(-3, Integer::Status(0)));
    let mut design = one_step(1, times(2, x()));
    design.variables.push(Variable { kind: Kind::Boolean, initial: 0 });
    let CellKind::Normal { guard, action, .. } = &mut design.cells[0].kind else { panic!() };
    *guard = Some(product.clone());
    action.push(Statement::AssignBoolean(1, product.clone()));
    action.push(Statement::If(product.clone(), vec![], vec![]));
    design.matrices[0].events = vec![product.clone()];
    design.invariant = product.clone();
    through_file(&design);
    design.constraint = Some(product);
    through_file(&design);
}

#[test]
fn it_adds_one_level_of_depth() {
    let assigned = |products| number(&file_bytes(&one_step(1, chain(products, &x())))).0;
    assert_eq!((assigned(15), assigned(16)), (0, 9));
    let compared = |products| {
        let invariant = Boolean::Less(x(), chain(products, &x()));
        number(&file_bytes(&Design { invariant, ..one_step(1, x()) })).0
    };
    assert_eq!((compared(14), compared(15)), (0, 8));
}

#[test]
fn its_value_is_the_product_wrapped() {
    for c in numbers() {
        for a in numbers() {
            let expected = wrapped(c as i32 * a as i32) as i16;
            let design = through_file(&one_step(a, times(c, x())));
            let after = step(&design, &start(&design), 0).unwrap();
            assert_eq!((after.state.values[0], after.idle), (expected, false), "{c} times {a}");
            let is = |value| Design {
                invariant: Boolean::Equal(times(c, x()), Integer::Constant(value)),
                ..design.clone()
            };
            for (value, truth) in [(expected, true), (expected.wrapping_add(1), false)] {
                let design = is(value);
                let held = holds(&design, &start(&design), INVARIANT);
                assert_eq!(held, Ok(truth), "{c} times {a}");
            }
        }
    }
    for (c, a, value) in [(-1, i16::MIN, i16::MIN), (i16::MIN, i16::MIN, 0), (3, 11_000, -32_536)] {
        let design = one_step(a, times(c, x()));
        assert_eq!(step(&design, &start(&design), 0).unwrap().state.values[0], value);
    }
}

/// In the formula for bound 1: the last frame's bits of the one model.
#[test]
fn its_circuit_has_the_same_value() {
    for c in numbers() {
        for a in numbers() {
            let mut design = one_step(a, times(c, x()));
            design.invariant = Boolean::Constant(false);
            let n = variables(&design, INVARIANT, 1);
            let models = models(n, &formula_words(&design, INVARIANT, 1));
            assert_eq!(models.len(), 1);
            // After x stand the status, the mark and the property's gate.
            let bits = &models[0][n - 22..n - 6];
            let value = bits.iter().rev().fold(0u16, |word, &bit| word << 1 | bit as u16) as i16;
            assert_eq!(value as i32, wrapped(c as i32 * a as i32), "{c} times {a}");
        }
    }
}

#[test]
fn a_verdict_finds_a_wrapped_product() {
    for c in EDGES {
        for a in EDGES {
            let product = wrapped(c as i32 * a as i32) as i16;
            let equal = Boolean::Equal(x(), Integer::Constant(product));
            let mut design = one_step(a, times(c, x()));
            design.invariant = Boolean::Not(Box::new(equal));
            let first = if a == product { 0 } else { 1 };
            let (verdict, choices) = verdict_of(&design, INVARIANT, 1, 0);
            assert_eq!(verdict.finding, Finding::Violated(first), "{c} times {a}");
            assert_eq!(choices, [if first == 1 { 0 } else { 255 }]);
        }
    }
}

fn sizes(design: &Design, property: u64, bound: u64) -> Size {
    size(Query::new(design, property), bound).unwrap()
}

/// Also for the bits of the constant that are 0.
#[test]
fn every_constant_has_as_many_gates() {
    let without = sizes(&one_step(1, x()), INVARIANT, 1);
    for c in numbers() {
        let with = sizes(&one_step(1, times(c, x())), INVARIANT, 1);
        assert_eq!(with.step_gates, without.step_gates + MARKING_GATES, "{c}");
        assert_eq!(with.variables, without.variables + MARKING_GATES, "{c}");
        assert_eq!(with.clauses, without.clauses + 18 * 272 + 2 * 3, "{c}");
        assert_eq!(with.words, without.words + 18 * 992 + 2 * 10, "{c}");
    }
    let twice = sizes(&one_step(1, times(0, times(0, x()))), INVARIANT, 1);
    assert_eq!(twice.step_gates, without.step_gates + 2 * MARKING_GATES);
    let invariant = Boolean::Less(times(7, x()), x());
    let judged = Design { invariant, ..one_step(1, x()) };
    assert_eq!(sizes(&judged, INVARIANT, 0).property_gates, GATES + 80 + 1);
    let constraint = Some(Boolean::Equal(times(7, Integer::NextVariable(0)), x()));
    let constrained = Design { constraint, ..one_step(1, x()) };
    let size = sizes(&constrained, CONSTRAINT, 1);
    assert_eq!(size.step_gates, without.step_gates + GATES + 32 + 1);
}

/// The clauses of xor(a, b) as gate g.
fn xor(g: i32, a: i32, b: i32) -> Vec<i32> {
    vec![-g, a, b, 0, -g, -a, -b, 0, g, -a, b, 0, g, a, -b, 0]
}

/// The invariant 0 = 5 x, at bound 0: x has variables 2 to 17, the status 18
/// to 21, the mark 22, and the product's gates start at 23. A sum's bit has 5
/// gates, of which the second is its result.
#[test]
fn sums_from_the_lowest_bit_of_the_shifted_operand_or_false() {
    let invariant = Boolean::Equal(Integer::Constant(0), times(5, x()));
    let words = part_words(&Design { invariant, ..one_step(1, x()) }, INVARIANT, 0, 1);
    let bit_words = 62;
    let first_gate = |sum: i32, bit: i32| 23 + 80 * sum + 5 * bit;
    for sum in 0..16 {
        for bit in 0..16 {
            let at = (16 * sum + bit) as usize * bit_words;
            let so_far = if sum == 0 { -1 } else { first_gate(sum - 1, bit) + 1 };
            let added = matches!(sum, 0 | 2) && bit >= sum;
            let addend = if added { 2 + bit - sum } else { -1 };
            let expected = xor(first_gate(sum, bit), so_far, addend);
            assert_eq!(words[at..at + expected.len()], expected, "sum {sum}, bit {bit}");
            if bit == 0 {
                let carry = xor(first_gate(sum, 0) + 1, first_gate(sum, 0), -1);
                let at = at + expected.len();
                assert_eq!(words[at..at + carry.len()], carry, "sum {sum}");
            }
        }
    }
    // Equal compares with the last sum.
    let expected = xor(23 + 1_280, -1, first_gate(15, 0) + 1);
    let at = 256 * bit_words;
    assert_eq!(words[at..at + expected.len()], expected);
}

/// What a formula writes, counted.
#[derive(Default)]
struct Written {
    clauses: u64,
    words: u64,
    greatest: u64,
}

impl Sink for Written {
    fn clause(&mut self, literals: &[i32]) {
        self.clauses += 1;
        self.words += literals.len() as u64 + 1;
        let greatest = literals.iter().map(|l| l.unsigned_abs() as u64).max();
        self.greatest = self.greatest.max(greatest.unwrap_or(0));
    }
}

/// Sizes are computed without a look at the gates; here they are.
#[test]
fn sizes_are_what_is_written() {
    let mut random = Random::new(8);
    let mut products = 0;
    for _ in 0..300 {
        let plan = any_plan(&mut random);
        let design = design(&mut random, plan);
        if design.movers().is_empty() {
            continue;
        }
        let property = property_of(&mut random, &design);
        let bound = random.between(0, 2) as u64;
        let formula = formula_of(&design, property, bound);
        let (size, mut whole) = (formula.size(), Written::default());
        for part in 0..=formula.last_part() {
            let mut written = Written::default();
            formula.write_clauses(part, &mut written);
            let count = formula.part_count(part);
            assert_eq!((written.clauses, written.words), (count.clauses, count.words));
            formula.write_clauses(part, &mut whole);
        }
        let expected = (size.clauses, size.words, size.variables);
        assert_eq!((whole.clauses, whole.words, whole.greatest), expected);
        products += (bound > 0 && plan.product_percent > 0) as u32;
    }
    assert!(products > 50, "{products}");
}
