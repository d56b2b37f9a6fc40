//! Ways to the same facts that do not use the code under test: breaking lists
//! by STEP, reachable states, and the models of a clause list.
#![allow(dead_code)]

use reference::builder::file_bytes;
use reference::design::{check, Boolean, CellKind, Design, Integer, Mover, Refusal};
use reference::formula::Formula;
use reference::query::{Query, CONSTRAINT};
use reference::random::Random;
use reference::search::{solve, Outcome, Solved};
use reference::step::{holds, start, step, Replayed, State};
use reference::verdict::{verdict, Lent, Verdict};
use std::collections::HashSet;

/// Every list of `length` choices below `movers`.
pub fn all_lists(movers: usize, length: usize) -> Vec<Vec<u8>> {
    let mut lists = vec![vec![]];
    for _ in 0..length {
        let longer = |list: &Vec<u8>| {
            let list = list.clone();
            (0..movers as u8).map(move |c| [list.clone(), vec![c]].concat())
        };
        lists = lists.iter().flat_map(longer).collect();
    }
    lists
}

/// Whether a list breaks the property, step by step.
pub fn breaks(design: &Design, property: u64, choices: &[u8]) -> bool {
    let states = states_of(design, choices);
    let bad = |before: &State, after: &State| bad_step(design, property, before, after);
    property != CONSTRAINT && bad(&states[0], &states[0])
        || states.windows(2).any(|pair| bad(&pair[0], &pair[1]))
}

/// Whether the property is false of a step's two states.
pub fn bad_step(design: &Design, property: u64, before: &State, after: &State) -> bool {
    match &design.constraint {
        Some(constraint) if property == CONSTRAINT => {
            after.mark == 1 || !says(constraint, before, after)
        }
        _ => !holds(design, after, property).unwrap(),
    }
}

/// What REPLAY answers.
pub fn replayed(broken: Option<u64>, events: u64, guards: u64) -> Result<Replayed, Refusal> {
    Ok(Replayed { broken, events, guards })
}

/// What is true of a normal cell in a state. A cell without a guard has none to
/// be true or false.
pub struct Tested {
    pub status: bool,
    pub event: bool,
    pub guard: Option<bool>,
}

/// The first state, and the state after each choice, by STEP.
pub fn states_of(design: &Design, choices: &[u8]) -> Vec<State> {
    let mut states = vec![start(design)];
    for (i, &choice) in choices.iter().enumerate() {
        states.push(step(design, &states[i], choice as u64).unwrap().state);
    }
    states
}

/// What is true of each choice in the state of the same index; `None` for an
/// external.
pub fn tested(design: &Design, choices: &[u8], states: &[State]) -> Vec<Option<Tested>> {
    let movers = design.movers();
    let tested_choice = |(&choice, state): (&u8, &State)| match movers[choice as usize] {
        Mover::Cell(i) => Some(tested_cell(design, i, state)),
        Mover::External(_) => None,
    };
    choices.iter().zip(states).map(tested_choice).collect()
}

fn tested_cell(design: &Design, index: usize, state: &State) -> Tested {
    let cell = &design.cells[index];
    let CellKind::Normal { guard, .. } = &cell.kind else { panic!("no mover") };
    let event = &design.matrices[cell.matrix as usize].events[cell.event as usize];
    Tested {
        status: state.statuses[cell.matrix as usize] == cell.status,
        event: says(event, state, state),
        guard: guard.as_ref().map(|g| says(g, state, state)),
    }
}

/// What an expression says of two states.
pub fn says(e: &Boolean, before: &State, after: &State) -> bool {
    let of = |a: &Boolean| says(a, before, after);
    let number = |a: &Integer| number_in(a, before, after);
    match e {
        Boolean::Constant(c) => *c,
        Boolean::Variable(v) => before.values[*v as usize] != 0,
        Boolean::NextVariable(v) => after.values[*v as usize] != 0,
        Boolean::Not(a) => !of(a),
        Boolean::And(a, b) => of(a) & of(b),
        Boolean::Or(a, b) => of(a) | of(b),
        Boolean::Equal(a, b) => number(a) == number(b),
        Boolean::Less(a, b) => number(a) < number(b),
    }
}

/// The number from -32,768 to 32,767 that differs by a multiple of 65,536.
pub fn wrapped(n: i32) -> i32 {
    (n + 32_768).rem_euclid(65_536) - 32_768
}

/// By remainders, where the code under test wraps.
pub fn number_in(e: &Integer, before: &State, after: &State) -> i32 {
    let of = |a: &Integer| number_in(a, before, after);
    match e {
        Integer::Constant(c) => *c as i32,
        Integer::Variable(v) => before.values[*v as usize] as i32,
        Integer::Status(m) => before.statuses[*m as usize] as i32,
        Integer::NextVariable(v) => after.values[*v as usize] as i32,
        Integer::NextStatus(m) => after.statuses[*m as usize] as i32,
        Integer::Sum(a, b) => wrapped(of(a) + of(b)),
        Integer::Difference(a, b) => wrapped(of(a) - of(b)),
        Integer::Product(c, a) => wrapped(*c as i32 * of(a)),
    }
}

/// Whether a sum, difference or product of the expression has an exact value
/// that does not fit 16 bits.
pub fn passes_an_end(e: &Boolean, state: &State) -> bool {
    match e {
        Boolean::Constant(_) | Boolean::Variable(_) | Boolean::NextVariable(_) => false,
        Boolean::Not(a) => passes_an_end(a, state),
        Boolean::And(a, b) | Boolean::Or(a, b) => [a, b].iter().any(|e| passes_an_end(e, state)),
        Boolean::Equal(a, b) | Boolean::Less(a, b) => {
            [a, b].iter().any(|e| number_passes_an_end(e, state))
        }
    }
}

pub fn number_passes_an_end(e: &Integer, state: &State) -> bool {
    let value = |a: &Integer| number_in(a, state, state);
    let (operands, exact) = match e {
        Integer::Sum(a, b) => (vec![a, b], value(a) + value(b)),
        Integer::Difference(a, b) => (vec![a, b], value(a) - value(b)),
        Integer::Product(c, a) => (vec![a], *c as i32 * value(a)),
        _ => return false,
    };
    exact != wrapped(exact) || operands.iter().any(|a| number_passes_an_end(a, state))
}

pub fn breaking_lists(design: &Design, property: u64, length: usize) -> Vec<Vec<u8>> {
    let mut lists = all_lists(design.movers().len(), length);
    lists.retain(|list| breaks(design, property, list));
    lists
}

/// The fewest steps to a state where `bad` is true of a step's two states, by
/// breadth-first search over STEP; `None` where every reachable one is good.
/// `from_start` asks the first state, too.
pub fn first_bad_step(
    design: &Design,
    from_start: bool,
    bad: impl Fn(&State, &State) -> bool,
) -> Option<usize> {
    let first = start(design);
    let mut seen = HashSet::from([first]);
    let mut level = vec![first];
    if from_start && bad(&first, &first) {
        return Some(0);
    }
    for depth in 1.. {
        let mut next = vec![];
        for state in level {
            for choice in 0..design.movers().len() as u64 {
                let after = step(design, &state, choice).unwrap().state;
                if bad(&state, &after) {
                    return Some(depth);
                }
                if seen.insert(after) {
                    next.push(after);
                }
            }
        }
        if next.is_empty() {
            return None;
        }
        level = next;
    }
    None
}

pub fn first_break(design: &Design, property: u64) -> Option<usize> {
    first_bad_step(design, property != CONSTRAINT, |before, after| {
        bad_step(design, property, before, after)
    })
}

pub fn formula_of(design: &Design, property: u64, bound: u64) -> Formula<'_> {
    Formula::new(Query::new(design, property), bound).unwrap()
}

/// A property that the design has.
pub fn property_of(random: &mut Random, design: &Design) -> u64 {
    random.between(0, 1 + design.constraint.is_some() as usize) as u64
}

/// The words of a part, or of all parts joined.
pub fn part_words(design: &Design, property: u64, bound: u64, part: u64) -> Vec<i32> {
    let formula = formula_of(design, property, bound);
    let mut words = vec![0; formula.part_count(part).words as usize];
    assert_eq!(formula.write_part(part, &mut words), words.len() as u64);
    words
}

pub fn formula_words(design: &Design, property: u64, bound: u64) -> Vec<i32> {
    let parts = 0..=bound + 2;
    parts.flat_map(|part| part_words(design, property, bound, part)).collect()
}

pub fn variables(design: &Design, property: u64, bound: u64) -> usize {
    formula_of(design, property, bound).variables() as usize
}

/// SOLVE on memory of its own: the answer and the values.
pub fn solved(n: usize, words: &[i32], budget: u64) -> (Solved, Vec<u8>) {
    let (mut values, mut trail) = (vec![7; n], vec![7; n]);
    let answer = solve(n as u64, words, &mut values, &mut trail, budget).unwrap();
    assert!(trail.iter().all(|&t| t == 0));
    (answer, values)
}

/// VERDICT on memory of its own: the answer and the choices.
pub fn verdict_of(design: &Design, property: u64, bound: u64, budget: u64) -> (Verdict, Vec<u8>) {
    let size = formula_of(design, property, bound).size();
    let n = size.variables as usize;
    let mut choices = vec![255; bound as usize];
    let lent = Lent {
        clauses: &mut vec![0; size.words as usize],
        values: &mut vec![0; n],
        trail: &mut vec![0; n],
        choices: &mut choices,
    };
    (verdict(Query::new(design, property), bound, budget, lent).unwrap(), choices)
}

/// The design as its file says it, which also checks the file.
pub fn through_file(design: &Design) -> Design {
    let read = check(&file_bytes(design)).unwrap();
    assert_eq!(&read, design);
    read
}

pub fn satisfies(words: &[i32], values: &[u8]) -> bool {
    let is_true = |l: i32| (values[l.unsigned_abs() as usize - 1] == 1) == (l > 0);
    let mut clauses: Vec<&[i32]> = words.split(|&w| w == 0).collect();
    clauses.pop();
    clauses.iter().all(|clause| clause.iter().any(|&l| is_true(l)))
}

/// Models by trying every assignment; for short lists only.
pub fn models_by_table(n: usize, words: &[i32]) -> Vec<Vec<u8>> {
    let row = |i: u32| (0..n).map(|v| (i >> v & 1) as u8).collect::<Vec<u8>>();
    (0..1u32 << n).map(row).filter(|values| satisfies(words, values)).collect()
}

pub fn is_sat(answer: &Solved) -> bool {
    answer.outcome == Outcome::Sat
}
