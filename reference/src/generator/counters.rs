//! Designs whose counter stands near an end of the integers: some of their sums, differences and products pass it, in statements and
//! conditions, which sets the mark, and in guards, events and properties, which does not.

use super::trees::{breakable, near_end};
use crate::design::{Boolean, Cell, Design, Integer, Statement, MAX_NESTED_IFS};
use crate::designs::terms::*;
use crate::random::Random;

/// The variables of such a design.
const COUNTER: u8 = 0;
const FLAG: u8 = 1;

/// A counter, a flag and in some an external; one cell or two, each with a statement or two. So few gates that a search over it is
/// affordable, but for ifs inside one another.
pub fn counter_design(random: &mut Random) -> Design {
    let mut variables = vec![integer_from(near_end(random)), boolean_from(random.chance(50))];
    if random.chance(30) {
        variables.push(external());
    }
    let event = if random.chance(20) { condition(random) } else { truth(true) };
    let statuses = 1 + random.chance(40) as u8;
    let count = random.pick(&[1, 1, 2]);
    let mut cells: Vec<Cell> = (0..count).map(|_| counting_cell(random, statuses)).collect();
    if statuses > 1 && random.chance(50) {
        cells.push(invalid((0, 1, 0)));
    }
    let mut design = Design {
        variables,
        matrices: vec![matrix(statuses, vec![event])],
        cells,
        invariant: truth(true),
        constraint: None,
    };
    design.invariant = judged(random, &design);
    design.constraint = random.chance(60).then(|| judged_step(random));
    design
}

fn counting_cell(random: &mut Random, statuses: u8) -> Cell {
    let guard = random.chance(30).then(|| condition(random));
    let ifs = random.pick(&[0, 0, 1, 1, 2, MAX_NESTED_IFS as usize]);
    let action = list(random, ifs);
    normal((0, 0, 0), random.below(statuses as usize) as u8, guard, action)
}

/// Statements of which one has ifs this deep inside one another.
fn list(random: &mut Random, ifs: usize) -> Vec<Statement> {
    let mut list = vec![statement(random, ifs)];
    if random.chance(30) {
        list.insert(random.below(2), statement(random, 0));
    }
    list
}

fn statement(random: &mut Random, ifs: usize) -> Statement {
    match random.below(10) {
        _ if ifs > 0 => {
            let (condition, then) = (condition(random), list(random, ifs - 1));
            let other = if random.chance(50) { vec![statement(random, 0)] } else { vec![] };
            // Which of the lists is the deep one.
            match random.below(2) {
                0 => when(condition, then, other),
                _ => when(condition, other, then),
            }
        }
        0..=6 => assign_integer(COUNTER, number_near(random)),
        _ => assign_boolean(FLAG, condition(random)),
    }
}

/// A number that is often next to an end, or past it.
fn number_near(random: &mut Random) -> Integer {
    let step = |random: &mut Random| constant(random.pick(&[1, 1, 2, -1, 3]));
    let x = || number(COUNTER);
    match random.below(20) {
        0..=4 => plus(x(), step(random)),
        5..=9 => minus(x(), step(random)),
        // One passes the end and the other comes back, or passes it once more.
        10 | 11 => minus(plus(x(), step(random)), step(random)),
        12 | 13 => plus(step(random), minus(x(), step(random))),
        14 => plus(x(), x()),
        15 | 16 => minus(constant(random.pick(&[0, -1, 1])), x()),
        17 => minus(x(), plus(x(), step(random))),
        _ => times(random.pick(&[-1, -1, -1, 0, 1, 2, -2, 3, i16::MAX, i16::MIN]), x()),
    }
}

fn compared(random: &mut Random) -> Boolean {
    let (a, b) = (number_near(random), constant(near_end(random)));
    match random.below(4) {
        0 => less(a, b),
        1 => less(b, a),
        2 => equal(a, b),
        _ => less(a, constant(0)),
    }
}

/// A comparison, or one beside something that decides without it.
fn condition(random: &mut Random) -> Boolean {
    let leaf = if random.chance(50) { is(FLAG) } else { truth(random.chance(50)) };
    let e = compared(random);
    match random.below(8) {
        0 => and(leaf, e),
        1 => and(e, leaf),
        2 => or(leaf, e),
        3 => or(e, leaf),
        4 => not(e),
        _ => e,
    }
}

/// True, so that the mark alone breaks it; or about the counter, by a sum that wraps; or one that a few steps may break.
fn judged(random: &mut Random, design: &Design) -> Boolean {
    match random.below(3) {
        0 => truth(true),
        1 => condition(random),
        _ => breakable(random, design),
    }
}

/// The same of a step: true, or about the counter before it and after it.
fn judged_step(random: &mut Random) -> Boolean {
    match random.below(4) {
        0 => truth(true),
        1 => condition(random),
        2 => equal(next_number(COUNTER), number_near(random)),
        _ => not(equal(next_number(COUNTER), number(COUNTER))),
    }
}
