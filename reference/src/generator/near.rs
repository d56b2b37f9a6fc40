//! Bounds that a request can afford, and lengths and budgets near what a call
//! needs.

use crate::design::Design;
use crate::formula::Formula;
use crate::query::{Query, CONSTRAINT, NO_INVALID_CELL};
use crate::random::Random;
use crate::verdict::{verdict, Lent};

/// A search that takes more tries is not made.
pub const MAX_TRIES: u64 = 80;

/// A property that the design has.
pub fn property_of(random: &mut Random, design: &Design) -> u64 {
    let last = if design.constraint.is_some() { CONSTRAINT } else { NO_INVALID_CELL };
    random.between(0, last as usize) as u64
}

/// The formula of a query and a bound that are taken.
pub fn formula_of(query: Query<Design>, bound: u64) -> Formula {
    Formula::new(query, bound).expect("a property and a bound that are taken")
}

/// The greatest bound up to `bound` whose formula is affordable, or 0.
pub fn affordable_bound(
    query: Query<Design>,
    bound: usize,
    affordable: impl Fn(u64, u64) -> bool,
) -> u64 {
    let fits = |k: &u64| {
        let size = formula_of(query, *k).size();
        affordable(size.variables, size.words)
    };
    (0..=bound as u64).rev().find(fits).unwrap_or(0)
}

/// The tries of VERDICT with no budget set, where they are few.
pub fn exact_tries(query: Query<Design>, bound: u64) -> Option<u64> {
    let size = formula_of(query, bound).size();
    let n = size.variables as usize;
    let lent = Lent {
        clauses: &mut vec![0; size.words as usize],
        values: &mut vec![0; n],
        trail: &mut vec![0; n],
        choices: &mut vec![0; bound as usize],
    };
    let found = verdict(query, bound, MAX_TRIES, lent).ok()?;
    (found.tries < MAX_TRIES).then_some(found.tries)
}

/// One less, exact, or more than the needed length.
pub fn length_near(random: &mut Random, length: usize) -> usize {
    match random.below(10) {
        0 => length.saturating_sub(1),
        1..=5 => length,
        6..=7 => length + 1,
        8 => length + random.below(10),
        _ => random.below(length + 1),
    }
}

/// One less, exact, one more, or far from the needed tries.
pub fn budget_near(random: &mut Random, tries: u64) -> u64 {
    match random.below(8) {
        0 => 0,
        1 | 2 => tries.saturating_sub(1),
        3 | 4 => tries,
        5 => tries + 1,
        6 => random.below(tries as usize + 1) as u64,
        _ => u64::MAX,
    }
}
