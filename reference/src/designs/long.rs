//! A design of long events and guards: what it takes to test a cell is then most of what a step takes.

use super::terms::*;
use crate::design::{Boolean, Cell, Design, Integer};

const STATUSES: u8 = 16;
const EVENTS: u8 = 4;
const VARIABLES: usize = 4;
/// Operands of the sums: as many as an event of 255 bytes has, and as many as the file has room for in 64 guards.
const EVENT_SUM: usize = 84;
const GUARD_SUM: usize = 73;

/// A sum of so many variables in turn, from variable `first` on.
fn sum_from(first: usize, count: usize) -> Integer {
    if count == 1 {
        return number((first % VARIABLES) as u8);
    }
    let left = count / 2;
    plus(sum_from(first, left), sum_from(first + left, count - left))
}

/// A comparison of such a sum with 0 that has this value: in a run of 100 choices every variable stays above 0, and no sum wraps.
fn compared(value: bool, count: usize) -> Boolean {
    let sum = sum_from(0, count);
    if value {
        less(constant(0), sum)
    } else {
        less(sum, constant(0))
    }
}

/// One matrix with a normal cell at each of its 64 places, so that the status of one cell in 16 stands. Events 0 and 1 are true, and
/// the guards of event 0's cells; these count a variable up and go on to the next status.
pub fn long_tests() -> Design {
    let cell = |s: u8, e: u8| -> Cell {
        let v = s % VARIABLES as u8;
        let count = assign_integer(v, plus(number(v), constant(1)));
        normal((0, s, e), (s + 1) % STATUSES, Some(compared(e == 0, GUARD_SUM)), vec![count])
    };
    Design {
        variables: vec![integer_from(1); VARIABLES],
        matrices: vec![matrix(STATUSES, (0..EVENTS).map(|e| compared(e < 2, EVENT_SUM)).collect())],
        cells: (0..STATUSES).flat_map(|s| (0..EVENTS).map(move |e| cell(s, e))).collect(),
        invariant: less(status(0), constant(STATUSES as i16)),
        constraint: None,
    }
}
