//! Designs of many gates. A cell writes the gates of its event, so one long event of products counts for every cell that it has.

use super::small::true_of_length;
use super::terms::*;
use crate::builder::file_bytes;
use crate::design::{
    Boolean, Cell, Design, Integer, Statement, MAX_FILE, MAX_MOVERS, MAX_VARIABLES,
};

const MATRICES: u8 = 8;
const STATUSES: u8 = 16;
/// Long events of a matrix: the first matrices have two, so that there are 12 in all.
const TWO_LONG_EVENTS: u8 = 4;
/// The place of the normal cells; every other one of a long event may have an invalid cell.
const NORMAL_PLACE: Place = (MATRICES - 1, STATUSES - 1, 0);
/// Gates of a product, of a sum or a less, and of a cell's place without its event (an equal and two ands).
const PRODUCT: u64 = 1_280;
const SUM: u64 = 80;
const PLACE: u64 = 34;
/// In an action a product and a sum set the mark, too: by two comparisons and two ors, and by an xor and an or.
const MARKING_PRODUCT: u64 = PRODUCT + 2 * SUM + 2;
const MARKING_SUM: u64 = SUM + 2;
/// Products inside one another: as many as an assigned expression may have.
const CHAIN: usize = 15;

/// `count` products inside one another.
pub fn chain(count: usize, leaf: &Integer) -> Integer {
    (0..count).fold(leaf.clone(), |e, _| times(-3, e))
}

/// A sum of so many chains, which share the products.
fn sum_of_chains(products: usize, chains: usize, leaf: &Integer) -> Integer {
    if chains == 1 {
        return chain(products, leaf);
    }
    let left = chains.div_ceil(2);
    let products_left = (products * left).div_ceil(chains);
    plus(
        sum_of_chains(products_left, left, leaf),
        sum_of_chains(products - products_left, chains - left, leaf),
    )
}

/// The most gates that an event has: 78 products and 6 more operators in 254 bytes.
fn long_event() -> Boolean {
    let leaf = status(0);
    less(sum_of_chains(45, 4, &leaf), sum_of_chains(33, 3, &leaf))
}

const LONG_EVENT: u64 = 78 * PRODUCT + 6 * SUM;

fn long_events(matrix: u8) -> u8 {
    1 + (matrix < TWO_LONG_EVENTS) as u8
}

fn matrices() -> Vec<crate::design::Matrix> {
    let events = |m: u8| vec![long_event(); long_events(m) as usize];
    (0..MATRICES).map(|m| matrix(STATUSES, events(m))).collect()
}

/// Invalid cells with long events, the greatest number that there are places for or fewer.
fn invalid_cells(count: usize) -> Vec<Cell> {
    let statuses = |m: u8| (0..STATUSES).map(move |s| (m, s));
    let events = |(m, s): (u8, u8)| (0..long_events(m)).map(move |e| (m, s, e));
    let places = (0..MATRICES).flat_map(statuses).flat_map(events);
    places.filter(|place| *place != NORMAL_PLACE).take(count).map(invalid).collect()
}

/// Normal cells at one place, the first with an action.
fn normal_cells(count: usize, action: Vec<Statement>) -> Vec<Cell> {
    let with = |action| normal(NORMAL_PLACE, 0, None, action);
    let rest = vec![with(vec![]); count.saturating_sub(1)];
    [vec![with(action)], rest].concat()
}

/// The file with the most gates that we know how to make: 16,384 bytes, four fifths of them products.
pub fn most_gates() -> Design {
    let with = |action| Design {
        variables: vec![integer_from(1); MAX_VARIABLES],
        matrices: matrices(),
        cells: [invalid_cells(usize::MAX), normal_cells(MAX_MOVERS, action)].concat(),
        invariant: truth(true),
        constraint: None,
    };
    let rest = |design: &Design| MAX_FILE - file_bytes(design).len();
    let filled = with(filling(rest(&with(vec![]))));
    Design { invariant: true_of_length(2 + rest(&filled)), ..filled }
}

/// Statements of so many bytes, or a few less: ifs, which have muxes besides, and then assignments.
fn filling(bytes: usize) -> Vec<Statement> {
    const IF_LENGTH: usize = 92;
    let leaf = number(0);
    let condition = less(chain(CHAIN - 1, &leaf), chain(CHAIN - 1, &leaf));
    let mut list = vec![when(condition, vec![], vec![]); bytes / IF_LENGTH];
    let mut rest = bytes % IF_LENGTH;
    while rest >= 7 {
        let products = CHAIN.min((rest - 4) / 3);
        list.push(assign_integer(0, chain(products, &leaf)));
        rest -= 4 + 3 * products;
    }
    list
}

/// The bounds for which `design_of_variables` has a design.
pub const LARGE_BOUNDS: std::ops::RangeInclusive<u64> = 72..=84;

/// A design whose formula for property 1 and this bound has exactly `n` variables, a number near 2^31.
///
/// n = 1 + (k + 1)(S + P) + k(w + G). The gates of one more invalid cell bring S + P to the remainder of n - 1 by k; then the
/// normal cells and the action of the first bring w + G to the quotient.
pub fn design_of_variables(n: u64, bound: u64) -> Design {
    const INVALID: u64 = 190;
    // An integer, a Boolean, the statuses and the mark.
    const STATE_BITS: u64 = 16 + 1 + 4 * MATRICES as u64 + 1;
    // The last and is that with the mark.
    let property = INVALID * (PLACE + LONG_EVENT) + PLACE + 1;
    let ands = (n - 1 + bound - (STATE_BITS + property) % bound) % bound;
    let step = (n - 1 - (bound + 1) * (STATE_BITS + property + ands)) / bound;
    // The flag counts like a gate of its mover.
    let normal = 1 + PLACE + LONG_EVENT + STATE_BITS;
    let movers = (step / normal).min(MAX_MOVERS as u64);
    let mut matrices = matrices();
    let short = long_events(0);
    matrices[0].events.push(ands_of(ands));
    let cells = [
        invalid_cells(INVALID as usize),
        vec![invalid((0, 0, short))],
        normal_cells(movers as usize, action_of(step - movers * normal)),
    ];
    let mut cells = cells.concat();
    cells.sort_by_key(|cell| (cell.matrix, cell.status, cell.event));
    Design {
        variables: vec![integer_from(1), boolean_from(false)],
        matrices,
        cells,
        invariant: truth(true),
        constraint: None,
    }
}

/// A false expression of so many ands.
fn ands_of(count: u64) -> Boolean {
    match count {
        0 => truth(false),
        _ => and(ands_of((count - 1) / 2), ands_of(count / 2)),
    }
}

/// An expression of so many sums.
fn sums_of(count: u64, leaf: &Integer) -> Integer {
    match count {
        0 => leaf.clone(),
        _ => plus(sums_of((count - 1) / 2, leaf), sums_of(count / 2, leaf)),
    }
}

/// An action of so many gates, by products, sums and ands.
fn action_of(gates: u64) -> Vec<Statement> {
    let (products, rest) = (gates / MARKING_PRODUCT, gates % MARKING_PRODUCT);
    let (sums, ands) = (rest / MARKING_SUM, rest % MARKING_SUM);
    let leaf = number(0);
    let chains = products as usize / CHAIN;
    let mut list = vec![assign_integer(0, chain(CHAIN, &leaf)); chains];
    list.push(assign_integer(0, chain(products as usize % CHAIN, &leaf)));
    list.push(assign_integer(0, sums_of(sums, &leaf)));
    list.push(assign_boolean(1, ands_of(ands)));
    list
}
