//! Requests for the operations on a design.

use super::choices::any_choices;
use super::files::{
    any_design, any_file, design_to_encode, design_to_replay, design_with_counter,
    design_with_product, small_design,
};
use super::near::{
    affordable_bound, budget_near, exact_tries, formula_of, length_near, property_of, MAX_TRIES,
};
use super::pieces::any_piece;
use super::trees::{near_end, number};
use crate::design::{Design, Kind, MAX_MATRICES, MAX_VARIABLES};
use crate::formula::Formula;
use crate::protocol::{hex, list_text, state_text};
use crate::query::{Query, MAX_BOUND};
use crate::random::Random;
use crate::step::State;

/// The longest part, in words, and the most variables that a request lends.
pub const MAX_PART: u64 = 40_000;
const MAX_VALUES: u64 = 8_000;
/// A search over a formula is affordable below this product of its variables
/// and words.
const MAX_SEARCH: u64 = 4_000_000;
/// The same for designs with a counter or a product, of which there are few.
const MAX_COUNTER_SEARCH: u64 = 30_000_000;
const MAX_PRODUCT_SEARCH: u64 = 120_000_000;

pub fn check(random: &mut Random) -> String {
    format!("check {}", hex(&any_file(random)))
}

pub fn start(random: &mut Random) -> String {
    let (_, file) = any_design(random);
    format!("start {}", hex(&file))
}

pub fn step(random: &mut Random) -> String {
    let counter = random.chance(30);
    let (design, file) = if counter { design_with_counter(random) } else { any_design(random) };
    let movers = design.movers().len();
    let choice = any_choice(random, movers as u64);
    format!("step {} {} {choice}", hex(&file), state_fields(random, &design))
}

pub fn holds(random: &mut Random) -> String {
    let (design, file) = any_design(random);
    let property = any_property(random, &design);
    format!("holds {} {} {property}", hex(&file), state_fields(random, &design))
}

/// REPLAY and the Replay program take the same fields.
pub fn replay(random: &mut Random, operation: &str) -> String {
    let (design, mut file) = design_to_replay(random);
    if operation == "trace" && random.chance(1) {
        file.resize(random.pick(&[16_385, 16_386, 16_390]), 0);
    }
    let property = match operation {
        "trace" => property_byte(random, &design),
        _ => any_property(random, &design),
    };
    let piece = any_piece(random, &design);
    let choices = any_choices(random, &design);
    format!("{operation} {} {} {property} {}", hex(&file), hex(&piece), list_text(&choices))
}

pub fn size(random: &mut Random) -> String {
    let (design, file) = any_design(random);
    let (property, bound) = (any_property(random, &design), any_bound(random));
    format!("size {} {} {property} {bound}", hex(&file), hex(&any_piece(random, &design)))
}

pub fn encode(random: &mut Random) -> String {
    let (design, file) = design_to_encode(random);
    let (property, bound) = (any_property(random, &design), any_bound(random));
    let part = any_part(random, bound);
    let piece = any_piece(random, &design);
    let words = match Formula::new(Query::new(&design, property).with_piece(&piece), bound) {
        Ok(formula) if part <= formula.last_part() => formula.part_count(part).words,
        _ => random.between(0, 20) as u64,
    };
    let length = length_near(random, words.min(MAX_PART) as usize);
    format!("encode {} {} {property} {bound} {part} {length}", hex(&file), hex(&piece))
}

pub fn decode(random: &mut Random) -> String {
    let (design, file) = design_to_encode(random);
    let (property, piece) = (any_property(random, &design), any_piece(random, &design));
    let query = taken(random, Query::new(&design, property).with_piece(&piece));
    let bound = affordable_bound(query, random.between(0, 6), |n, _| n <= MAX_VALUES);
    let mut values = flagged_values(random, query, bound);
    if random.chance(30) {
        values.resize(length_near(random, values.len()), 255);
    }
    let bound = if random.chance(5) { far_bound(random) } else { bound };
    let choices = length_near(random, lent_choices(bound));
    let asked = format!("{} {} {property}", hex(&file), hex(&piece));
    format!("decode {asked} {bound} {} {choices}", list_text(&values))
}

pub fn verdict(random: &mut Random) -> String {
    let ((design, file), most) = match random.below(25) {
        0 => (design_with_product(random), MAX_PRODUCT_SEARCH),
        1..=3 => (design_with_counter(random), MAX_COUNTER_SEARCH),
        _ => (small_design(random), MAX_SEARCH),
    };
    let (property, piece) = (any_property(random, &design), any_piece(random, &design));
    let cheap = |n, words| n * words <= most;
    let query = taken(random, Query::new(&design, property).with_piece(&piece));
    let bound = affordable_bound(query, random.pick(&[0, 1, 2, 3, 3, 4, 4]), cheap);
    let mut size = formula_of(query, bound).size();
    let affordable = cheap(size.variables, size.words);
    let exact = if affordable { exact_tries(query, bound) } else { None };
    // Too long a search: the call is refused by 16 instead.
    if !affordable {
        size.words /= 2;
    }
    let budget = match exact {
        Some(tries) => budget_near(random, tries),
        None => random.between(0, MAX_TRIES as usize) as u64,
    };
    let bound = if random.chance(3) { far_bound(random) } else { bound };
    let lengths = verdict_lengths(random, size.words, size.variables, bound);
    let asked = format!("{} {} {property}", hex(&file), hex(&piece));
    format!("verdict {asked} {bound} {budget} {lengths}")
}

/// The query, or without its piece or with another property where it is
/// refused: the sizes of such a request are then those of a right one.
fn taken<'a>(random: &mut Random, query: Query<'a, Design>) -> Query<'a, Design> {
    let other = Query::new(query.design, property_of(random, query.design));
    let queries = [query, query.with_piece(&[])];
    queries.into_iter().find(|q| q.check_property().is_ok()).unwrap_or(other)
}

/// Lengths of clauses, values, trail and choices: mostly enough.
fn verdict_lengths(random: &mut Random, words: u64, variables: u64, bound: u64) -> String {
    let exact = [words, variables, variables, lent_choices(bound) as u64];
    let near = random.chance(40);
    let lengths: Vec<String> = exact
        .iter()
        .map(|&length| {
            let length = length as usize;
            let lent = if near { length_near(random, length) } else { length + random.below(3) };
            lent.to_string()
        })
        .collect();
    lengths.join(" ")
}

/// Numbers over a byte. Cut to one, most of them would be taken.
const OVER_A_BYTE: [u64; 6] = [256, 257, 300, 1 << 32, (1 << 32) + 1, u64::MAX];

fn any_property(random: &mut Random, design: &Design) -> u64 {
    if random.chance(4) {
        random.pick(&OVER_A_BYTE)
    } else {
        property_byte(random, design)
    }
}

/// A property as a program reads it: mostly one that the design has.
fn property_byte(random: &mut Random, design: &Design) -> u64 {
    if random.chance(85) {
        property_of(random, design)
    } else {
        random.pick(&[2, 2, 2, 3, 255])
    }
}

fn any_bound(random: &mut Random) -> u64 {
    match random.below(10) {
        0..=7 => random.between(0, 5) as u64,
        8 => random.pick(&[MAX_BOUND - 1, MAX_BOUND]),
        _ => far_bound(random),
    }
}

/// The greatest bound, or one beyond it.
pub fn far_bound(random: &mut Random) -> u64 {
    if random.chance(40) {
        random.pick(&OVER_A_BYTE)
    } else {
        random.pick(&[MAX_BOUND, MAX_BOUND + 1, 255])
    }
}

/// The choices to lend for a bound, which may be no bound.
fn lent_choices(bound: u64) -> usize {
    bound.min(255) as usize
}

fn any_part(random: &mut Random, bound: u64) -> u64 {
    let last = bound.min(255) + 2;
    match random.below(10) {
        0..=6 => random.between(0, last as usize) as u64,
        7 => last,
        _ => random.pick(&[last + 1, last + 2, 255, 256, 1 << 32, u64::MAX]),
    }
}

fn any_choice(random: &mut Random, movers: u64) -> u64 {
    match random.below(10) {
        0..=6 => random.below(movers as usize) as u64,
        7 => movers - 1,
        8 => movers,
        _ => random.pick(&[movers + 1, 64, 255, 256, 1 << 32, u64::MAX]),
    }
}

fn state_fields(random: &mut Random, design: &Design) -> String {
    let mut state = any_state(random, design);
    if random.chance(15) {
        for _ in 0..random.between(1, 2) {
            state_fault(random, design, &mut state);
        }
    }
    state_text(&state)
}

/// A state of the design, often at the place of one of its cells.
fn any_state(random: &mut Random, design: &Design) -> State {
    let mut state = State::ZERO;
    for (value, variable) in state.values.iter_mut().zip(&design.variables) {
        *value = match variable.kind {
            Kind::Integer if random.chance(40) => near_end(random),
            Kind::Integer => number(random),
            _ => random.chance(60) as i16,
        };
    }
    for (status, matrix) in state.statuses.iter_mut().zip(&design.matrices) {
        *status = random.below(matrix.statuses as usize) as u8;
    }
    if !design.cells.is_empty() && random.chance(80) {
        let cell = &design.cells[random.below(design.cells.len())];
        state.statuses[cell.matrix as usize] = cell.status;
    }
    state.mark = random.chance(20) as u16;
    state
}

fn state_fault(random: &mut Random, design: &Design, state: &mut State) {
    match random.below(5) {
        0 | 1 => {
            let at = random.below(MAX_VARIABLES);
            let integer = design.variables.get(at).is_some_and(|v| v.kind == Kind::Integer);
            state.values[at] = if integer { number(random) } else { random.pick(&[1, 2, -1, 256]) };
        }
        2 | 3 => {
            let at = random.below(MAX_MATRICES);
            let statuses = design.matrices.get(at).map_or(1, |m| m.statuses);
            state.statuses[at] = random.pick(&[statuses - 1, statuses, statuses + 1, 255]);
        }
        // Cut to a byte, two of these would be taken.
        _ => state.mark = random.pick(&[2, 255, 256, 257, u16::MAX]),
    }
}

/// Values with one flag set in each frame, except for some faults. Values
/// that are no flags may be anything. At bound 0, which has no flag, they may
/// be too few.
fn flagged_values(random: &mut Random, query: Query<Design>, bound: u64) -> Vec<u8> {
    let size = formula_of(query, bound).size();
    let lent = size.variables.min(MAX_VALUES);
    let mut values: Vec<u8> = (0..lent).map(|_| random.word() as u8).collect();
    let movers = size.movers as usize;
    let (first, frame) = (size.first_flag() as usize, size.frame_length() as usize);
    for j in 0..bound as usize {
        let flags = &mut values[first + j * frame..][..movers];
        flags.fill(0);
        flags[random.below(movers)] = 1;
        if random.chance(8) {
            flags[random.below(movers)] = random.pick(&[0, 1, 2, 255]);
        }
    }
    values
}
