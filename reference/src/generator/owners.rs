//! Requests of several owners on one design.

use super::calls::far_bound;
use super::files::{any_file, design_with_counter, small_design};
use super::known::design_for_verdict;
use super::near::{affordable_bound, budget_near, exact_tries, formula_of, length_near, MAX_TRIES};
use super::pieces::{any_piece, good_piece};
use crate::builder::{boolean_bytes, file_bytes};
use crate::design::{Boolean, Design};
use crate::formula::Size;
use crate::owners::{Ask, MAX_OWNERS};
use crate::protocol::hex;
use crate::query::{Query, INVARIANT};
use crate::random::Random;

/// A search over a formula is affordable below this product of its variables
/// and words; there may be four of them.
const MAX_SEARCH: u64 = 2_000_000;
/// The same for the known designs, of which there are few.
const MAX_KNOWN_SEARCH: u64 = 6_000_000;

/// A design, a bound, the lengths of the shared memory and the owners.
struct Call {
    file: Vec<u8>,
    bound: u64,
    lengths: [u64; 3],
    owners: Vec<Ask>,
}

impl Call {
    fn text(&self) -> String {
        let [clauses, values, trail] = self.lengths;
        let mut text =
            format!("owners {} {} {clauses} {values} {trail}", hex(&self.file), self.bound);
        for Ask { piece, budget, choices } in &self.owners {
            text += &format!(" {}:{budget}:{}", hex(piece), choices.len());
        }
        text
    }
}

/// The formula of an owner whose piece is taken, if it is affordable.
fn affordable(design: &Design, piece: &[u8], bound: u64) -> Option<Size> {
    let query = Query::new(design, INVARIANT).with_piece(piece);
    query.check_property().ok()?;
    let size = formula_of(query, bound).size();
    cheap(size.variables, size.words).then_some(size)
}

fn cheap(variables: u64, words: u64) -> bool {
    variables * words <= MAX_SEARCH
}

pub fn owners(random: &mut Random) -> String {
    let uneven = if random.chance(4) { uneven_owners(random) } else { None };
    uneven.unwrap_or_else(|| any_owners(random))
}

fn any_owners(random: &mut Random) -> String {
    let (design, mut file) =
        if random.chance(12) { design_with_counter(random) } else { small_design(random) };
    let count = any_count(random);
    // CHECK's refusal or 20.
    if !(1..=MAX_OWNERS).contains(&count) && random.chance(20) {
        file = any_file(random);
    }
    let pieces: Vec<Vec<u8>> = (0..count).map(|_| owner_piece(random, &design)).collect();
    let bound = common_bound(random, &design, &pieces);
    let owners = asks(random, &design, &pieces, bound);
    let sizes: Vec<Size> = pieces.iter().filter_map(|p| affordable(&design, p, bound)).collect();
    let lengths = lengths(random, &sizes);
    let bound = if random.chance(4) { far_bound(random) } else { bound };
    Call { file, bound, lengths, owners }.text()
}

/// Two owners: the last formula of one has the most words, and that of the
/// other the most variables. One asks of a piece of many gates, which breaks in
/// the first state, the other mostly of one that is tried at bound 1. `None`
/// where they are not so, or not affordable.
fn uneven_owners(random: &mut Random) -> Option<String> {
    let (design, file) = small_design(random);
    let (bound, other) = (1, good_piece(random, &design));
    let most_words = affordable(&design, &other, bound)?;
    let first = affordable(&design, &false_piece(0), 0)?;
    let fewer = most_words.variables.checked_sub(first.variables)? as usize;
    let gates = false_piece(fewer + random.between(1, 3));
    let most_variables = affordable(&design, &gates, 0)?;
    if most_variables.words >= most_words.words {
        return None;
    }
    let sizes = [affordable(&design, &gates, bound)?, most_words];
    let mut pieces = [gates, other];
    if random.chance(50) {
        pieces.reverse();
    }
    let owners = asks(random, &design, &pieces, bound);
    Some(Call { file, bound, lengths: lengths(random, &sizes), owners }.text())
}

/// A piece that is false, of so many gates, which are true: the search leaves
/// a value of 1 for each of them.
fn false_piece(gates: usize) -> Vec<u8> {
    boolean_bytes(&Boolean::Not(Box::new(true_of_gates(gates))))
}

fn true_of_gates(gates: usize) -> Boolean {
    let Some(rest) = gates.checked_sub(1) else {
        return Boolean::Constant(true);
    };
    let [a, b] = [rest / 2, rest - rest / 2].map(|gates| Box::new(true_of_gates(gates)));
    Boolean::And(a, b)
}

/// What the owners of these pieces ask.
fn asks(random: &mut Random, design: &Design, pieces: &[Vec<u8>], bound: u64) -> Vec<Ask> {
    let mut asks = vec![];
    for piece in pieces {
        let budget = any_budget(random, design, piece, bound);
        asks.push(Ask::new(piece, budget, choice_length(random, bound)));
    }
    asks
}

fn any_count(random: &mut Random) -> usize {
    match random.below(20) {
        0 => 0,
        1 => MAX_OWNERS + 1,
        2 => random.pick(&[6, 8]),
        3..=5 => 1,
        6..=8 => 2,
        9..=11 => 3,
        _ => MAX_OWNERS,
    }
}

/// Half of them good ones, and some damaged.
fn owner_piece(random: &mut Random, design: &Design) -> Vec<u8> {
    if random.chance(50) {
        good_piece(random, design)
    } else {
        any_piece(random, design)
    }
}

/// A bound at which every formula is affordable that is so at bound 0. The
/// others are too long for what is lent: refused by 16.
fn common_bound(random: &mut Random, design: &Design, pieces: &[Vec<u8>]) -> u64 {
    let most = random.pick(&[0, 1, 2, 2, 3, 3, 4]);
    let taken = pieces.iter().filter(|piece| affordable(design, piece, 0).is_some());
    let query = |piece| Query::new(design, INVARIANT).with_piece(piece);
    taken.map(|piece| affordable_bound(query(piece), most, cheap)).min().unwrap_or(most as u64)
}

/// None, one too few, just enough or more, where the search is affordable.
fn any_budget(random: &mut Random, design: &Design, piece: &[u8], bound: u64) -> u64 {
    let tries = affordable(design, piece, bound)
        .and_then(|_| exact_tries(Query::new(design, INVARIANT).with_piece(piece), bound));
    match tries {
        Some(tries) => budget_near(random, tries),
        None => random.between(0, MAX_TRIES as usize) as u64,
    }
}

/// Mostly enough; what is short for one owner is its own affair.
fn choice_length(random: &mut Random, bound: u64) -> usize {
    if random.chance(75) {
        bound as usize + random.below(3)
    } else {
        length_near(random, bound as usize)
    }
}

/// Lengths that suffice for all owners, or just for one of them, or nearly.
fn lengths(random: &mut Random, sizes: &[Size]) -> [u64; 3] {
    if sizes.is_empty() {
        return [(); 3].map(|()| random.pick(&[0, 5, 300]));
    }
    let one = &sizes[random.below(sizes.len())];
    let (words, variables) = match random.below(10) {
        0..=3 => (one.words, one.variables),
        _ => {
            let words = sizes.iter().map(|size| size.words).max();
            let variables = sizes.iter().map(|size| size.variables).max();
            (words.unwrap_or(0), variables.unwrap_or(0))
        }
    };
    let near = random.chance(30);
    [words, variables, variables].map(|length| {
        let length = length as usize;
        (if near { length_near(random, length) } else { length + random.below(4) }) as u64
    })
}

/// On a known design, owners who ask for all that there is to be told, beside
/// each other: every kind of budget, a damaged piece, no choices. Then the same
/// with no owner and one too many, with each memory short by one for the
/// longest formula, and with the bound that is refused.
pub fn all_owners(random: &mut Random) -> Vec<String> {
    let (design, most) = design_for_verdict(random);
    let (file, query) = (file_bytes(&design), Query::new(&design, INVARIANT));
    let bound = affordable_bound(query, most as usize, |n, words| n * words <= MAX_KNOWN_SEARCH);
    let Some(tries) = exact_tries(query, bound) else {
        return vec![];
    };
    let ask = |budget| Ask::new(&[], budget, bound as usize);
    let exact = ask(tries);
    let small = Ask { piece: vec![0x10, random.below(2) as u8], ..exact.clone() };
    let bad = Ask { piece: vec![0xff], ..exact.clone() };
    let short = Ask::new(&[], tries, (bound as usize).saturating_sub(1));
    let few = ask(tries.saturating_sub(1));
    let size = formula_of(query, bound).size();
    let lengths = [size.words, size.variables, size.variables];
    let lists = [
        vec![],
        vec![exact.clone()],
        vec![few.clone(), exact.clone(), ask(0), ask(u64::MAX)],
        vec![exact.clone(), bad.clone(), few, bad.clone()],
        vec![small.clone(), short, exact.clone()],
        vec![exact.clone(); MAX_OWNERS + 1],
    ];
    let call = |bound, lengths, owners| Call { file: file.clone(), bound, lengths, owners };
    let mut calls: Vec<Call> = lists.map(|owners| call(bound, lengths, owners)).into();
    for short in 0..3 {
        let mut lengths = lengths;
        lengths[short] -= 1;
        calls.push(call(bound, lengths, vec![exact.clone(), small.clone()]));
    }
    calls.push(call(101, lengths, vec![exact.clone(), bad]));
    calls.push(call(bound, lengths.map(|length| length + 9), vec![small, exact]));
    calls.iter().map(Call::text).collect()
}
