//! Requests on the known designs, and whole series of requests: every part of a formula, every kind of budget and memory.

use super::calls::MAX_PART;
use super::files::design_to_encode;
use super::near::{exact_tries, formula_of, property_of};
use super::pieces::good_piece;
use crate::builder::file_bytes;
use crate::design::{check, Design};
use crate::designs::all_files;
use crate::protocol::hex;
use crate::query::Query;
use crate::random::Random;

/// Small designs and the bounds up to which a verdict on them takes few tries.
const VERDICTS: [(&str, u64); 20] = [
    ("design-a.stm", 4),
    ("first-state.stm", 4),
    ("turnstile.stm", 4),
    ("crossing.stm", 3),
    ("mutex.stm", 2),
    ("wrap.stm", 4),
    ("nested-ifs.stm", 4),
    ("old-status.stm", 4),
    ("operators.stm", 3),
    ("lock.stm", 2),
    ("moved.stm", 4),
    ("no-idle.stm", 4),
    ("crossing-turns.stm", 3),
    ("vending.stm", 1),
    ("minus-three.stm", 2),
    ("barrier.stm", 3),
    ("branch-taken.stm", 3),
    ("wrapping-guard.stm", 3),
    ("negated.stm", 2),
    ("later-mark.stm", 3),
];

pub fn design_for_verdict(random: &mut Random) -> (Design, u64) {
    let (name, most) = random.pick(&VERDICTS);
    let files = all_files();
    let known = files.iter().find(|file| file.0 == name);
    let design = check(&known.expect("a known name").1).expect("a known design is accepted");
    (design, random.between(0, most as usize) as u64)
}

/// None, or one that is taken.
fn some_piece(random: &mut Random, design: &Design) -> Vec<u8> {
    if random.chance(50) {
        vec![]
    } else {
        good_piece(random, design)
    }
}

/// Every part of a formula, each into memory that is short by one, just suffices, and is longer; a long part into memory that is
/// short alone.
pub fn all_parts(random: &mut Random) -> Vec<String> {
    let (design, file) = design_to_encode(random);
    let (property, bound) = (property_of(random, &design), random.between(0, 3) as u64);
    let piece = some_piece(random, &design);
    let formula = formula_of(Query::new(&design, property).with_piece(&piece), bound);
    let asked = format!("{} {} {property}", hex(&file), hex(&piece));
    let mut requests = vec![];
    for part in 0..=formula.last_part() {
        let words = formula.part_count(part).words;
        let enough = if words <= MAX_PART { vec![words, words + 7] } else { vec![] };
        let short = words.saturating_sub(1).min(MAX_PART);
        for length in [vec![short], enough].concat() {
            requests.push(format!("encode {asked} {bound} {part} {length}"));
        }
    }
    requests
}

/// A verdict with no try, one too few, just enough and more; then each memory short by one, and all of it longer.
pub fn all_budgets(random: &mut Random) -> Vec<String> {
    let (design, bound) = design_for_verdict(random);
    let property = property_of(random, &design);
    let piece = some_piece(random, &design);
    let plain = Query::new(&design, property);
    let lent = plain.with_piece(&piece);
    let (query, tries) = match exact_tries(lent, bound) {
        Some(tries) => (lent, tries),
        // The bounds are affordable for the file's own properties.
        None => (plain, exact_tries(plain, bound).unwrap_or(20)),
    };
    let size = formula_of(query, bound).size();
    let exact = [size.words, size.variables, size.variables, bound];
    let mut requests = vec![];
    let mut add = |budget: u64, lengths: [u64; 4]| {
        let [clauses, values, trail, choices] = lengths;
        let asked = format!("{} {} {property}", hex(&file_bytes(&design)), hex(query.piece));
        let lengths = format!("{clauses} {values} {trail} {choices}");
        requests.push(format!("verdict {asked} {bound} {budget} {lengths}"));
    };
    for budget in [0, tries.saturating_sub(1), tries, tries + 1, u64::MAX] {
        add(budget, exact);
    }
    for short in 0..4 {
        let mut lengths = exact;
        lengths[short] = lengths[short].saturating_sub(1);
        add(tries, lengths);
    }
    add(tries, exact.map(|length| length + 3));
    requests
}
