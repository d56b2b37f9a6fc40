//! Requests on designs whose formula has 2^31 variables or nearly so many: on both sides of refusal 19.

use super::near::length_near;
use super::pieces::any_piece;
use crate::builder::file_bytes;
use crate::design::Design;
use crate::designs::{design_of_variables, most_gates, LARGE_BOUNDS};
use crate::protocol::{hex, list_text};
use crate::query::{MAX_BOUND, NO_INVALID_CELL};
use crate::random::Random;
use crate::search::MAX_VARIABLE;

/// The longest buffer that these requests lend: much less than a frame's part.
const MAX_LENT: usize = 300;

/// A design near the limit, and the bound at which its variables are near it.
pub fn large_design(random: &mut Random) -> (Design, u64) {
    if random.chance(20) {
        return (most_gates(), random.pick(&[69, 70]));
    }
    let bound = random.between(*LARGE_BOUNDS.start() as usize, *LARGE_BOUNDS.end() as usize) as u64;
    let n = match random.below(6) {
        0 | 1 => MAX_VARIABLE,
        2 | 3 => MAX_VARIABLE + 1,
        4 => MAX_VARIABLE - 1,
        _ => MAX_VARIABLE + 100 - random.below(200) as u64,
    };
    (design_of_variables(n, bound), bound)
}

/// What such a request asks about: mostly property 1, which reads no piece, at
/// the bound or next to it.
struct Asked {
    /// Design, piece and property.
    query: String,
    bound: u64,
}

fn asked(random: &mut Random) -> Asked {
    let (design, bound) = large_design(random);
    let near = [bound, bound, bound + 1, bound + 1, bound - 1];
    let bound = match random.below(8) {
        0 => random.pick(&[0, 1, 2]),
        1 => random.pick(&[MAX_BOUND, MAX_BOUND + 1]),
        _ => random.pick(&near),
    };
    let property = if random.chance(85) { NO_INVALID_CELL } else { random.pick(&[0, 0, 2, 3]) };
    let (file, piece) = (file_bytes(&design), any_piece(random, &design));
    Asked { query: format!("{} {} {property}", hex(&file), hex(&piece)), bound }
}

/// A request for an operation that 19 is a refusal of.
pub fn request(random: &mut Random, operation: &str) -> Option<String> {
    match operation {
        "size" => Some(size(random)),
        "encode" => Some(encode(random)),
        "decode" => Some(decode(random)),
        "verdict" => Some(verdict(random)),
        _ => None,
    }
}

fn size(random: &mut Random) -> String {
    let Asked { query, bound } = asked(random);
    format!("size {query} {bound}")
}

/// Part 0 and the last part are short; a frame's part is refused by 16, and a part over the last by 15.
fn encode(random: &mut Random) -> String {
    let Asked { query, bound } = asked(random);
    let last = bound + 2;
    let part = match random.below(6) {
        0 | 1 => 0,
        2 => last,
        3 => random.between(1, bound as usize + 1) as u64,
        _ => random.pick(&[last + 1, last + 2, 1 << 32, u64::MAX]),
    };
    format!("encode {query} {bound} {part} {}", short_length(random))
}

/// Too few values, whatever they are: 16 on one side of the limit, 19 on the other.
fn decode(random: &mut Random) -> String {
    let Asked { query, bound } = asked(random);
    let count = short_length(random);
    let values: Vec<u8> = (0..count).map(|_| random.pick(&[0, 1, 2, 255])).collect();
    let choices = length_near(random, bound as usize);
    format!("decode {query} {bound} {} {choices}", list_text(&values))
}

/// Memory that is too short for all but the smallest formulas.
fn verdict(random: &mut Random) -> String {
    let Asked { query, bound } = asked(random);
    let lengths = [(); 4].map(|()| short_length(random).to_string()).join(" ");
    format!("verdict {query} {bound} {} {lengths}", random.below(3))
}

fn short_length(random: &mut Random) -> usize {
    random.pick(&[0, 1, 75, MAX_LENT])
}
