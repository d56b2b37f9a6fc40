//! The formula of document 01, with the constraints and products of document
//! 02: SIZE, ENCODE and DECODE.

mod circuit;
mod cost;
mod expression;
mod mover;
mod parts;
mod sink;
mod state;

use crate::design::{refusal, Design, Refusal};
use crate::query::Query;
pub use parts::{Formula, Size};
pub use sink::{Count, Sink};

/// SIZE: 13, 8, 14, 19.
pub fn size(query: Query<Design>, bound: u64) -> Result<Size, Refusal> {
    Ok(Formula::new(query, bound)?.size())
}

/// ENCODE: 13, 8, 14, 19, 15, 16. It answers the number of words written.
pub fn encode(
    query: Query<Design>,
    bound: u64,
    part: u64,
    clauses: &mut [i32],
) -> Result<u64, Refusal> {
    let formula = Formula::new(query, bound)?;
    if part > formula.last_part() {
        return Err(refusal(15, 0));
    }
    let words = formula.part_count(part).words;
    if (clauses.len() as u64) < words {
        return Err(refusal(16, 0));
    }
    Ok(formula.write_part(part, clauses))
}

/// DECODE: 13, 8, 14, 19, 16, 18. It writes the one mover flagged in each frame.
pub fn decode(
    query: Query<Design>,
    bound: u64,
    values: &[u8],
    choices: &mut [u8],
) -> Result<(), Refusal> {
    let formula = Formula::new(query, bound)?;
    if (values.len() as u64) < formula.variables() || (choices.len() as u64) < bound {
        return Err(refusal(16, 0));
    }
    let decoded = formula.decode(values)?;
    choices[..decoded.len()].copy_from_slice(&decoded);
    Ok(())
}
