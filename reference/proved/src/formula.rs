//! SIZE, ENCODE, DECODE and VERDICT of the proved archive.

use super::entries::{stm_decode, stm_encode, stm_size, stm_verdict};
use super::{answered, unchanged};
pub use reference::formula::Size;
use reference::operations::Answer;
use reference::query::Query;
use reference::verdict::Finding;
pub use reference::verdict::{Lent, Verdict};

/// What stands in the answer's words before a call.
const FILLED: u64 = 7;

/// An answer that is told in words.
fn told<T, const N: usize>(code: u64, words: [u64; N], answer: impl FnOnce([u64; N]) -> T) -> Answer<T> {
    unchanged(code, [FILLED; N], words);
    answered(code, || answer(words))
}

pub fn size(query: Query<[u8]>, bound: u64) -> Answer<Size> {
    let Query { design, piece, property } = query;
    let mut words = [FILLED; 7];
    let code = unsafe { stm_size(design.as_ptr(), design.len(), piece.as_ptr(), piece.len(), property, bound, &mut words) };
    told(code, words, |[state_bits, property_gates, movers, step_gates, variables, clauses, words]| Size {
        state_bits,
        property_gates,
        movers,
        step_gates,
        variables,
        clauses,
        words,
    })
}

pub fn encode(query: Query<[u8]>, bound: u64, part: u64, clauses: &mut [i32]) -> Answer<u64> {
    let Query { design, piece, property } = query;
    let mut words = [FILLED; 1];
    let code = unsafe {
        let (at, len) = (clauses.as_mut_ptr(), clauses.len());
        let (design, piece) = ((design.as_ptr(), design.len()), (piece.as_ptr(), piece.len()));
        stm_encode(design.0, design.1, piece.0, piece.1, property, bound, part, at, len, &mut words)
    };
    told(code, words, |[count]| count)
}

pub fn decode(query: Query<[u8]>, bound: u64, values: &[u8], choices: &mut [u8]) -> Answer<()> {
    let Query { design, piece, property } = query;
    let code = unsafe {
        let (at, len) = (choices.as_mut_ptr(), choices.len());
        let (design, piece) = ((design.as_ptr(), design.len()), (piece.as_ptr(), piece.len()));
        stm_decode(design.0, design.1, piece.0, piece.1, property, bound, values.as_ptr(), values.len(), at, len)
    };
    answered(code, || ())
}

pub fn verdict(query: Query<[u8]>, bound: u64, budget: u64, lent: Lent) -> Answer<Verdict> {
    let Query { design, piece, property } = query;
    let mut words = [FILLED; 3];
    let code = unsafe {
        stm_verdict(
            design.as_ptr(),
            design.len(),
            piece.as_ptr(),
            piece.len(),
            property,
            bound,
            budget,
            lent.clauses.as_mut_ptr(),
            lent.clauses.len(),
            lent.values.as_mut_ptr(),
            lent.values.len(),
            lent.trail.as_mut_ptr(),
            lent.trail.len(),
            lent.choices.as_mut_ptr(),
            lent.choices.len(),
            &mut words,
        )
    };
    told(code, words, verdict_of)
}

/// The verdict that three words tell.
pub fn verdict_of(words: [u64; 3]) -> Verdict {
    match words {
        [0, 0, tries] => Verdict { finding: Finding::Clean, tries },
        [1, step, tries] => Verdict { finding: Finding::Violated(step), tries },
        [2, bound, tries] => Verdict { finding: Finding::Spent(bound), tries },
        _ => panic!("a verdict of {words:?}"),
    }
}
