//! Several owners by the proved archive.

use super::answered;
use super::entries::stm_owners;
use super::formula::verdict_of;
use reference::design::Refusal;
use reference::entries::{Choices, OwnerAnswer, Piece};
use reference::operations::Answer;
pub use reference::owners::{Owner, Shared, Told, MAX_OWNERS};

/// What stands in every answer before a call.
pub const FILLED: OwnerAnswer = [7; 5];

/// The call as C makes it: its four places are lent whatever the number of owners.
pub struct Call<'a> {
    pub design: &'a [u8],
    pub bound: u64,
    pub owners: u64,
    pub pieces: [&'a [u8]; MAX_OWNERS],
    pub budgets: [u64; MAX_OWNERS],
    pub shared: Shared<'a>,
    pub choices: [&'a mut [u8]; MAX_OWNERS],
}

/// The code, and the answers with FILLED in every place that the call has not written.
pub fn call(mut call: Call) -> (u64, [OwnerAnswer; MAX_OWNERS]) {
    let pieces = call.pieces.map(|piece| Piece { bytes: piece.as_ptr(), len: piece.len() });
    let choices = call.choices.each_mut();
    let mut places = choices.map(|buffer| Choices { choices: buffer.as_mut_ptr(), len: buffer.len() });
    let before = places.map(|place| (place.choices, place.len));
    let mut answers = [FILLED; MAX_OWNERS];
    let Shared { clauses, values, trail } = call.shared;
    let code = unsafe {
        stm_owners(
            call.design.as_ptr(),
            call.design.len(),
            call.bound,
            call.owners,
            &pieces,
            &call.budgets,
            clauses.as_mut_ptr(),
            clauses.len(),
            values.as_mut_ptr(),
            values.len(),
            trail.as_mut_ptr(),
            trail.len(),
            &mut places,
            &mut answers,
        )
    };
    assert_eq!(places.map(|place| (place.choices, place.len)), before, "the array of the choice buffers has changed");
    (code, answers)
}

fn told(answer: OwnerAnswer) -> Told {
    match answer {
        [0, 0, kind, at, tries] => Ok(verdict_of([kind, at, tries])),
        [number @ 1..=255, place, 0, 0, 0] => Err(Refusal { number: number as u8, place }),
        _ => panic!("an owner is told {answer:?}"),
    }
}

/// In a place without an owner stand a piece that no design takes and choices that have to be kept.
const NO_PIECE: &[u8] = &[0xff];
const KEPT: [u8; 3] = [7; 3];

/// Owners beyond the four places are counted, but not lent.
pub fn owners(design: &[u8], bound: u64, owners: &mut [Owner], shared: Shared) -> Answer<Vec<Told>> {
    let count = owners.len();
    let mut unused = [KEPT; MAX_OWNERS];
    let mut given: Vec<Owner> = owners
        .iter_mut()
        .map(|owner| Owner { piece: owner.piece, budget: owner.budget, choices: &mut *owner.choices })
        .chain(unused.iter_mut().map(|choices| Owner { piece: NO_PIECE, budget: u64::MAX, choices }))
        .take(MAX_OWNERS)
        .collect();
    let budgets = std::array::from_fn(|i| given[i].budget);
    let pieces = std::array::from_fn(|i| given[i].piece);
    let mut buffers = given.iter_mut().map(|owner| &mut *owner.choices);
    let choices = std::array::from_fn(|_| buffers.next().expect("four places"));
    let (code, answers) = call(Call { design, bound, owners: count as u64, pieces, budgets, shared, choices });
    let written = if code == 0 { count } else { 0 };
    assert!(answers[written..].iter().all(|answer| *answer == FILLED), "code {code}: {answers:?}");
    assert_eq!(unused, [KEPT; MAX_OWNERS], "choices of a place without an owner have changed");
    answered(code, || answers[..count].iter().map(|answer| told(*answer)).collect())
}
