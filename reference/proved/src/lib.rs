//! The operations of the proved archive.

pub mod cadical;
mod entries;
mod formula;
pub mod owners;
pub mod plain;
pub mod timing;
mod trace;

use entries::{stm_check, stm_holds, stm_refute, stm_replay, stm_solve, stm_start, stm_step};
use reference::design::{Refusal, MAX_MATRICES, MAX_VARIABLES};
use reference::operations::{Answer, Operations};
use reference::owners::{Owner, Shared, Told};
use reference::query::Query;
use reference::refute::Refuted;
use reference::search::{Outcome, Solved};
use reference::step::{Replayed, State, Stepped};

/// A refusal must leave lent memory as it was.
fn unchanged<T: PartialEq + std::fmt::Debug>(code: u64, before: T, after: T) {
    assert!(code == 0 || before == after, "code {code}: {before:?} became {after:?}");
}

/// A code of 0 is no refusal; else its low byte is the number and the rest the place.
fn answered<T>(code: u64, done: impl FnOnce() -> T) -> Answer<T> {
    match code {
        0 => Answer::Done(done()),
        _ => Answer::Refused(Refusal { number: (code % 256) as u8, place: code / 256 }),
    }
}

/// A state as the entries take it, with statuses of 16 bits.
#[derive(Clone, Copy, Debug, PartialEq, Eq)]
pub struct Lent {
    pub values: [i16; MAX_VARIABLES],
    pub statuses: [u16; MAX_MATRICES],
    pub mark: [u16; 1],
}

impl Lent {
    /// What stands in lent memory before START; a refused call must leave it.
    pub const FILLED: Lent = Lent { values: [-77; MAX_VARIABLES], statuses: [777; MAX_MATRICES], mark: [7_777] };
    /// Every entry 0, and no mark.
    pub const ZERO: Lent = Lent { values: [0; MAX_VARIABLES], statuses: [0; MAX_MATRICES], mark: [0] };

    fn of(state: &State) -> Lent {
        Lent { values: state.values, statuses: state.statuses.map(u16::from), mark: [state.mark] }
    }

    fn state(&self) -> State {
        let statuses = self.statuses.map(|s| u8::try_from(s).expect("a status over 255"));
        State { values: self.values, statuses, mark: self.mark[0] }
    }
}

/// The entries on lent memory, as C calls them.
pub fn start(design: &[u8], lent: &mut Lent) -> u64 {
    unsafe { stm_start(design.as_ptr(), design.len(), &mut lent.values, &mut lent.statuses, &mut lent.mark) }
}

pub fn step(design: &[u8], lent: &mut Lent, choice: u64, idle: &mut [u8; 1]) -> u64 {
    let Lent { values, statuses, mark } = lent;
    unsafe { stm_step(design.as_ptr(), design.len(), values, statuses, mark, choice, idle) }
}

pub fn holds(design: &[u8], lent: &Lent, property: u64, holds: &mut [u8; 1]) -> u64 {
    let Lent { values, statuses, mark: [mark] } = lent;
    unsafe { stm_holds(design.as_ptr(), design.len(), values, statuses, *mark, property, holds) }
}

pub fn replay(query: Query<[u8]>, choices: &[u8], answer: &mut [u64; 4]) -> u64 {
    let Query { design, piece, property } = query;
    let (design, piece) = ((design.as_ptr(), design.len()), (piece.as_ptr(), piece.len()));
    unsafe { stm_replay(design.0, design.1, piece.0, piece.1, property, choices.as_ptr(), choices.len(), answer) }
}

fn flag(byte: u8) -> bool {
    match byte {
        0 => false,
        1 => true,
        _ => panic!("a flag of {byte}"),
    }
}

/// By SOLVE's number.
const OUTCOMES: [Outcome; 3] = [Outcome::Sat, Outcome::Unsat, Outcome::Spent];

/// The proved operations.
pub struct Proved;

impl Operations for Proved {
    fn check(&mut self, design: &[u8]) -> Answer<()> {
        let code = unsafe { stm_check(design.as_ptr(), design.len()) };
        answered(code, || ())
    }

    fn start(&mut self, design: &[u8]) -> Answer<State> {
        let mut lent = Lent::FILLED;
        let code = start(design, &mut lent);
        unchanged(code, Lent::FILLED, lent);
        answered(code, || lent.state())
    }

    fn step(&mut self, design: &[u8], state: &State, choice: u64) -> Answer<Stepped> {
        let mut lent = Lent::of(state);
        let mut idle = [7];
        let code = step(design, &mut lent, choice, &mut idle);
        unchanged(code, (Lent::of(state), [7]), (lent, idle));
        answered(code, || Stepped { state: lent.state(), idle: flag(idle[0]) })
    }

    fn holds(&mut self, design: &[u8], state: &State, property: u64) -> Answer<bool> {
        let mut answer = [7];
        let code = holds(design, &Lent::of(state), property, &mut answer);
        unchanged(code, [7], answer);
        answered(code, || flag(answer[0]))
    }

    fn replay(&mut self, query: Query<[u8]>, choices: &[u8]) -> Answer<Replayed> {
        let mut answer = [7; 4];
        let code = replay(query, choices, &mut answer);
        unchanged(code, [7; 4], answer);
        answered(code, || match answer {
            [0, 0, events, guards] => Replayed { broken: None, events, guards },
            [1, step, events, guards] => Replayed { broken: Some(step), events, guards },
            _ => panic!("REPLAY answered {answer:?}"),
        })
    }

    fn trace(&mut self, query: Query<[u8]>, choices: &[u8]) -> Answer<Vec<u8>> {
        trace::trace(query, choices).map_or_else(
            |error| {
                eprintln!("trace: {error}");
                Answer::Missing
            },
            Answer::Done,
        )
    }

    fn solve(&mut self, n: u64, words: &[i32], values: &mut [u8], trail: &mut [u32], budget: u64) -> Answer<Solved> {
        let mut answer = [7; 2];
        let code = unsafe {
            stm_solve(
                n,
                words.as_ptr(),
                words.len(),
                values.as_mut_ptr(),
                values.len(),
                trail.as_mut_ptr(),
                trail.len(),
                budget,
                &mut answer,
            )
        };
        unchanged(code, [7; 2], answer);
        answered(code, || Solved { outcome: OUTCOMES[answer[0] as usize], tries: answer[1] })
    }

    fn refute(&mut self, n: u64, words: &[i32], refutation: &[i32], values: &mut [u8]) -> Answer<Refuted> {
        let mut answer = [7; 2];
        let code = unsafe {
            stm_refute(
                n,
                words.as_ptr(),
                words.len(),
                refutation.as_ptr(),
                refutation.len(),
                values.as_mut_ptr(),
                values.len(),
                &mut answer,
            )
        };
        unchanged(code, [7; 2], answer);
        answered(code, || match answer {
            [0, 0] => Refuted::Accepted,
            [1, word] => Refuted::Word(word),
            [2, 0] => Refuted::Ended,
            _ => panic!("REFUTE answered {answer:?}"),
        })
    }

    fn size(&mut self, query: Query<[u8]>, bound: u64) -> Answer<formula::Size> {
        formula::size(query, bound)
    }

    fn encode(&mut self, query: Query<[u8]>, bound: u64, part: u64, clauses: &mut [i32]) -> Answer<u64> {
        formula::encode(query, bound, part, clauses)
    }

    fn decode(&mut self, query: Query<[u8]>, bound: u64, values: &[u8], choices: &mut [u8]) -> Answer<()> {
        formula::decode(query, bound, values, choices)
    }

    fn verdict(&mut self, query: Query<[u8]>, bound: u64, budget: u64, lent: formula::Lent) -> Answer<formula::Verdict> {
        formula::verdict(query, bound, budget, lent)
    }

    fn owners(&mut self, design: &[u8], bound: u64, owners: &mut [Owner], shared: Shared) -> Answer<Vec<Told>> {
        owners::owners(design, bound, owners, shared)
    }
}
