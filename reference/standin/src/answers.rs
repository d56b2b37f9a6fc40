//! What each entry answers. A refused call writes nothing.

use crate::lent::{Asked, Returned};
use reference::design::{Refusal, MAX_MATRICES, MAX_VARIABLES};
use reference::entries::OwnerAnswer;
use reference::operations::{Answer, Operations, Reference};
use reference::owners::{Owner, Shared, Told};
use reference::query::Query;
use reference::refute::Refuted;
use reference::search::Outcome;
use reference::step::State;
use reference::verdict::{Finding, Lent, Verdict};

/// A place that is greater is told as this one.
const MOST_PLACE: u64 = (1 << 56) - 1;

/// The code of an answer; what is not refused is given to `done` first.
fn code<T>(answer: Answer<T>, done: impl FnOnce(T)) -> u64 {
    match answer {
        Answer::Done(value) => {
            done(value);
            0
        }
        Answer::Refused(Refusal { number, place }) => number as u64 + 256 * place.min(MOST_PLACE),
        Answer::Missing => unreachable!("the second implementation has every operation"),
    }
}

/// A state as it is lent; a status over 255 is refused like 255, which no design has either.
fn state(values: &[i16; MAX_VARIABLES], statuses: &[u16; MAX_MATRICES], mark: u16) -> State {
    State { values: *values, statuses: statuses.map(|s| s.min(255) as u8), mark }
}

pub fn stm_check(design: &[u8]) -> u64 {
    code(Reference.check(design), |()| ())
}

pub fn stm_start(
    design: &[u8],
    values: &mut [i16; MAX_VARIABLES],
    statuses: &mut [u16; MAX_MATRICES],
    mark: &mut [u16; 1],
) -> u64 {
    code(Reference.start(design), |first| {
        *values = first.values;
        *statuses = first.statuses.map(u16::from);
        *mark = [first.mark];
    })
}

pub fn stm_step(
    design: &[u8],
    values: &mut [i16; MAX_VARIABLES],
    statuses: &mut [u16; MAX_MATRICES],
    mark: &mut [u16; 1],
    choice: u64,
    idle: &mut [u8; 1],
) -> u64 {
    let before = state(values, statuses, mark[0]);
    code(Reference.step(design, &before, choice), |stepped| {
        *values = stepped.state.values;
        *statuses = stepped.state.statuses.map(u16::from);
        *mark = [stepped.state.mark];
        *idle = [stepped.idle as u8];
    })
}

pub fn stm_holds(
    design: &[u8],
    values: &[i16; MAX_VARIABLES],
    statuses: &[u16; MAX_MATRICES],
    mark: u16,
    property: u64,
    holds: &mut [u8; 1],
) -> u64 {
    let state = state(values, statuses, mark);
    code(Reference.holds(design, &state, property), |found| *holds = [found as u8])
}

pub fn stm_replay(query: Query<[u8]>, choices: &[u8], answer: &mut [u64; 4]) -> u64 {
    code(Reference.replay(query, choices), |replayed| {
        let (broken, step) = replayed.broken.map_or((0, 0), |step| (1, step));
        *answer = [broken, step, replayed.events, replayed.guards];
    })
}

pub fn stm_size(query: Query<[u8]>, bound: u64, answer: &mut [u64; 7]) -> u64 {
    code(Reference.size(query, bound), |size| *answer = size.numbers())
}

pub fn stm_encode(query: Query<[u8]>, bound: u64, part: u64, clauses: &mut [i32], answer: &mut [u64; 1]) -> u64 {
    code(Reference.encode(query, bound, part, clauses), |count| *answer = [count])
}

pub fn stm_solve(
    n: u64,
    words: &[i32],
    values: &mut [u8],
    trail: &mut [u32],
    budget: u64,
    answer: &mut [u64; 2],
) -> u64 {
    code(Reference.solve(n, words, values, trail, budget), |solved| {
        let outcome = match solved.outcome {
            Outcome::Sat => 0,
            Outcome::Unsat => 1,
            Outcome::Spent => 2,
        };
        *answer = [outcome, solved.tries];
    })
}

pub fn stm_refute(n: u64, words: &[i32], refutation: &[i32], values: &mut [u8], answer: &mut [u64; 2]) -> u64 {
    code(Reference.refute(n, words, refutation, values), |refuted| {
        *answer = match refuted {
            Refuted::Accepted => [0, 0],
            Refuted::Word(word) => [1, word],
            Refuted::Ended => [2, 0],
        };
    })
}

pub fn stm_decode(query: Query<[u8]>, bound: u64, values: &[u8], choices: &mut [u8]) -> u64 {
    code(Reference.decode(query, bound, values, choices), |()| ())
}

#[allow(clippy::too_many_arguments)]
pub fn stm_verdict(
    query: Query<[u8]>,
    bound: u64,
    budget: u64,
    clauses: &mut [i32],
    values: &mut [u8],
    trail: &mut [u32],
    choices: &mut [u8],
    answer: &mut [u64; 3],
) -> u64 {
    let lent = Lent { clauses, values, trail, choices };
    code(Reference.verdict(query, bound, budget, lent), |verdict| *answer = numbers(verdict))
}

/// A verdict as an entry tells it.
fn numbers(verdict: Verdict) -> [u64; 3] {
    let (kind, at) = match verdict.finding {
        Finding::Clean => (0, 0),
        Finding::Violated(step) => (1, step),
        Finding::Spent(bound) => (2, bound),
    };
    [kind, at, verdict.tries]
}

fn owner_answer(told: Told) -> OwnerAnswer {
    match told {
        Ok(verdict) => {
            let [kind, at, tries] = numbers(verdict);
            [0, 0, kind, at, tries]
        }
        Err(Refusal { number, place }) => [number as u64, place, 0, 0, 0],
    }
}

pub fn stm_owners(
    design: &[u8],
    bound: u64,
    asked: Asked,
    clauses: &mut [i32],
    values: &mut [u8],
    trail: &mut [u32],
    returned: Returned,
) -> u64 {
    let lent = asked.pieces.into_iter().zip(asked.budgets).zip(returned.choices);
    let mut owners: Vec<Owner> = lent.map(|((piece, &budget), choices)| Owner { piece, budget, choices }).collect();
    // More owners than places are refused as none are: by 20, after CHECK.
    let used = if asked.count > owners.len() as u64 { 0 } else { asked.count as usize };
    let shared = Shared { clauses, values, trail };
    code(Reference.owners(design, bound, &mut owners[..used], shared), |answers| {
        for (place, answer) in returned.answers.iter_mut().zip(answers) {
            *place = owner_answer(answer);
        }
    })
}
