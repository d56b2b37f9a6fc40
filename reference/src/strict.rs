//! Strict runs, the second reading of docs/IDLE-STEPS.md: a choice idles only
//! where no mover is enabled.

use crate::design::{Design, Refusal};
use crate::query::{Claim, Query};
use crate::step::{claim_holds, start, step, State, Stepped};
use std::collections::HashMap;

/// The choices with which a strict run may go on, and the states they lead to:
/// the enabled movers. Where none is enabled it is every mover, since the step
/// idles whatever number it names.
fn strict_steps(design: &Design, state: &State) -> Vec<(u8, State)> {
    let choices = 0..design.movers().len() as u8;
    let moved =
        |choice: u8| step(design, state, choice as u64).expect("a state and a mover of the design");
    let steps: Vec<(u8, Stepped)> = choices.map(|choice| (choice, moved(choice))).collect();
    let none_enabled = steps.iter().all(|(_, stepped)| stepped.idle);
    let strict = steps.into_iter().filter(|(_, stepped)| none_enabled || !stepped.idle);
    strict.map(|(choice, stepped)| (choice, stepped.state)).collect()
}

/// Whether a list of choices is a strict run. A number that is no mover's is
/// no choice.
pub fn is_strict(design: &Design, choices: &[u8]) -> bool {
    let mut state = start(design);
    for choice in choices {
        let steps = strict_steps(design, &state);
        let Some((_, next)) = steps.into_iter().find(|(strict, _)| strict == choice) else {
            return false;
        };
        state = next;
    }
    true
}

/// By state, and by whether the property is broken already: how many strict
/// lists of one length lead there. Lists that agree in both go on alike.
type Level = HashMap<(State, bool), u128>;

/// The number of strict lists of exactly `bound` choices that break the
/// property, or none where there are too many lists to count. 13, 8 and 14 as
/// in REPLAY.
pub fn strict_breaking(query: Query<Design>, bound: u64) -> Result<Option<u128>, Refusal> {
    let claim = query.check_bound(bound)?;
    Ok(last_level(query.design, &claim, bound).map(|level| {
        let broken = level.iter().filter(|((_, broken), _)| *broken);
        broken.map(|(_, lists)| lists).sum()
    }))
}

fn last_level(design: &Design, claim: &Claim, bound: u64) -> Option<Level> {
    let first = start(design);
    let broken = !claim_holds(design, claim, None, &first);
    let mut level = Level::from([((first, broken), 1)]);
    for _ in 0..bound {
        level = next_level(design, claim, &level)?;
    }
    Some(level)
}

/// A list that is broken stays so, however it goes on. `None` where a number
/// of lists does not fit.
fn next_level(design: &Design, claim: &Claim, level: &Level) -> Option<Level> {
    let mut next = Level::new();
    let mut total: u128 = 0;
    for ((state, broken), lists) in level {
        for (_, after) in strict_steps(design, state) {
            let broken = *broken || !claim_holds(design, claim, Some(state), &after);
            // No entry is more than the total, so that no sum over entries passes the end.
            total = total.checked_add(*lists)?;
            *next.entry((after, broken)).or_insert(0) += lists;
        }
    }
    Some(next)
}
