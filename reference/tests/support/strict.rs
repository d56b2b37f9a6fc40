//! Strict runs by their definition, list by list, and definitions that are wrong. Enabled is what the tests of a mover say, not
//! what STEP says of idle.
#![allow(dead_code)]

use crate::support::{all_lists, says, states_of};
use reference::design::{CellKind, Design, Mover};
use reference::query::Query;
use reference::step::{replay, step, State};

/// A list of choices, and what is known of each of its states.
pub struct Run {
    pub choices: Vec<u8>,
    pub broken: Option<u64>,
    pub last: State,
    /// The movers before the externals.
    cells: usize,
    /// By state, the last one too, and by mover.
    enabled: Vec<Vec<bool>>,
    /// Whether a mover's step changes the state.
    changes: Vec<Vec<bool>>,
}

/// Every list of so many choices.
pub fn runs(query: Query<Design>, length: usize) -> Vec<Run> {
    let lists = all_lists(query.design.movers().len(), length);
    lists.into_iter().map(|choices| run(query, choices)).collect()
}

pub fn run(query: Query<Design>, choices: Vec<u8>) -> Run {
    let design = query.design;
    let movers = design.movers();
    let states = states_of(design, &choices);
    let in_each = |says: &dyn Fn(&State, usize) -> bool| -> Vec<Vec<bool>> {
        let in_state = |state| (0..movers.len()).map(|mover| says(state, mover)).collect();
        states.iter().map(in_state).collect()
    };
    let moved = |state: &State, mover| step(design, state, mover as u64).unwrap().state;
    Run {
        broken: replay(query, &choices).unwrap().broken,
        last: states[choices.len()],
        cells: movers.iter().filter(|mover| matches!(mover, Mover::Cell(_))).count(),
        enabled: in_each(&|state, mover| is_enabled(design, movers[mover], state)),
        changes: in_each(&|state, mover| moved(state, mover) != *state),
        choices,
    }
}

fn is_enabled(design: &Design, mover: Mover, state: &State) -> bool {
    let index = match mover {
        Mover::External(v) => return state.values[v] == 0,
        Mover::Cell(index) => index,
    };
    let cell = &design.cells[index];
    let CellKind::Normal { guard, .. } = &cell.kind else { panic!("no mover") };
    state.statuses[cell.matrix as usize] == cell.status
        && says(design.event_of(cell), state, state)
        && guard.as_ref().is_none_or(|g| says(g, state, state))
}

fn none(enabled: &[bool]) -> bool {
    !enabled.contains(&true)
}

impl Run {
    /// Whether every choice, by the index of the state that it acts on, may be made.
    fn every(&self, may: impl Fn(usize, usize) -> bool) -> bool {
        self.choices.iter().enumerate().all(|(i, &choice)| may(i, choice as usize))
    }

    pub fn idles(&self) -> bool {
        !self.every(|i, choice| self.enabled[i][choice])
    }

    /// A choice is made where no mover is enabled.
    pub fn meets_deadlock(&self) -> bool {
        !self.every(|i, _| !none(&self.enabled[i]))
    }

    /// A choice idles only where no mover is enabled.
    pub fn is_strict(&self) -> bool {
        self.every(|i, choice| self.enabled[i][choice] || none(&self.enabled[i]))
    }
}

/// Which lists a wrong definition counts, of those that break the property.
pub type Wrong = (&'static str, fn(&Run) -> bool);

pub const WRONG: [Wrong; 7] = [
    ("it may idle anywhere", |_| true),
    ("it may never idle", |run| !run.idles()),
    ("where no mover is enabled it counts once", |run| {
        run.every(|i, choice| run.enabled[i][choice] || (none(&run.enabled[i]) && choice == 0))
    }),
    ("a self-loop is idle", |run| {
        run.every(|i, choice| run.changes[i][choice] || none(&run.changes[i]))
    }),
    ("enabled is judged after the step", |run| {
        run.every(|i, choice| run.enabled[i + 1][choice] || none(&run.enabled[i + 1]))
    }),
    ("an external is no mover", |run| {
        run.every(|i, choice| run.enabled[i][choice] || none(&run.enabled[i][..run.cells]))
    }),
    ("a broken list does not go on", |run| {
        run.is_strict() && run.broken == Some(run.choices.len() as u64)
    }),
];

/// How many of the lists break the property and are counted.
pub fn count(runs: &[Run], counted: fn(&Run) -> bool) -> u128 {
    runs.iter().filter(|run| run.broken.is_some() && counted(run)).count() as u128
}
