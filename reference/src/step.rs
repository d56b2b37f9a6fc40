//! One step of document 01, with the constraint, the order of tests and the
//! mark of document 02: START, STEP, HOLDS and REPLAY.

use crate::design::{
    refusal, Boolean, Cell, CellKind, Design, Integer, Kind, Mover, Refusal, Statement,
    MAX_MATRICES, MAX_VARIABLES,
};
use crate::pair::Pair;
use crate::query::{Claim, Query};

/// The place of the mark in refusal 11, after the values and the statuses.
pub const MARK_PLACE: usize = MAX_VARIABLES + MAX_MATRICES;

/// The lent form of a state; entries that the design does not use are 0.
#[derive(Clone, Copy, Debug, PartialEq, Eq, Hash)]
pub struct State {
    pub values: [i16; MAX_VARIABLES],
    pub statuses: [u8; MAX_MATRICES],
    /// 1 once a statement or condition has passed an end of the integers, else
    /// 0. Any other number is refused.
    pub mark: u16,
}

impl State {
    pub const ZERO: State =
        State { values: [0; MAX_VARIABLES], statuses: [0; MAX_MATRICES], mark: 0 };

    /// An end has been passed: no property is true here.
    fn marked(&self) -> bool {
        self.mark == 1
    }
}

#[derive(Clone, Copy, Debug, PartialEq, Eq)]
pub struct Stepped {
    pub state: State,
    pub idle: bool,
}

/// What REPLAY answers.
#[derive(Clone, Copy, Debug, PartialEq, Eq)]
pub struct Replayed {
    /// The first breaking step, or none.
    pub broken: Option<u64>,
    /// Events read: the choices of normal cells whose status stood.
    pub events: u64,
    /// Guards read: those of them whose event was true.
    pub guards: u64,
}

/// A list of choices, run from the first state, with the counts of REPLAY.
pub struct Run {
    /// The first state, not idle, and then the state after each choice.
    pub states: Vec<Stepped>,
    pub events: u64,
    pub guards: u64,
}

/// Which tests of a chosen cell are made. What is answered is the same.
#[derive(Clone, Copy, Debug, PartialEq, Eq)]
pub enum Tests {
    /// Up to the first that fails.
    UpToFailure,
    /// All of them, as a measure of what leaving off saves.
    All,
}

/// The tests of a normal cell, in their order: status, event, guard.
const TESTS: usize = 3;

/// START: initial values, every status 0, no mark.
pub fn start(design: &Design) -> State {
    let mut state = State::ZERO;
    for (value, variable) in state.values.iter_mut().zip(&design.variables) {
        *value = variable.initial;
    }
    state
}

/// STEP: 11 for the state, then 12 for the choice.
pub fn step(design: &Design, state: &State, choice: u64) -> Result<Stepped, Refusal> {
    check_state(design, state)?;
    let movers = design.movers();
    if choice >= movers.len() as u64 {
        return Err(refusal(12, 0));
    }
    Ok(moved(design, state, movers[choice as usize], Tests::UpToFailure).0)
}

/// HOLDS: 11 for the state, then 13 for the property. It takes no piece.
pub fn holds(design: &Design, state: &State, property: u64) -> Result<bool, Refusal> {
    check_state(design, state)?;
    let claim = Query::new(design, property).check_state_property()?;
    Ok(claim_holds(design, &claim, None, state))
}

/// REPLAY: the first breaking step, or none, and the counts of the whole run.
pub fn replay(query: Query<Design>, choices: &[u8]) -> Result<Replayed, Refusal> {
    replay_by(query, choices, Tests::UpToFailure)
}

/// REPLAY, where these tests are made.
pub fn replay_by(query: Query<Design>, choices: &[u8], tests: Tests) -> Result<Replayed, Refusal> {
    let claim = check_replay(query, choices)?;
    let Run { states, events, guards } = run(query.design, choices, tests);
    let broken = (0..states.len()).find(|&i| !holds_at(query.design, &claim, &states, i));
    Ok(Replayed { broken: broken.map(|i| i as u64), events, guards })
}

/// The refusals of REPLAY, in its order: 13, 8, 14, 12.
pub fn check_replay<'a>(query: Query<'a, Design>, choices: &[u8]) -> Result<Claim<'a>, Refusal> {
    let claim = query.check_bound(choices.len() as u64)?;
    let movers = query.design.movers().len();
    match choices.iter().position(|&c| c as usize >= movers) {
        Some(i) => Err(refusal(12, i)),
        None => Ok(claim),
    }
}

/// Every choice has to be a mover's number.
pub fn run(design: &Design, choices: &[u8], tests: Tests) -> Run {
    let movers = design.movers();
    let first = Stepped { state: start(design), idle: false };
    let mut run = Run { states: vec![first], events: 0, guards: 0 };
    for &choice in choices {
        let last = run.states[run.states.len() - 1].state;
        let (stepped, passed) = moved(design, &last, movers[choice as usize], tests);
        run.states.push(stepped);
        // Its status stood.
        run.events += (passed >= 1) as u64;
        // Its event was true, too.
        run.guards += (passed >= 2) as u64;
    }
    run
}

fn check_state(design: &Design, state: &State) -> Result<(), Refusal> {
    let bad_value = (0..MAX_VARIABLES).find(|&i| !value_fits(design, i, state.values[i]));
    let bad_status = || (0..MAX_MATRICES).find(|&i| !status_fits(design, i, state.statuses[i]));
    let bad_mark = || (state.mark > 1).then_some(MARK_PLACE);
    match bad_value.or_else(|| bad_status().map(|i| MAX_VARIABLES + i)).or_else(bad_mark) {
        Some(index) => Err(refusal(11, index)),
        None => Ok(()),
    }
}

fn value_fits(design: &Design, index: usize, value: i16) -> bool {
    match design.variables.get(index) {
        None => value == 0,
        Some(v) => v.kind == Kind::Integer || value == 0 || value == 1,
    }
}

fn status_fits(design: &Design, index: usize, status: u8) -> bool {
    match design.matrices.get(index) {
        None => status == 0,
        Some(m) => status < m.statuses,
    }
}

/// Whether the property is true at step i of a run. A list of choices breaks
/// it at the steps where it is not.
pub fn holds_at(design: &Design, claim: &Claim, run: &[Stepped], i: usize) -> bool {
    let before = i.checked_sub(1).map(|earlier| &run[earlier].state);
    claim_holds(design, claim, before, &run[i].state)
}

/// `before` is the state that the last choice acted on. The first state has
/// none, and no constraint is false there.
pub(crate) fn claim_holds(
    design: &Design,
    claim: &Claim,
    before: Option<&State>,
    state: &State,
) -> bool {
    if state.marked() {
        return false;
    }
    match claim {
        Claim::Invariant(e) => truth(Pair::one(state), e),
        Claim::NoInvalidCell => {
            let invalid = |cell: &&Cell| cell.kind == CellKind::Invalid;
            !design.cells.iter().filter(invalid).any(|cell| at_place(design, state, cell))
        }
        Claim::Constraint(e) => {
            before.is_none_or(|earlier| truth(Pair { earlier, next: state }, e))
        }
    }
}

/// The cell's matrix has its status.
pub(crate) fn has_status(state: &State, cell: &Cell) -> bool {
    state.statuses[cell.matrix as usize] == cell.status
}

fn has_event(design: &Design, state: &State, cell: &Cell) -> bool {
    truth(Pair::one(state), design.event_of(cell))
}

/// The cell's matrix has its status and its event is true.
fn at_place(design: &Design, state: &State, cell: &Cell) -> bool {
    has_status(state, cell) && has_event(design, state, cell)
}

/// The step, and how many tests its cell passed. An external has no tests.
fn moved(design: &Design, state: &State, mover: Mover, tests: Tests) -> (Stepped, usize) {
    let mut next = *state;
    let (idle, passed) = match mover {
        Mover::Cell(i) => {
            let passed = run_cell(design, &design.cells[i], &mut next, tests);
            (passed < TESTS, passed)
        }
        Mover::External(v) => {
            next.values[v] = 1;
            (state.values[v] == 1, 0)
        }
    };
    (Stepped { state: next, idle }, passed)
}

/// Runs a cell that passes all its tests; any other changes nothing. Answers
/// how many tests passed.
fn run_cell(design: &Design, cell: &Cell, state: &mut State, tests: Tests) -> usize {
    let CellKind::Normal { target, guard, action } = &cell.kind else {
        return 0;
    };
    let before = &*state;
    let status = || has_status(before, cell);
    let event = || has_event(design, before, cell);
    let guard = || guard.as_ref().is_none_or(|g| truth(Pair::one(before), g));
    let passed = passed([&status, &event, &guard], tests);
    if passed == TESTS {
        run_list(state, action);
        state.statuses[cell.matrix as usize] = *target;
    }
    passed
}

/// How many tests pass before the first that fails.
fn passed(in_order: [&dyn Fn() -> bool; TESTS], tests: Tests) -> usize {
    match tests {
        Tests::UpToFailure => in_order.iter().take_while(|test| test()).count(),
        Tests::All => in_order.map(|test| test()).iter().take_while(|passed| **passed).count(),
    }
}

fn run_list(state: &mut State, list: &[Statement]) {
    for statement in list {
        run_statement(state, statement);
    }
}

fn run_statement(state: &mut State, statement: &Statement) {
    let read = Pair::one(&*state);
    let mut marked = state.marked();
    match statement {
        Statement::AssignInteger(v, e) => {
            state.values[*v as usize] = integer(read, e, &mut marked);
            state.mark = marked as u16;
        }
        Statement::AssignBoolean(v, e) => {
            state.values[*v as usize] = boolean(read, e, &mut marked) as i16;
            state.mark = marked as u16;
        }
        Statement::If(condition, then, other) => {
            let list = if boolean(read, condition, &mut marked) { then } else { other };
            state.mark = marked as u16;
            run_list(state, list);
        }
    }
}

/// An exact value in 16 bits; one that does not fit sets the mark.
fn wrapped(exact: i32, marked: &mut bool) -> i16 {
    *marked |= i16::try_from(exact).is_err();
    exact as i16
}

/// The number that an expression says. Its sums, differences and products set
/// the mark; each takes its operands as they are wrapped.
fn integer(states: Pair<State>, e: &Integer, marked: &mut bool) -> i16 {
    let mut exact = |e: &Integer| integer(states, e, marked) as i32;
    match e {
        Integer::Constant(c) => *c,
        Integer::Variable(v) => states.earlier.values[*v as usize],
        Integer::Status(m) => states.earlier.statuses[*m as usize] as i16,
        Integer::Sum(a, b) => wrapped(exact(a) + exact(b), marked),
        Integer::Difference(a, b) => wrapped(exact(a) - exact(b), marked),
        Integer::Product(c, a) => wrapped(*c as i32 * exact(a), marked),
        Integer::NextVariable(v) => states.next.values[*v as usize],
        Integer::NextStatus(m) => states.next.statuses[*m as usize] as i16,
    }
}

/// As `integer`. Both sides of an and and an or are read, because each may set
/// the mark.
fn boolean(states: Pair<State>, e: &Boolean, marked: &mut bool) -> bool {
    match e {
        Boolean::Constant(c) => *c,
        Boolean::Variable(v) => states.earlier.values[*v as usize] == 1,
        Boolean::Not(a) => !boolean(states, a, marked),
        Boolean::And(a, b) => boolean(states, a, marked) & boolean(states, b, marked),
        Boolean::Or(a, b) => boolean(states, a, marked) | boolean(states, b, marked),
        Boolean::Equal(a, b) => integer(states, a, marked) == integer(states, b, marked),
        Boolean::Less(a, b) => integer(states, a, marked) < integer(states, b, marked),
        Boolean::NextVariable(v) => states.next.values[*v as usize] == 1,
    }
}

/// What a guard, an event or a property says: its sums wrap and set no mark.
fn truth(states: Pair<State>, e: &Boolean) -> bool {
    boolean(states, e, &mut false)
}
