//! Lists of choices for REPLAY, good and bad ones.

use crate::design::{Design, Mover};
use crate::random::Random;
use crate::step::{has_status, start, step, State};

/// Mostly a few choices; some lists have faults.
pub fn any_choices(random: &mut Random, design: &Design) -> Vec<u8> {
    let length = match random.below(20) {
        0 => random.pick(&[99, 100, 101, 102, 255]),
        1..=5 => random.between(10, 60),
        _ => random.between(0, 9),
    };
    let movers = design.movers().len();
    let mut choices = match random.below(2) {
        0 => (0..length).map(|_| random.below(movers) as u8).collect(),
        _ => choices_of_a_run(random, design, length),
    };
    if !choices.is_empty() && random.chance(15) {
        for _ in 0..random.between(1, 2) {
            let at = random.below(choices.len());
            choices[at] = random.pick(&[movers as u8 - 1, movers as u8, movers as u8 + 1, 255]);
        }
    }
    choices
}

/// Choices that follow the run: mostly of a cell whose status stands, so that
/// events and guards are read.
fn choices_of_a_run(random: &mut Random, design: &Design, length: usize) -> Vec<u8> {
    let mut state = start(design);
    let mut choices = vec![];
    for _ in 0..length {
        let mut likely = standing(design, &state);
        if likely.is_empty() || random.chance(30) {
            likely = (0..design.movers().len() as u8).collect();
        }
        let choice = random.pick(&likely);
        choices.push(choice);
        state = step(design, &state, choice as u64).expect("a mover of the design").state;
    }
    choices
}

/// The movers that are cells of their matrix's status.
fn standing(design: &Design, state: &State) -> Vec<u8> {
    let stands = |mover: &Mover| match mover {
        Mover::Cell(i) => has_status(state, &design.cells[*i]),
        Mover::External(_) => false,
    };
    let movers = design.movers();
    (0..movers.len()).filter(|&i| stands(&movers[i])).map(|i| i as u8).collect()
}
