//! REPLAY's counts by the proved archive, beside the second implementation's, whose tests tell what they have to be.

use proved::{replay, Proved};
use reference::builder::file_bytes;
use reference::designs::{barrier, design_a, long_tests};
use reference::generator::trees::{busy_plan, design};
use reference::operations::{Operations, Reference};
use reference::query::{Query, CONSTRAINT, INVARIANT, MAX_BOUND, NO_INVALID_CELL};
use reference::random::Random;

/// What stands in the answer before a call.
const FILLED: [u64; 4] = [7; 4];

fn same(file: &[u8], property: u64, choices: &[u8]) {
    let query = Query::new(file, property);
    assert_eq!(Proved.replay(query, choices), Reference.replay(query, choices), "property {property}, {choices:?}");
}

/// Six choices are enough for each to come to a guard that is false.
#[test]
fn every_short_list_of_two_designs() {
    for design in [design_a(), barrier()] {
        let (file, movers) = (file_bytes(&design), design.movers().len() as u64);
        for length in 0..=6 {
            for list in 0..movers.pow(length) {
                let choices: Vec<u8> = (0..length).map(|i| (list / movers.pow(i) % movers) as u8).collect();
                same(&file, INVARIANT, &choices);
                same(&file, NO_INVALID_CELL, &choices);
            }
        }
    }
}

/// The greatest counts: an event read for every choice, and with it every guard or none.
#[test]
fn as_many_choices_as_replay_takes() {
    let around: Vec<u8> = (0..MAX_BOUND as u8).map(|i| 4 * (i % 16)).collect();
    same(&file_bytes(&long_tests()), INVARIANT, &around);
    same(&file_bytes(&design_a()), INVARIANT, &[0; MAX_BOUND as usize]);
}

#[test]
fn a_refused_call_leaves_the_answer() {
    let file = file_bytes(&design_a());
    let bad_design = [&[3], &file[1..]].concat();
    for (file, property, choices, code) in [
        (&bad_design, INVARIANT, vec![2, 0], 5),
        (&file, CONSTRAINT, vec![2, 0, 9], 13),
        (&file, INVARIANT, vec![0; 101], 14),
        (&file, INVARIANT, vec![2, 0, 3], 12 + 256 * 2),
    ] {
        let mut answer = FILLED;
        assert_eq!(replay(Query::new(&file[..], property), &choices, &mut answer), code);
        assert_eq!(answer, FILLED, "code {code}");
    }
}

#[test]
fn random_runs() {
    let mut random = Random::new(21);
    for _ in 0..1_000 {
        let plan = busy_plan(&mut random);
        let design = design(&mut random, plan);
        let movers = design.movers().len();
        let choices: Vec<u8> = (0..random.between(0, 30)).map(|_| random.below(movers) as u8).collect();
        same(&file_bytes(&design), random.below(2) as u64, &choices);
    }
}
