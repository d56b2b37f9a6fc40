//! The refusals of the other calls, their order, and what they leave.

mod support;

use reference::builder::file_bytes;
use reference::design::{Design, Kind, Refusal};
use reference::designs::design_a;
use reference::formula::{decode, encode, size};
use reference::operations::{Answer, Operations, Reference};
use reference::owners::Shared;
use reference::query::Query;
use reference::search::solve;
use reference::step::{holds, replay, start, step, State};
use reference::verdict::{verdict, Lent};
use support::*;

fn refused<T>(number: u8, place: u64) -> Result<T, Refusal> {
    Err(Refusal { number, place })
}

fn state(changes: &[(usize, i16)]) -> State {
    let mut state = start(&design_a());
    for &(at, value) in changes {
        match at {
            0..=31 => state.values[at] = value,
            32..=39 => state.statuses[at - 32] = value as u8,
            _ => state.mark = value as u16,
        }
    }
    state
}

#[test]
fn start_is_the_first_state() {
    let mut design = design_a();
    design.variables[1].initial = -5;
    let mut values = [0; 32];
    values[1] = -5;
    assert_eq!(start(&design), State { values, statuses: [0; 8], mark: 0 });
}

#[test]
fn state_11_then_choice_12() {
    let design = design_a();
    for (changes, place) in [
        (&[(0, 2)][..], 0),
        (&[(0, -1)], 0),
        (&[(2, 1)], 2),
        (&[(31, 1)], 31),
        (&[(32, 2)], 32),
        (&[(33, 1)], 33),
        (&[(39, 255)], 39),
        (&[(40, 2)], 40),
        (&[(40, 255)], 40),
        (&[(40, 256)], 40),
        (&[(40, -1)], 40),
        (&[(32, 2), (31, 1)], 31),
        (&[(33, 1), (32, 2)], 32),
        (&[(40, 2), (39, 1)], 39),
        (&[(40, 2), (31, 1)], 31),
    ] {
        assert_eq!(step(&design, &state(changes), 0), refused(11, place));
        assert_eq!(step(&design, &state(changes), 9), refused(11, place));
        assert_eq!(holds(&design, &state(changes), 2), refused(11, place));
    }
    assert!(step(&design, &state(&[(0, 1), (1, -32_768), (32, 1)]), 2).is_ok());
    assert!(step(&design, &state(&[(40, 1)]), 2).is_ok());
    for choice in [3, 64, 256, u64::MAX] {
        assert_eq!(step(&design, &state(&[]), choice), refused(12, 0));
    }
    assert_eq!(holds(&design, &state(&[]), 2), refused(13, 0));
    assert_eq!(holds(&design, &state(&[]), 1), Ok(true));
}

#[test]
fn idle_choices() {
    let design = design_a();
    let idle = |state: &State, choice| {
        let after = step(&design, state, choice).unwrap();
        assert_eq!(after.idle, after.state == *state);
        after.idle
    };
    assert!(idle(&state(&[]), 0));
    assert!(!idle(&state(&[]), 2));
    assert!(idle(&state(&[(0, 1)]), 2));
    assert!(!idle(&state(&[(0, 1)]), 0));
    assert!(idle(&state(&[(0, 1), (1, 2), (32, 1)]), 1));
}

/// A self-loop that runs and changes nothing is not idle.
#[test]
fn self_loop_is_not_idle() {
    let mut design = design_a();
    let reference::design::CellKind::Normal { target, action, .. } = &mut design.cells[0].kind
    else {
        panic!();
    };
    *target = 0;
    action.clear();
    let before = state(&[(0, 1)]);
    let after = step(&design, &before, 0).unwrap();
    assert_eq!((after.state, after.idle), (before, false));
}

#[test]
fn replay_13_14_12() {
    let design = design_a();
    assert_eq!(replay(Query::new(&design, 2), &[9; 101]), refused(13, 0));
    assert_eq!(replay(Query::new(&design, 1), &[9; 101]), refused(14, 0));
    assert_eq!(replay(Query::new(&design, 0), &[0, 3, 9]), refused(12, 1));
    assert_eq!(replay(Query::new(&design, 0), &[0; 100]), replayed(None, 100, 0));
    assert_eq!(replay(Query::new(&design, 0), &[]), replayed(None, 0, 0));
}

#[test]
fn size_and_encode_13_14_15_16() {
    let design = design_a();
    assert_eq!(size(Query::new(&design, 2), 101), refused(13, 0));
    assert_eq!(size(Query::new(&design, 0), 101), refused(14, 0));
    let mut words = [5; 47];
    let mut call = |property, bound, part, length| {
        let answer = encode(Query::new(&design, property), bound, part, &mut words[..length]);
        assert!(answer.is_ok() || words == [5; 47]);
        answer
    };
    assert_eq!(call(2, 101, 200, 0), refused(13, 0));
    assert_eq!(call(1, 101, 200, 0), refused(14, 0));
    assert_eq!(call(0, 3, 6, 0), refused(15, 0));
    assert_eq!(call(0, 3, u64::MAX, 0), refused(15, 0));
    assert_eq!(call(0, 3, 5, 4), refused(16, 0));
    assert_eq!(call(0, 3, 0, 45), refused(16, 0));
    assert_eq!(call(0, 3, 0, 47), Ok(46));
    assert_eq!(words[46], 5);
}

#[test]
fn solve_17_then_16() {
    let call = |n, words: &[i32], lent: usize| {
        let (mut values, mut trail) = (vec![9; lent], vec![9; lent]);
        let answer = solve(n, words, &mut values, &mut trail, 0);
        assert!(answer.is_ok() || (values == vec![9; lent] && trail == vec![9; lent]));
        answer.map(|s| s.tries)
    };
    assert_eq!(call(1 << 31, &[7], 0), refused(17, 0));
    assert_eq!(call((1 << 31) - 1, &[i32::MAX, 0], 0), refused(16, 0));
    assert_eq!(call((1 << 31) - 1, &[1, i32::MIN], 0), refused(17, 1));
    assert_eq!(call(2, &[1, 0, -3, 3], 0), refused(17, 2));
    assert_eq!(call(2, &[1, 0, -2], 0), refused(17, 3));
    assert_eq!(call(2, &[1, 0, -2, 0], 1), refused(16, 0));
    assert_eq!(call(2, &[], 1), refused(16, 0));
    assert_eq!(call(2, &[1, 0, -2, 0], 2), Ok(0));
}

#[test]
fn solve_keeps_what_it_does_not_own() {
    let (mut values, mut trail) = ([9; 4], [9; 4]);
    solve(2, &[1, 0], &mut values, &mut trail, 5).unwrap();
    assert_eq!((values, trail), ([1, 0, 9, 9], [0, 0, 9, 9]));
}

#[test]
fn decode_13_14_16_18() {
    let design = design_a();
    let n = variables(&design, 0, 2);
    let flag = |frame: usize, mover: usize| 1 + 484 * frame + 103 + mover;
    let call = |property, bound, flags: &[(usize, usize, u8)], lengths: (usize, usize)| {
        let mut values = vec![77; n];
        for frame in 0..2 {
            values[flag(frame, 0)..flag(frame, 3)].fill(0);
        }
        for &(frame, mover, value) in flags {
            values[flag(frame, mover)] = value;
        }
        let mut choices = [9; 4];
        let (length, lent) = lengths;
        let answer =
            decode(Query::new(&design, property), bound, &values[..length], &mut choices[..lent]);
        assert!(answer.is_ok() || choices == [9; 4]);
        answer.map(|()| choices.to_vec())
    };
    let good = [(0, 2, 1), (1, 0, 1)];
    assert_eq!(call(2, 101, &good, (0, 0)), refused(13, 0));
    assert_eq!(call(0, 101, &good, (0, 0)), refused(14, 0));
    assert_eq!(call(0, 2, &good, (n - 1, 2)), refused(16, 0));
    assert_eq!(call(0, 2, &good, (n, 1)), refused(16, 0));
    assert_eq!(call(0, 2, &good, (n, 4)), Ok(vec![2, 0, 9, 9]));
    assert_eq!(call(0, 2, &[(0, 2, 1)], (n, 4)), refused(18, 1));
    assert_eq!(call(0, 2, &[(1, 0, 1)], (n, 4)), refused(18, 0));
    assert_eq!(call(0, 2, &[(0, 2, 1), (0, 1, 1), (1, 0, 1)], (n, 4)), refused(18, 0));
    assert_eq!(call(0, 2, &[(0, 2, 1), (1, 0, 1), (1, 1, 2)], (n, 4)), refused(18, 1));
    assert_eq!(call(0, 0, &[], (104, 0)), Ok(vec![9; 4]));
}

#[test]
fn verdict_13_14_16() {
    let design = design_a();
    let call = |property, bound, lengths: [usize; 4]| {
        let lent = Lent {
            clauses: &mut vec![0; lengths[0]],
            values: &mut vec![0; lengths[1]],
            trail: &mut vec![0; lengths[2]],
            choices: &mut vec![0; lengths[3]],
        };
        verdict(Query::new(&design, property), bound, 0, lent).map(|v| v.tries)
    };
    let words = size(Query::new(&design, 0), 1).unwrap().words as usize;
    let full = [words, 588, 588, 1];
    assert_eq!(call(2, 101, [0; 4]), refused(13, 0));
    assert_eq!(call(0, 101, [0; 4]), refused(14, 0));
    assert_eq!(call(0, 1, full), Ok(0));
    for buffer in 0..4 {
        let mut short = full;
        short[buffer] -= 1;
        assert_eq!(call(0, 1, short), refused(16, 0));
    }
}

/// Memory after VERDICT: the last formula, its values and trail, and the
/// choices only where the property was violated.
#[test]
fn verdict_leaves_the_last_formula() {
    let design = design_a();
    let (mut clauses, mut values) = (vec![7; 40_000], vec![7; 3_000]);
    let (mut trail, mut choices) = (vec![7; 3_000], vec![7; 9]);
    for (budget, last) in [(1_000, 3), (5, 2)] {
        let lent = Lent {
            clauses: &mut clauses,
            values: &mut values,
            trail: &mut trail,
            choices: &mut choices,
        };
        verdict(Query::new(&design, 0), 4, budget, lent).unwrap();
        let words = formula_words(&design, 0, last);
        assert_eq!(clauses[..words.len()], words);
        if last == 3 {
            assert!(clauses[words.len()..].iter().all(|&w| w == 7));
            assert!(values[1_556..].iter().all(|&v| v == 7));
            assert!(trail[1_556..].iter().all(|&v| v == 7));
            assert!(satisfies(&words, &values));
            assert_eq!(choices, [2, 0, 1, 7, 7, 7, 7, 7, 7]);
            assert!(trail[..1_556].iter().all(|&t| t == 0));
        } else {
            assert!(values[..1_072].iter().all(|&v| v == 0));
            assert_eq!(choices, [2, 0, 1, 7, 7, 7, 7, 7, 7]);
        }
    }
}

#[test]
fn check_comes_first_in_every_call() {
    let mut file = file_bytes(&design_a());
    file[0] = 3;
    let bad = Refusal { number: 5, place: 0 };
    let mut reference = Reference;
    let none = state(&[(0, 9)]);
    assert_eq!(reference.check(&file), Answer::Refused(bad));
    assert_eq!(reference.start(&file), Answer::Refused(bad));
    assert_eq!(reference.step(&file, &none, 99), Answer::Refused(bad));
    assert_eq!(reference.holds(&file, &none, 9), Answer::Refused(bad));
    let query = Query::new(&file[..], 9);
    assert_eq!(reference.replay(query, &[9; 200]), Answer::Refused(bad));
    assert_eq!(reference.size(query, 255), Answer::Refused(bad));
    assert_eq!(reference.encode(query, 255, 999, &mut []), Answer::Refused(bad));
    assert_eq!(reference.decode(query, 255, &[], &mut []), Answer::Refused(bad));
    let lent = Lent { clauses: &mut [], values: &mut [], trail: &mut [], choices: &mut [] };
    assert_eq!(reference.verdict(query, 255, 0, lent), Answer::Refused(bad));
    let shared = Shared { clauses: &mut [], values: &mut [], trail: &mut [] };
    assert_eq!(reference.owners(&file, 255, &mut [], shared), Answer::Refused(bad));
}

#[test]
fn externals_are_booleans_in_a_state() {
    let mut design: Design = design_a();
    assert_eq!(design.variables[0].kind, Kind::External);
    assert_eq!(step(&design, &state(&[(0, 2)]), 0), refused(11, 0));
    design.variables[0].kind = Kind::Boolean;
    assert_eq!(step(&design, &state(&[(0, 2)]), 0), refused(11, 0));
}
