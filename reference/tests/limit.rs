//! Refusal 19 of document 02: a formula of more than 2^31 - 1 variables. Only
//! property 1 of a large design comes so far.

mod support;

use reference::builder::file_bytes;
use reference::design::{check, Design, Refusal, MAX_FILE};
use reference::designs::{design_of_variables, most_gates, LARGE_BOUNDS};
use reference::formula::{decode, encode, size};
use reference::programs::{clauses_output, replay_output};
use reference::query::{Query, INVARIANT, MAX_BOUND, NO_INVALID_CELL};
use reference::search::MAX_VARIABLE;
use reference::step::{holds, replay, start};
use reference::verdict::{verdict, Lent};
use support::*;

fn refused<T>(number: u8) -> Result<T, Refusal> {
    Err(Refusal { number, place: 0 })
}

/// VERDICT on memory of these lengths; a refusal leaves it.
fn verdict_with(query: Query<Design>, bound: u64, length: usize) -> Result<u64, Refusal> {
    let (mut clauses, mut values) = (vec![7; length], vec![7; length]);
    let (mut trail, mut choices) = (vec![7; length], vec![7; length]);
    let lent = Lent {
        clauses: &mut clauses,
        values: &mut values,
        trail: &mut trail,
        choices: &mut choices,
    };
    let answer = verdict(query, bound, 0, lent).map(|v| v.tries);
    assert!(answer.is_ok() || (clauses, values) == (vec![7; length], vec![7; length]));
    assert!(answer.is_ok() || (trail, choices) == (vec![7; length], vec![7; length]));
    answer
}

#[test]
fn exact_numbers_of_variables_on_both_sides() {
    for bound in LARGE_BOUNDS {
        for over in [-2, -1, 0, 1, 2] {
            let n = MAX_VARIABLE.wrapping_add_signed(over);
            let design = through_file(&design_of_variables(n, bound));
            let query = Query::new(&design, NO_INVALID_CELL);
            let before = size(query, bound - 1).unwrap();
            let frame =
                [before.state_bits, before.property_gates, before.movers, before.step_gates];
            assert_eq!(before.variables + frame.iter().sum::<u64>(), n);
            let expected = if over <= 0 { Ok(n) } else { refused(19) };
            assert_eq!(size(query, bound).map(|s| s.variables), expected);
            assert_eq!(size(query, bound + 1), refused(19));
        }
    }
}

#[test]
fn it_comes_after_14_and_before_15_16_and_18() {
    let bound = *LARGE_BOUNDS.end();
    let design = design_of_variables(MAX_VARIABLE, bound);
    let query = Query::new(&design, NO_INVALID_CELL);
    let over = bound + 1;
    let mut words = [7; 9];
    for part in [0, 1, over + 2, over + 3, u64::MAX] {
        assert_eq!(encode(query, over, part, &mut words), refused(19));
        assert_eq!(encode(query, MAX_BOUND + 1, part, &mut words), refused(14));
        assert_eq!(encode(Query::new(&design, 2), over, part, &mut words), refused(13));
    }
    assert_eq!(encode(query, bound, bound + 3, &mut words), refused(15));
    assert_eq!(encode(query, bound, bound + 2, &mut words), refused(16));
    assert_eq!(encode(query, bound, 1, &mut words), refused(16));
    assert_eq!(words, [7; 9]);
    let mut choices = [7; 101];
    for values in [&[][..], &[1; 300], &[255; 300]] {
        assert_eq!(decode(query, over, values, &mut choices), refused(19));
        assert_eq!(decode(query, MAX_BOUND, values, &mut []), refused(19));
        assert_eq!(decode(query, bound, values, &mut choices), refused(16));
        assert_eq!(decode(query, MAX_BOUND + 1, values, &mut choices), refused(14));
    }
    assert_eq!(choices, [7; 101]);
    for length in [0, 300] {
        assert_eq!(verdict_with(query, over, length), refused(19));
        assert_eq!(verdict_with(query, MAX_BOUND, length), refused(19));
        assert_eq!(verdict_with(query, bound, length), refused(16));
        assert_eq!(verdict_with(query, MAX_BOUND + 1, length), refused(14));
    }
}

/// Calls without a formula have no 19, and property 0 stays far below.
#[test]
fn other_calls_and_properties_are_answered() {
    for design in [most_gates(), design_of_variables(MAX_VARIABLE, 80)] {
        let query = Query::new(&design, NO_INVALID_CELL);
        assert_eq!(holds(&design, &start(&design), NO_INVALID_CELL), Ok(true));
        // Mover 0 is a cell of the last status, which no run comes to.
        assert_eq!(replay(query, &[0; 100]), replayed(None, 0, 0));
        assert!(size(Query::new(&design, INVARIANT), MAX_BOUND).unwrap().variables < 1 << 31);
        assert_eq!(verdict_with(Query::new(&design, INVARIANT), 0, 1_200), Ok(0));
    }
}

/// The greatest literal there is stands in the last clause.
#[test]
fn the_last_part_of_the_largest_formula() {
    let bound = *LARGE_BOUNDS.end();
    let design = design_of_variables(MAX_VARIABLE, bound);
    let query = Query::new(&design, NO_INVALID_CELL);
    let sizes = size(query, bound).unwrap();
    let mut words = vec![7; bound as usize + 3];
    assert_eq!(encode(query, bound, bound + 2, &mut words), Ok(bound + 2));
    let literal = |j: u64| -((MAX_VARIABLE - (bound - j) * sizes.frame_length()) as i32);
    let expected: Vec<i32> = (0..=bound).map(literal).chain([0, 7]).collect();
    assert_eq!(words, expected);
    assert_eq!(words[bound as usize], -i32::MAX);
    assert_eq!(part_words(&design, NO_INVALID_CELL, bound, 0).len(), 102);
}

/// All 2^31 - 1 values are lent; what is not written takes no memory.
#[test]
fn decoding_the_largest_assignment() {
    let bound = *LARGE_BOUNDS.end();
    let design = design_of_variables(MAX_VARIABLE, bound);
    let query = Query::new(&design, NO_INVALID_CELL);
    let sizes = size(query, bound).unwrap();
    let flag =
        |j: u64, mover: u64| (sizes.first_flag() + j * sizes.frame_length() + mover) as usize;
    let mut values = vec![0; MAX_VARIABLE as usize];
    let mut choices = vec![7; bound as usize + 1];
    let chosen = |j: u64| (7 * j + 1) % sizes.movers;
    for j in 0..bound - 1 {
        values[flag(j, chosen(j))] = 1;
    }
    let last_frame = Refusal { number: 18, place: bound - 1 };
    assert_eq!(decode(query, bound, &values, &mut choices), Err(last_frame));
    values[flag(bound - 1, chosen(bound - 1))] = 1;
    assert_eq!(decode(query, bound, &values[1..], &mut choices), refused(16));
    assert_eq!(decode(query, bound + 1, &values, &mut choices), refused(19));
    assert_eq!(decode(query, bound, &values, &mut choices), Ok(()));
    let expected: Vec<u8> = (0..bound).map(|j| chosen(j) as u8).chain([7]).collect();
    assert_eq!(choices, expected);
}

#[test]
fn the_file_with_the_most_gates() {
    let file = file_bytes(&most_gates());
    assert_eq!(file.len(), MAX_FILE);
    let design = check(&file).unwrap();
    let query = Query::new(&design, NO_INVALID_CELL);
    let size_at = |bound| size(query, bound).map(|s| s.variables);
    let one = size(query, 1).unwrap();
    assert_eq!((one.property_gates, one.step_gates), (19_167_615, 11_399_286));
    assert_eq!((size_at(69), size_at(70)), (Ok(2_128_326_351), refused(19)));
    assert_eq!(size_at(MAX_BOUND), refused(19));
}

/// The clause printer has ENCODE's refusals, before that of a long part.
#[test]
fn the_programs() {
    let file = file_bytes(&most_gates());
    let printed = |property: u8, bound: u8| {
        String::from_utf8(clauses_output(&[&[property, bound][..], &file].concat())).unwrap()
    };
    assert_eq!(printed(1, 70), "refused 19 at 0\n");
    assert_eq!(printed(1, 69), "refused 16 at 0\n");
    assert_eq!(printed(1, 101), "refused 14 at 0\n");
    assert_eq!(printed(0, 100), "refused 16 at 0\n");
    let choices = [&[1, 100][..], &[0; 100], &file].concat();
    let run = String::from_utf8(replay_output(&choices)).unwrap();
    assert!(run.ends_with("\nholds\n") && run.lines().count() == 102);
}
