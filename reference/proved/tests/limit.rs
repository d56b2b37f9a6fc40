//! Refusal 19 of the proved archive: the largest formula that is taken, of 2^31 - 1 variables, and the next ones.

use proved::Proved;
use reference::builder::file_bytes;
use reference::design::Refusal;
use reference::designs::{design_of_variables, most_gates, LARGE_BOUNDS};
use reference::formula::{encode, size, Size};
use reference::operations::{Answer, Operations};
use reference::query::{Query, INVARIANT, MAX_BOUND, NO_INVALID_CELL};
use reference::search::MAX_VARIABLE;
use reference::step::Replayed;
use reference::verdict::{Lent, Verdict};

fn refused<T>(number: u8) -> Answer<T> {
    Answer::Refused(Refusal { number, place: 0 })
}

/// The bound at which the largest design has 2^31 - 1 variables.
const BOUND: u64 = *LARGE_BOUNDS.end();

/// Its file, and what SIZE answers at that bound.
fn largest() -> (Vec<u8>, Size) {
    let design = design_of_variables(MAX_VARIABLE, BOUND);
    let size = size(Query::new(&design, NO_INVALID_CELL), BOUND).unwrap();
    assert_eq!(size.variables, MAX_VARIABLE);
    (file_bytes(&design), size)
}

/// VERDICT on memory of this length each, which a refusal leaves.
fn verdict(query: Query<[u8]>, bound: u64, length: usize) -> Answer<Verdict> {
    let (mut clauses, mut values) = (vec![7; length], vec![7; length]);
    let (mut trail, mut choices) = (vec![7; length], vec![7; length]);
    let lent = Lent { clauses: &mut clauses, values: &mut values, trail: &mut trail, choices: &mut choices };
    let answer = Proved.verdict(query, bound, 0, lent);
    assert_eq!((clauses, values), (vec![7; length], vec![7; length]));
    assert_eq!((trail, choices), (vec![7; length], vec![7; length]));
    answer
}

#[test]
fn size_on_both_sides() {
    let (file, expected) = largest();
    let query = Query::new(&file[..], NO_INVALID_CELL);
    assert_eq!(Proved.size(query, BOUND), Answer::Done(expected));
    for bound in [BOUND + 1, MAX_BOUND] {
        assert_eq!(Proved.size(query, bound), refused(19));
    }
    assert_eq!(Proved.size(query, MAX_BOUND + 1), refused(14));
    assert_eq!(Proved.size(Query::new(&file[..], 2), BOUND + 1), refused(13));
    for bound in LARGE_BOUNDS {
        let one_more = file_bytes(&design_of_variables(MAX_VARIABLE + 1, bound));
        let query = Query::new(&one_more[..], NO_INVALID_CELL);
        assert_eq!(Proved.size(query, bound), refused(19));
        assert!(matches!(Proved.size(query, bound - 1), Answer::Done(size) if size.variables + size.frame_length() == MAX_VARIABLE + 1));
    }
}

#[test]
fn encode_on_both_sides() {
    let (file, _) = largest();
    let query = Query::new(&file[..], NO_INVALID_CELL);
    let mut words = [7; 9];
    for part in [0, 1, BOUND + 1, BOUND + 2] {
        assert_eq!(Proved.encode(query, BOUND, part, &mut words), refused(16), "part {part}");
    }
    for part in [BOUND + 3, u64::MAX] {
        assert_eq!(Proved.encode(query, BOUND, part, &mut words), refused(15), "part {part}");
    }
    for part in [0, 1, BOUND + 3, BOUND + 4, u64::MAX] {
        assert_eq!(Proved.encode(query, BOUND + 1, part, &mut words), refused(19), "part {part}");
        assert_eq!(Proved.encode(query, MAX_BOUND + 1, part, &mut words), refused(14), "part {part}");
    }
    assert_eq!(words, [7; 9]);
}

/// Its first and its last part; the greatest literal that there is stands in the last clause.
#[test]
fn short_parts_of_the_largest_formula() {
    let (file, size) = largest();
    let design = design_of_variables(MAX_VARIABLE, BOUND);
    for part in [0, BOUND + 2] {
        let (mut words, mut expected) = (vec![7; 200], vec![7; 200]);
        let count = encode(Query::new(&design, NO_INVALID_CELL), BOUND, part, &mut expected).unwrap();
        let answer = Proved.encode(Query::new(&file[..], NO_INVALID_CELL), BOUND, part, &mut words);
        assert_eq!((answer, words), (Answer::Done(count), expected.clone()), "part {part}");
        if part > 0 {
            let literals: Vec<u64> = (0..=BOUND).map(|j| MAX_VARIABLE - (BOUND - j) * size.frame_length()).collect();
            assert!(expected.iter().zip(literals).all(|(word, literal)| *word == -(literal as i32)));
        }
    }
}

/// All 2^31 - 1 values are lent; what is not written takes no memory.
#[test]
fn decode_on_both_sides() {
    let (file, size) = largest();
    let query = Query::new(&file[..], NO_INVALID_CELL);
    let first = size.first_flag();
    let chosen = |j: u64| (7 * j + 1) % size.movers;
    let flag = |j: u64| (first + j * size.frame_length() + chosen(j)) as usize;
    let mut values = vec![0; MAX_VARIABLE as usize];
    let mut choices = vec![7; MAX_BOUND as usize];
    let last_frame = Refusal { number: 18, place: BOUND - 1 };
    (0..BOUND - 1).for_each(|j| values[flag(j)] = 1);
    assert_eq!(Proved.decode(query, BOUND, &values, &mut choices), Answer::Refused(last_frame));
    for lent in [&values[..], &values[..300], &[]] {
        assert_eq!(Proved.decode(query, BOUND + 1, lent, &mut choices), refused(19));
        assert_eq!(Proved.decode(query, MAX_BOUND + 1, lent, &mut choices), refused(14));
    }
    values[flag(BOUND - 1)] = 1;
    assert_eq!(Proved.decode(query, BOUND, &values[1..], &mut choices), refused(16));
    assert_eq!(Proved.decode(query, BOUND, &values, &mut choices[..BOUND as usize - 1]), refused(16));
    assert_eq!(choices, vec![7; MAX_BOUND as usize]);
    assert_eq!(Proved.decode(query, BOUND, &values, &mut choices), Answer::Done(()));
    let expected: Vec<u8> = (0..MAX_BOUND).map(|j| if j < BOUND { chosen(j) as u8 } else { 7 }).collect();
    assert_eq!(choices, expected);
}

#[test]
fn verdict_on_both_sides() {
    let (file, _) = largest();
    let query = Query::new(&file[..], NO_INVALID_CELL);
    for length in [0, 300] {
        assert_eq!(verdict(query, BOUND, length), refused(16));
        assert_eq!(verdict(query, BOUND + 1, length), refused(19));
        assert_eq!(verdict(query, MAX_BOUND, length), refused(19));
        assert_eq!(verdict(query, MAX_BOUND + 1, length), refused(14));
    }
}

/// The file with the most gates; REPLAY has no formula and no 19.
#[test]
fn most_gates_and_other_calls() {
    let design = most_gates();
    let file = file_bytes(&design);
    let query = Query::new(&file[..], NO_INVALID_CELL);
    let expected = size(Query::new(&design, NO_INVALID_CELL), 69).unwrap();
    assert_eq!(Proved.size(query, 69), Answer::Done(expected));
    assert_eq!(Proved.size(query, 70), refused(19));
    // Mover 0 is a cell of the last status, which no run comes to.
    let replayed = Replayed { broken: None, events: 0, guards: 0 };
    assert_eq!(Proved.replay(query, &[0; 100]), Answer::Done(replayed));
    let by_invariant = size(Query::new(&design, INVARIANT), MAX_BOUND).unwrap();
    assert_eq!(Proved.size(Query::new(&file[..], INVARIANT), MAX_BOUND), Answer::Done(by_invariant));
}
