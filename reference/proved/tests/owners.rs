//! Several owners by the proved archive: each beside its own VERDICT alone, what is left in the shared memory, two runs that differ in
//! all that an owner must not see, and the four places that C lends.

#[path = "../../tests/support/owners.rs"]
mod owners;

use owners::{like_alone, two_runs, zeroes_what_was_used, Case, Memory, BAD, BELOW_ONE, KINDS, LENGTHS};
use proved::owners::{call, Call, FILLED, MAX_OWNERS};
use proved::Proved;
use reference::builder::file_bytes;
use reference::design::Refusal;
use reference::designs::design_a;
use reference::operations::{Answer, Reference};
use reference::owners::{Ask, Shared};

#[test]
fn generated_owners_are_told_what_verdict_alone_tells() {
    let seen = like_alone(&mut Proved, &Case::generated(61, 250));
    assert!(KINDS.iter().all(|name| seen.get(*name).is_some_and(|&count| count > 3)), "{seen:?}");
}

#[test]
fn generated_owners_leave_zeros_just_where_one_of_them_wrote() {
    let (used, in_part) = zeroes_what_was_used(&mut Proved, &Case::generated(62, 80));
    assert!(used > 40 && in_part > 15, "{used} {in_part}");
}

#[test]
fn an_owner_sees_nothing_of_the_others_in_two_runs() {
    let (seen, differ) = two_runs(&mut Proved, &Case::generated(63, 160));
    assert!(KINDS.iter().all(|name| seen.get(*name).is_some_and(|&count| count > 3)), "{seen:?}");
    assert!(differ > 60, "{differ}");
}

/// Answers, choices and memory of one call by both implementations.
#[test]
fn generated_owners_beside_the_second_implementation() {
    let mut answered = 0;
    for case in Case::generated(64, 120) {
        let (mut first, mut second) = (case.clone(), case.clone());
        let mut memory = [(); 2].map(|()| Memory::filled(case.lengths, 9));
        let [of_first, of_second] = &mut memory;
        let answer = first.call(&mut Proved, of_first);
        assert_eq!(answer, second.call(&mut Reference, of_second), "{case:?}");
        assert_eq!(first.asks, second.asks, "{case:?}");
        assert!(memory[0] == memory[1], "{case:?}");
        answered += matches!(answer, Answer::Done(_)) as u32;
    }
    assert_eq!(answered, 120);
}

#[test]
fn no_owner_or_too_many_are_20_after_check() {
    let file = file_bytes(&design_a());
    for count in [0, MAX_OWNERS + 1, MAX_OWNERS + 4] {
        let asks = vec![Ask::new(&BAD, 0, 1); count];
        for (damaged, number) in [(false, 20), (true, 5)] {
            let mut case = Case { file: file.clone(), bound: 101, lengths: [3; 3], asks: asks.clone() };
            case.file[0] += damaged as u8;
            let mut memory = Memory::filled(case.lengths, 9);
            assert_eq!(case.call(&mut Proved, &mut memory), Answer::Refused(Refusal { number, place: 0 }));
            assert_eq!((case.asks, memory), (asks.clone(), Memory::filled([3; 3], 9)));
        }
    }
}

/// A count over a byte, or over 32 bits, is not cut to one that is taken.
#[test]
fn counts_over_a_byte_are_refused() {
    let file = file_bytes(&design_a());
    for owners in [0, 5, 256, 257, 1 << 32, (1 << 32) + 1, (1 << 63) + 4, u64::MAX] {
        let (mut memory, mut choices) = (Memory::filled(LENGTHS, 9), [[9; 3]; MAX_OWNERS]);
        let Memory { clauses, values, trail } = &mut memory;
        let (code, answers) = call(Call {
            design: &file,
            bound: 3,
            owners,
            pieces: [&[]; MAX_OWNERS],
            budgets: [99; MAX_OWNERS],
            shared: Shared { clauses, values, trail },
            choices: choices.each_mut().map(|buffer| &mut buffer[..]),
        });
        assert_eq!((code, answers), (20, [FILLED; MAX_OWNERS]), "{owners} owners");
        assert_eq!((memory, choices), (Memory::filled(LENGTHS, 9), [[9; 3]; MAX_OWNERS]));
    }
}

/// Of four places only the first ones are used: the answers and choices of the others are kept, and their pieces not read.
#[test]
fn places_without_an_owner_are_kept() {
    let file = file_bytes(&design_a());
    let expected = [[0, 0, 1, 2, 10], [8, 0, 0, 0, 0], [0, 0, 2, 3, 36], [0, 0, 1, 3, 37]];
    let written = [[2, 0, 9], [9; 3], [9; 3], [2, 0, 1]];
    for owners in 1..=MAX_OWNERS {
        let (mut memory, mut choices) = (Memory::filled(LENGTHS, 9), [[9; 3]; MAX_OWNERS]);
        let Memory { clauses, values, trail } = &mut memory;
        let (code, answers) = call(Call {
            design: &file,
            bound: 3,
            owners: owners as u64,
            pieces: [&BELOW_ONE, &BAD, &[], &[]],
            budgets: [10, 99, 36, u64::MAX],
            shared: Shared { clauses, values, trail },
            choices: choices.each_mut().map(|buffer| &mut buffer[..]),
        });
        assert_eq!(code, 0);
        for i in 0..MAX_OWNERS {
            let place = if i < owners { (expected[i], written[i]) } else { (FILLED, [9; 3]) };
            assert_eq!((answers[i], choices[i]), place, "owner {i} of {owners}");
        }
    }
}

/// On a damaged design no owner is told anything.
#[test]
fn checks_refusal_is_that_of_the_whole_call() {
    let file = [&[3], &file_bytes(&design_a())[1..]].concat();
    for count in 1..=MAX_OWNERS {
        for (bound, ask) in [(3, Ask::new(&[], 37, 3)), (101, Ask::new(&BAD, 0, 0))] {
            let asks = vec![ask; count];
            let mut case = Case { file: file.clone(), bound, lengths: LENGTHS, asks: asks.clone() };
            let mut memory = Memory::filled(LENGTHS, 9);
            assert_eq!(case.call(&mut Proved, &mut memory), Answer::Refused(Refusal { number: 5, place: 0 }));
            assert_eq!((case.asks, memory), (asks, Memory::filled(LENGTHS, 9)));
        }
    }
}
