//! R-6 of document 02: several owners on one design.

#[path = "support/owners.rs"]
mod owners;

use owners::{like_alone, two_runs, zeroes_what_was_used, Case, Memory};
use owners::{BAD, BELOW_ONE, KINDS, LENGTHS};
use reference::builder::file_bytes;
use reference::design::Refusal;
use reference::designs::{design_a, money_changer, Property, Version};
use reference::formula::size;
use reference::operations::{Answer, Operations, Reference};
use reference::owners::{Ask, Told, MAX_OWNERS};
use reference::query::{Query, INVARIANT};
use reference::verdict::{Finding, Verdict};

/// That the external is false, and what no state satisfies.
const LOW: [u8; 3] = [0x12, 0x11, 0];
const FALSE: [u8; 2] = [0x10, 0];

fn case(bound: u64, lengths: [usize; 3], asks: &[Ask]) -> Case {
    Case { file: file_bytes(&design_a()), bound, lengths, asks: asks.to_vec() }
}

fn told(finding: Finding, tries: u64) -> Told {
    Ok(Verdict { finding, tries })
}

fn refused(number: u8) -> Told {
    Err(Refusal { number, place: 0 })
}

/// The call's answers, its case with the choices that are left, and its memory,
/// which held 5 everywhere.
fn called(mut case: Case) -> (Answer<Vec<Told>>, Case, Memory) {
    let mut memory = Memory::filled(case.lengths, 5);
    let answer = case.call(&mut Reference, &mut memory);
    (answer, case, memory)
}

fn answers(case: Case) -> Vec<Told> {
    match called(case).0 {
        Answer::Done(answers) => answers,
        other => panic!("{other:?}"),
    }
}

#[test]
fn four_owners_of_design_a() {
    let asks = [
        Ask::new(&BELOW_ONE, 10, 3),
        Ask::new(&BAD, 99, 3),
        Ask::new(&[], 36, 3),
        Ask::new(&[], 37, 5),
    ];
    let (answer, case, memory) = called(case(3, LENGTHS, &asks));
    let expected = [
        told(Finding::Violated(2), 10),
        refused(8),
        told(Finding::Spent(3), 36),
        told(Finding::Violated(3), 37),
    ];
    assert_eq!(answer, Answer::Done(expected.to_vec()));
    let choices: Vec<&[u8]> = case.asks.iter().map(|ask| &ask.choices[..]).collect();
    assert_eq!(choices, [&[2, 0, 7][..], &[7, 7, 7], &[7, 7, 7], &[2, 0, 1, 7, 7]]);
    assert_eq!(memory, Memory::filled(LENGTHS, 0));
}

/// Whatever one owner spends, the others have their own.
#[test]
fn each_owner_has_a_budget_of_its_own() {
    use Finding::{Spent, Violated};
    for (budgets, finding) in [
        ([37, 37, 37, 37], [Violated(3); 4]),
        ([36, 37, 0, 37], [Spent(3), Violated(3), Spent(1), Violated(3)]),
    ] {
        let asks = budgets.map(|budget| Ask::new(&[], budget, 3));
        let expected: Vec<Told> =
            finding.iter().zip(budgets).map(|(f, tries)| told(*f, tries)).collect();
        assert_eq!(answers(case(3, LENGTHS, &asks)), expected);
    }
}

#[test]
fn an_owners_refusals_are_its_own_and_in_verdicts_order() {
    let good = Ask::new(&[], 37, 3);
    let violated = told(Finding::Violated(3), 37);
    for (other, number) in [
        (Ask::new(&BAD, 0, 0), 8),
        (Ask::new(&[0x10, 2], 37, 3), 8),
        (Ask::new(&[0x17, 0], 37, 3), 8),
        (Ask::new(&[], 37, 2), 16),
        (Ask::new(&[0x13, 0x10, 1, 0x10, 1], 37, 2), 16),
    ] {
        let asks = [good.clone(), other.clone(), good.clone()];
        let expected = [violated, refused(number), violated];
        assert_eq!(answers(case(3, LENGTHS, &asks)), expected);
        let asks = [other.clone(), other, good.clone()];
        let expected = [refused(number), refused(number), violated];
        assert_eq!(answers(case(3, LENGTHS, &asks)), expected);
    }
    let asks = [good.clone(), Ask::new(&BAD, 0, 0), good];
    for bound in [101, 256, 1 << 32, u64::MAX] {
        let expected = [refused(14), refused(8), refused(14)];
        assert_eq!(answers(case(bound, [0; 3], &asks)), expected);
    }
}

/// A buffer that is short for one owner's formula and not for another's.
#[test]
fn shared_memory_is_short_for_each_owner_by_itself() {
    let small = size(Query::new(&design_a(), INVARIANT).with_piece(&LOW), 3).unwrap();
    let exact = [small.words as usize, small.variables as usize, small.variables as usize];
    let asks = [Ask::new(&[], 99, 3), Ask::new(&LOW, 99, 3), Ask::new(&BELOW_ONE, 99, 3)];
    let low = told(Finding::Violated(1), 2);
    assert_eq!(answers(case(3, exact, &asks)), [refused(16), low, refused(16)]);
    for short in 0..3 {
        let mut lengths = LENGTHS;
        lengths[short] -= 1;
        assert_eq!(answers(case(3, lengths, &asks)), [refused(16), low, refused(16)]);
        lengths[short] = exact[short] - 1;
        assert_eq!(answers(case(3, lengths, &asks)), [refused(16); 3]);
    }
}

/// The formulas tried last: the first owner's for bound 1, the second's for 2.
#[test]
fn the_longest_of_the_last_formulas_is_zero_and_no_word_more() {
    let last = size(Query::new(&design_a(), INVARIANT).with_piece(&BELOW_ONE), 2).unwrap();
    let (words, n) = (last.words as usize, last.variables as usize);
    for asks in [
        [Ask::new(&LOW, 99, 3), Ask::new(&BELOW_ONE, 99, 3), Ask::new(&BAD, 99, 3)],
        [Ask::new(&BELOW_ONE, 99, 3), Ask::new(&LOW, 99, 3), Ask::new(&[], 99, 2)],
        [Ask::new(&[], 99, 0), Ask::new(&BELOW_ONE, 9, 3), Ask::new(&FALSE, 0, 3)],
    ] {
        let (_, _, memory) = called(case(3, LENGTHS, &asks));
        let mut expected = Memory::filled(LENGTHS, 5);
        expected.clauses[..words].fill(0);
        expected.values[..n].fill(0);
        expected.trail[..n].fill(0);
        assert!(memory == expected, "{asks:?}");
    }
    let refused = [Ask::new(&BAD, 99, 3), Ask::new(&[], 99, 2)];
    assert_eq!(called(case(3, LENGTHS, &refused)).2, Memory::filled(LENGTHS, 5));
}

#[test]
fn no_owner_or_too_many_are_20_after_check_and_before_all_else() {
    let bad = Ask::new(&BAD, 0, 0);
    for count in [0, MAX_OWNERS + 1, MAX_OWNERS + 2, 256, 257] {
        for (bound, lengths) in [(3, LENGTHS), (101, [0, 1, 2])] {
            let asks = vec![bad.clone(); count];
            let call = case(bound, lengths, &asks);
            let mut damaged = call.clone();
            damaged.file[0] = 3;
            for (call, number) in [(call, 20), (damaged, 5)] {
                let (answer, case, memory) = called(call);
                assert_eq!(answer, Answer::Refused(Refusal { number, place: 0 }));
                assert_eq!((case.asks, memory), (asks.clone(), Memory::filled(lengths, 5)));
            }
        }
    }
    let mut damaged = case(3, LENGTHS, &[bad]);
    damaged.file.truncate(15);
    assert_eq!(called(damaged).0, Answer::Refused(Refusal { number: 1, place: 15 }));
}

/// Property 0 alone is asked, whatever other properties the design has.
#[test]
fn owners_of_the_money_changer_ask_property_0() {
    let file = file_bytes(&money_changer(Version::Revised, Property::Dyn));
    let asks = [Ask::new(&[], 18, 1), Ask::new(&FALSE, 0, 1)];
    let case = Case { file, bound: 1, lengths: [30_000, 2_000, 2_000], asks: asks.to_vec() };
    let clean = told(Finding::Clean, 0);
    assert_eq!(answers(case), [clean, told(Finding::Violated(0), 0)]);
}

#[test]
fn generated_owners_are_told_what_verdict_alone_tells() {
    let seen = like_alone(&mut Reference, &Case::generated(61, 250));
    for name in KINDS {
        assert!(seen.get(name).is_some_and(|&count| count > 3), "{seen:?}");
    }
    assert_eq!(seen.len(), KINDS.len(), "{seen:?}");
}

#[test]
fn generated_owners_leave_zeros_just_where_one_of_them_wrote() {
    let (used, in_part) = zeroes_what_was_used(&mut Reference, &Case::generated(62, 80));
    assert!(used > 40 && in_part > 15, "{used} {in_part}");
}

#[test]
fn an_owner_sees_nothing_of_the_others_in_two_runs() {
    let (seen, differ) = two_runs(&mut Reference, &Case::generated(63, 160));
    for name in KINDS {
        assert!(seen.get(name).is_some_and(|&count| count > 1), "{seen:?}");
    }
    assert!(differ > 60, "{differ}");
}

/// The trait's default: a set of operations without it.
#[test]
fn a_set_without_the_call_says_so() {
    struct Nothing;
    impl Operations for Nothing {}
    let mut without = case(3, LENGTHS, &[Ask::new(&[], 0, 3)]);
    let answer = without.call(&mut Nothing, &mut Memory::filled(LENGTHS, 5));
    assert_eq!(answer, Answer::Missing);
}
