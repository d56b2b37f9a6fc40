//! Pieces by the proved archive, beside the second implementation's answers, whose tests tell what they have to be.

use proved::{replay, Proved};
use reference::builder::{boolean_bytes, file_bytes};
use reference::design::{Boolean, Design, Integer, Refusal};
use reference::designs::{design_a, money_changer, money_changer_pieces, moved, Property, Version};
use reference::generator::trees::boolean_of_length;
use reference::operations::{Answer, Operations, Reference};
use reference::query::{Query, CONSTRAINT, INVARIANT, MAX_BOUND, MAX_PIECE, NO_INVALID_CELL};
use reference::random::Random;
use reference::verdict::{Finding, Lent, Verdict};

/// c < 1.
const BELOW_ONE: [u8; 6] = [0x16, 0x02, 1, 0x01, 1, 0];

/// VERDICT on memory of this length each, which a refusal leaves.
fn verdict(query: Query<[u8]>, bound: u64, length: usize) -> (Answer<Verdict>, Vec<u8>) {
    let (mut clauses, mut values) = (vec![7; length], vec![7; length]);
    let (mut trail, mut choices) = (vec![7; length], vec![7; length]);
    let lent = Lent { clauses: &mut clauses, values: &mut values, trail: &mut trail, choices: &mut choices };
    let answer = Proved.verdict(query, bound, u64::MAX, lent);
    if matches!(answer, Answer::Refused(_)) {
        assert_eq!((clauses, values), (vec![7; length], vec![7; length]));
        assert_eq!((trail, &choices), (vec![7; length], &vec![7; length]));
    }
    (answer, choices)
}

/// The numbers by which the five calls refuse, all at place 0; 0 where a call does not. No lent memory is long enough.
fn refusals(query: Query<[u8]>, bound: u64) -> [u64; 5] {
    fn number<T>(answer: Answer<T>) -> u64 {
        match answer {
            Answer::Refused(Refusal { number, place: 0 }) => number as u64,
            Answer::Done(_) => 0,
            _ => panic!("another place"),
        }
    }
    let (mut words, mut choices, mut answer) = ([7; 9], [7; 9], [7; 4]);
    let found = [
        replay(query, &vec![9; bound as usize], &mut answer),
        number(Proved.size(query, bound)),
        number(Proved.encode(query, bound, bound + 9, &mut words)),
        number(Proved.decode(query, bound, &[7; 9], &mut choices)),
        number(verdict(query, bound, 9).0),
    ];
    assert_eq!((words, choices, answer), ([7; 9], [7; 9], [7; 4]));
    found
}

/// What the calls are refused for where nothing is wrong with the query.
const LATER: [u64; 5] = [12, 0, 15, 16, 16];

#[test]
fn order_of_the_refusals() {
    for design in [design_a(), moved()] {
        let file = file_bytes(&design);
        let bad = Query::new(&file[..], INVARIANT).with_piece(&[0xff]);
        for property in [3, 256, u64::MAX] {
            assert_eq!(refusals(Query { property, ..bad }, MAX_BOUND + 1), [13; 5]);
        }
        assert_eq!(refusals(bad, MAX_BOUND + 1), [8; 5]);
        assert_eq!(refusals(bad, 1), [8; 5]);
        assert_eq!(refusals(bad.with_piece(&BELOW_ONE), MAX_BOUND + 1), [14; 5]);
        assert_eq!(refusals(bad.with_piece(&BELOW_ONE), 1), LATER);
        assert_eq!(refusals(bad.with_piece(&[]), 1), LATER);
        let bad_design = [&[3], &file[1..]].concat();
        assert_eq!(refusals(Query { design: &bad_design[..], ..bad }, MAX_BOUND + 1), [5; 5]);
    }
}

#[test]
fn good_and_bad_pieces() {
    let less = |leaf: &[u8]| [&[0x16], leaf, &[0x01, 2, 0]].concat();
    let of_length = |length| boolean_bytes(&boolean_of_length(&mut Random::new(1), length));
    let file = file_bytes(&moved());
    let query = Query::new(&file[..], INVARIANT);
    let good = [
        BELOW_ONE.to_vec(),
        vec![0x11, 0],
        less(&[0x03, 0]),
        less(&[0x08, 3, 0, 0x02, 1]),
        of_length(MAX_PIECE - 1),
        of_length(MAX_PIECE),
    ];
    for piece in good {
        assert_eq!(refusals(query.with_piece(&piece), 1), LATER, "{} bytes", piece.len());
    }
    let bad = [
        BELOW_ONE[..5].to_vec(),
        [&BELOW_ONE[..], &[0]].concat(),
        vec![0x02, 1],
        vec![0x11, 1],
        vec![0x11, 2],
        vec![0x17, 0],
        less(&[0x02, 0]),
        less(&[0x03, 1]),
        less(&[0x06, 1]),
        less(&[0x07, 0]),
        [vec![0x12; 16], vec![0x10, 1]].concat(),
        of_length(MAX_PIECE + 1),
        of_length(65_536 + 2),
    ];
    for piece in bad {
        assert_eq!(refusals(query.with_piece(&piece), 1), [8; 5], "{} bytes", piece.len());
        for property in [NO_INVALID_CELL, CONSTRAINT] {
            assert_eq!(refusals(Query { property, ..query }.with_piece(&piece), 1), LATER, "{} bytes", piece.len());
        }
    }
}

/// Every call on design and piece answers as on the file that has the piece as its invariant.
fn same_as_invariant(design: &Design, invariant: &Boolean, bound: u64) {
    let (file, piece) = (file_bytes(design), boolean_bytes(invariant));
    let other = file_bytes(&Design { invariant: invariant.clone(), ..design.clone() });
    let (lent, within) = (Query::new(&file[..], INVARIANT).with_piece(&piece), Query::new(&other[..], INVARIANT));
    let size = Reference.size(within, bound);
    assert_eq!(Proved.size(lent, bound), size);
    let Answer::Done(size) = size else { panic!("SIZE is refused") };
    let (length, n) = (size.words as usize, size.variables as usize);
    for part in 0..=bound + 2 {
        let (mut words, mut expected) = (vec![7; length], vec![7; length]);
        let answer = Reference.encode(within, bound, part, &mut expected);
        assert_eq!((Proved.encode(lent, bound, part, &mut words), words), (answer, expected), "part {part}");
    }
    let mut values = vec![0; n];
    (0..bound).for_each(|j| values[(size.first_flag() + j * size.frame_length()) as usize] = 1);
    let mut choices = vec![7; bound as usize];
    assert_eq!(Proved.decode(lent, bound, &values, &mut choices), Answer::Done(()));
    assert!(choices.iter().all(|&c| c == 0));
    for choices in [&[][..], &[0], &[2, 0, 1], &[0; 100]] {
        assert_eq!(Proved.replay(lent, choices), Reference.replay(within, choices), "{choices:?}");
    }
}

#[test]
fn answers_are_those_of_the_same_invariant() {
    let below = |c| Boolean::Less(Integer::Variable(1), Integer::Constant(c));
    for bound in 0..=3 {
        same_as_invariant(&design_a(), &below(1), bound);
        same_as_invariant(&moved(), &below(1), bound);
        same_as_invariant(&design_a(), &Boolean::Constant(false), bound);
    }
    let changer = money_changer(Version::Revised, Property::Dyn);
    for (_, piece) in money_changer_pieces() {
        same_as_invariant(&changer, &changer.expression(&piece).expect("a property"), 1);
    }
}

#[test]
fn verdicts() {
    let file = file_bytes(&design_a());
    let query = Query::new(&file[..], INVARIANT);
    for (piece, finding, choices) in [
        (&[][..], Finding::Violated(3), &[2, 0, 1][..]),
        (&BELOW_ONE, Finding::Violated(2), &[2, 0]),
        (&[0x12, 0x11, 0], Finding::Violated(1), &[2]),
        (&[0x10, 0], Finding::Violated(0), &[]),
        (&[0x10, 1], Finding::Clean, &[]),
    ] {
        let (answer, written) = verdict(query.with_piece(piece), 3, 21_000);
        assert!(matches!(answer, Answer::Done(verdict) if verdict.finding == finding), "{piece:?}");
        assert_eq!(&written[..choices.len()], choices);
        assert_eq!(written[choices.len()], 7);
    }
}
