//! REFUTE on short lists, sentence by sentence of its text, whichever
//! implementation answers.

use reference::design::Refusal;
use reference::models::models;
use reference::operations::{Answer, Operations};
use reference::random::Random;
use reference::refute::{clauses, Refuted};
use Refuted::{Accepted, Ended, Word};

/// What stands in every value before a call.
const FILLED: u8 = 0xa5;

/// The answer, and the values afterwards.
pub fn asked(
    operations: &mut impl Operations,
    n: u64,
    list: &[i32],
    refutation: &[i32],
    length: usize,
) -> (Answer<Refuted>, Vec<u8>) {
    let mut values = vec![FILLED; length];
    (operations.refute(n, list, refutation, &mut values), values)
}

/// A name, n, the list, the refutation and the answer.
type Case = (&'static str, usize, &'static [i32], &'static [i32], Refuted);

/// No clause is a unit; 1 follows, and then the empty clause.
const SQUARE: &[i32] = &[1, 2, 0, 1, -2, 0, -1, 2, 0, -1, -2, 0];
/// 1 follows, and 3 follows once 1 is there.
const CHAIN: &[i32] = &[1, 2, 0, 1, -2, 0, -1, 3, 4, 0, -1, 3, -4, 0];

const CASES: &[Case] = &[
    ("units of the list", 1, &[1, 0, -1, 0], &[0], Accepted),
    ("a unit behind the clauses it makes units", 2, &[-1, -2, 0, -1, 2, 0, 1, 0], &[0], Accepted),
    ("no unit", 2, SQUARE, &[0], Word(0)),
    ("an earlier clause", 2, SQUARE, &[1, 0, 0], Accepted),
    ("a clause with every literal false", 2, SQUARE, &[1, 2, 0, 1, 0, 0], Accepted),
    ("a clause that the list has not", 4, CHAIN, &[1, 0, 3, 0], Ended),
    ("only from a later clause", 4, CHAIN, &[3, 0, 1, 0], Word(0)),
    ("only from a later clause, in the middle", 4, CHAIN, &[1, 2, 0, 3, 0, 1, 0], Word(3)),
    ("from nothing, after others", 4, CHAIN, &[1, 0, 3, 0, -3, 0], Word(4)),
    ("an empty clause by a later one", 2, SQUARE, &[0, 1, 0, 0], Word(0)),
    ("only from itself", 2, &[1, 2, 0], &[1, 0], Word(0)),
    ("only from itself, which comes again", 2, &[1, 2, 0], &[1, 0, 1, 0], Word(0)),
    ("the end is no acceptance", 2, SQUARE, &[1, 0], Ended),
    ("nor where everything follows", 2, &[1, 0, -1, 0], &[2, 0, -2, 0], Ended),
    ("no words at all", 2, SQUARE, &[], Ended),
    ("no words, and an empty clause in the list", 1, &[0], &[], Ended),
    ("neither list nor refutation", 0, &[], &[], Ended),
    ("an empty clause of nothing", 0, &[], &[0], Word(0)),
    ("an empty clause of an empty clause", 0, &[0], &[0], Accepted),
    ("an empty clause in the list", 2, &[1, 2, 0, 0], &[-2, 0, 1, 0], Ended),
    ("an empty clause as the list", 2, &[0], &[2, 0], Ended),
    ("an empty clause in the list and one more", 2, &[1, 2, 0, 0], &[-2, 0, 0], Accepted),
    ("an empty clause that does not follow", 2, SQUARE, &[1, 2, 0, 0, 1, 0, 0], Word(3)),
    ("the first empty clause that follows", 2, SQUARE, &[1, 0, 0, 0, -2, 0, 1, 0], Accepted),
    ("words after it that follow from nothing", 1, &[0, 1, 0], &[0, 1, 0], Accepted),
    ("two positions are no unit", 1, &[1, 1, 0, -1, -1, 0], &[0], Word(0)),
    ("two false positions", 1, &[1, 1, 0, -1, -1, 0], &[1, 0, 0], Accepted),
    ("two positions of the refutation", 1, &[1, 1, 0, -1, -1, 0], &[1, 1, 0, 0], Word(3)),
    ("two positions of an earlier clause", 2, SQUARE, &[2, 2, 0, 0], Word(3)),
    ("two positions beside a false one", 2, &[-2, 0, 1, 1, 2, 0, -1, -1, 0], &[0], Word(0)),
    ("one position beside two false ones", 2, &[-2, 0, 1, 2, 2, 0, -1, 0], &[0], Accepted),
    ("a true literal beside an unset one", 2, &[1, 0, 1, 2, 0], &[2, 0], Word(0)),
    ("a literal and its negation", 1, &[], &[1, -1, 0], Ended),
    ("with others between them", 3, &[], &[2, -1, 3, 3, 1, 0], Ended),
    ("it says nothing", 2, &[1, 2, 0], &[2, -2, 0, 0], Word(3)),
    ("in the list it says nothing", 1, &[1, -1, 0], &[1, 0], Word(0)),
    ("in the list it is no unit", 1, &[1, -1, 0], &[0], Word(0)),
    ("a literal twice is no tautology", 1, &[], &[1, 1, 0], Word(0)),
    ("a literal set false twice", 2, SQUARE, &[1, 1, 2, 0, 1, 0, 0], Accepted),
];

/// Every case with just n values, and with more, which are kept.
pub fn cases(operations: &mut impl Operations) {
    for &(name, n, list, refutation, answer) in CASES {
        for more in [0, 1, 9] {
            let found = asked(operations, n as u64, list, refutation, n + more);
            let values = [vec![0; n], vec![FILLED; more]].concat();
            assert_eq!(found, (Answer::Done(answer), values), "{name}, {more} values more");
        }
    }
}

/// The table of docs/REFERENCE.md, with three values.
pub fn table(operations: &mut impl Operations) {
    let document = include_str!("../../../docs/REFERENCE.md");
    let section = document.lines().skip_while(|line| !line.starts_with("## 15. "));
    let rows: Vec<Vec<&str>> = section
        .filter(|line| line.starts_with("| `") || line.starts_with("| no words"))
        .map(|line| line.split(" | ").collect())
        .collect();
    assert_eq!(rows.len(), 10);
    for row in rows {
        let words = row[0].trim_start_matches("| ").trim_matches('`').split_whitespace();
        let refutation: Vec<i32> = words.filter_map(|word| word.parse().ok()).collect();
        let (answer, values) = asked(operations, 2, SQUARE, &refutation, 3);
        let (text, expected) = match answer {
            Answer::Done(Accepted) => ("accepted".to_string(), [0, 0, FILLED]),
            Answer::Done(Word(word)) => (format!("word {word}"), [0, 0, FILLED]),
            Answer::Done(Ended) => ("ended".to_string(), [0, 0, FILLED]),
            Answer::Refused(Refusal { number, place }) => {
                (format!("refused by {number} at {place}"), [FILLED; 3])
            }
            Answer::Missing => panic!("no such operation"),
        };
        assert_eq!((text.as_str(), values), (row[1], expected.to_vec()), "{row:?}");
    }
}

/// n, list, refutation, values, and the refusal's number and place.
type Bad = (u64, &'static [i32], &'static [i32], usize, u8, u64);

const LEAST: i32 = i32::MIN;

const REFUSED: &[Bad] = &[
    (2, &[1, 0, 3, 0], &[0], 2, 17, 2),
    (2, &[1, 0, -3, 0], &[0], 2, 17, 2),
    (2, &[LEAST, 0], &[0], 2, 17, 0),
    (2, &[1, 0, 2], &[0], 2, 17, 3),
    (2, &[1, 0, 2, 0], &[1, 0, 3, 0], 2, 17, 6),
    (2, &[1, 0, 2, 0], &[-3], 2, 17, 4),
    (2, &[], &[1, LEAST], 2, 17, 1),
    (2, &[1, 0, 2, 0], &[1, 0, 2], 2, 17, 7),
    (2, &[], &[1], 2, 17, 1),
    // The list first, then the refutation, then the values.
    (2, &[1], &[3], 0, 17, 1),
    (2, &[1, 0], &[3], 0, 17, 2),
    (2, &[1, 0], &[2, 0], 1, 16, 0),
    (2, &[1, 0], &[2, 0], 0, 16, 0),
    (1, &[], &[], 0, 16, 0),
    // After the clause that accepts, and after one that does not follow.
    (1, &[1, 0, -1, 0], &[0, 1, 0, 2, 0], 1, 17, 7),
    (1, &[1, 0, -1, 0], &[0, 1], 1, 17, 6),
    (1, &[1, 0], &[-1, 0, 2, 0], 1, 17, 4),
    (2, SQUARE, &[0, 3, 0], 2, 17, 13),
    // A word that no list of so many variables has comes before a missing 0.
    (1, &[], &[1, 0, 2, 1], 1, 17, 2),
    ((1 << 31) - 1, &[i32::MAX, 0, -i32::MAX, 0], &[i32::MAX, 0], 5, 16, 0),
    ((1 << 31) - 1, &[i32::MAX, 0], &[0, LEAST, 0], 5, 17, 3),
    ((1 << 31) - 1, &[], &[], 0, 16, 0),
    (1 << 31, &[1], &[1], 0, 17, 0),
    (1 << 31, &[1, 0], &[LEAST], 0, 17, 0),
    (1 << 32, &[], &[], 0, 17, 0),
    (u64::MAX, &[1, 0], &[0], 9, 17, 0),
];

/// A refused call changes nothing.
pub fn refusals(operations: &mut impl Operations) {
    for &(n, list, refutation, length, number, place) in REFUSED {
        let found = asked(operations, n, list, refutation, length);
        let refused = Answer::Refused(Refusal { number, place });
        assert_eq!(found, (refused, vec![FILLED; length]), "{n} {list:?} {refutation:?}");
    }
}

fn random_clauses(random: &mut Random, n: usize, most: usize) -> Vec<Vec<i32>> {
    let literal = |random: &mut Random| {
        let variable = random.between(1, n) as i32;
        [variable, -variable][random.below(2)]
    };
    let clause = |random: &mut Random| {
        let width = random.pick(&[0, 1, 1, 2, 2, 2, 2, 2, 3, 3, 3]);
        (0..width).map(|_| literal(random)).collect()
    };
    (0..random.between(0, most)).map(|_| clause(random)).collect()
}

fn joined(clauses: &[Vec<i32>]) -> Vec<i32> {
    clauses.iter().flat_map(|clause| clause.iter().copied().chain([0])).collect()
}

fn satisfied(clause: &[i32], model: &[u8]) -> bool {
    clause.iter().any(|&l| (model[l.unsigned_abs() as usize - 1] == 1) == (l > 0))
}

/// How often each answer came.
#[derive(Debug, Default)]
pub struct Count {
    pub accepted: u32,
    pub word: u32,
    pub ended: u32,
}

/// What is accepted has no satisfying assignment, and each clause that was read
/// before the answer is true in all of them. The order of the list's clauses,
/// and so that of units, does not matter.
pub fn only_what_is_so(operations: &mut impl Operations, seed: u64, rounds: u32) -> Count {
    let mut random = Random::new(seed);
    let mut count = Count::default();
    for _ in 0..rounds {
        let n = random.between(1, 4);
        let mut list = random_clauses(&mut random, n, 4 * n);
        let mut steps = random_clauses(&mut random, n, 4);
        if random.chance(60) {
            steps.push(vec![]);
        }
        let refuted = answered(operations, n, &list, &steps);
        assert!(is_so(n, &list, &steps, refuted), "{list:?} {steps:?}");
        for i in 1..list.len() {
            list.swap(i, random.below(i + 1));
        }
        assert_eq!(answered(operations, n, &list, &steps), refuted, "{list:?} {steps:?}");
        match refuted {
            Accepted => count.accepted += 1,
            Word(_) => count.word += 1,
            Ended => count.ended += 1,
        }
    }
    count
}

fn answered(
    operations: &mut impl Operations,
    n: usize,
    list: &[Vec<i32>],
    steps: &[Vec<i32>],
) -> Refuted {
    let (answer, values) = asked(operations, n as u64, &joined(list), &joined(steps), n);
    assert_eq!(values, vec![0; n]);
    match answer {
        Answer::Done(refuted) => refuted,
        _ => panic!("{answer:?}"),
    }
}

fn is_so(n: usize, list: &[Vec<i32>], steps: &[Vec<i32>], refuted: Refuted) -> bool {
    let models = models(n, &joined(list));
    let refutation = joined(steps);
    let read = match refuted {
        Accepted => return models.is_empty(),
        Word(word) => &refutation[..word as usize],
        Ended => &refutation[..],
    };
    let in_all = |clause| models.iter().all(|model| satisfied(clause, model));
    let mut read = clauses(read);
    read.all(in_all)
}
