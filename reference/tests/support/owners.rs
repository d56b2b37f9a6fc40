//! Calls of several owners for any set of operations: generated ones, what
//! VERDICT alone says of each owner, and two runs that differ in all that an
//! owner must not see.

use reference::design::check;
use reference::generator::Generator;
use reference::operations::{Answer, Operations};
use reference::owners::{Ask, Owner, Shared, Told, MAX_OWNERS};
use reference::protocol::bytes;
use reference::query::{Query, INVARIANT};
use reference::random::Random;
use reference::verdict::{Finding, Lent};
use std::collections::BTreeMap;

/// c < 1, and bytes that are no expression.
pub const BELOW_ONE: [u8; 6] = [0x16, 0x02, 1, 0x01, 1, 0];
pub const BAD: [u8; 1] = [0xff];

/// What Design A's own invariant needs at bound 3.
pub const LENGTHS: [usize; 3] = [20_550, 1_556, 1_556];

/// All that an owner can be told in generated cases.
pub const KINDS: [&str; 6] =
    ["clean", "violated", "spent", "refused 8", "refused 14", "refused 16"];

/// The memory that owners share, and VERDICT's.
#[derive(Clone, Debug, PartialEq, Eq)]
pub struct Memory {
    pub clauses: Vec<i32>,
    pub values: Vec<u8>,
    pub trail: Vec<u32>,
}

impl Memory {
    /// Clauses, values and trail of these lengths, all of one number.
    pub fn filled(lengths: [usize; 3], fill: u8) -> Memory {
        let [clauses, values, trail] = lengths;
        Memory {
            clauses: vec![fill as i32; clauses],
            values: vec![fill; values],
            trail: vec![fill as u32; trail],
        }
    }

    /// Any contents.
    pub fn any(lengths: [usize; 3], random: &mut Random) -> Memory {
        let mut memory = Memory::filled(lengths, 0);
        memory.clauses.fill_with(|| random.word() as i32);
        memory.values.fill_with(|| random.word() as u8);
        memory.trail.fill_with(|| random.word() as u32);
        memory
    }
}

/// A design, a bound, the lengths of the shared memory, and owners.
#[derive(Clone, Debug)]
pub struct Case {
    pub file: Vec<u8>,
    pub bound: u64,
    pub lengths: [usize; 3],
    pub asks: Vec<Ask>,
}

impl Case {
    /// The case of a request of the line protocol; choices are all 7.
    fn of_request(request: &str) -> Case {
        let fields: Vec<&str> = request.split(' ').collect();
        let number = |text: &str| text.parse::<u64>().unwrap();
        let ask = |owner: &&str| {
            let parts: Vec<&str> = owner.split(':').collect();
            Ask::new(&bytes(parts[0]).unwrap(), number(parts[1]), number(parts[2]) as usize)
        };
        Case {
            file: bytes(fields[1]).unwrap(),
            bound: number(fields[2]),
            lengths: [3, 4, 5].map(|i| number(fields[i]) as usize),
            asks: fields[6..].iter().map(ask).collect(),
        }
    }

    /// So many generated cases that the whole call does not refuse.
    pub fn generated(seed: u64, count: usize) -> Vec<Case> {
        let mut generator = Generator::new(seed, &["owners"]).unwrap();
        let mut cases = vec![];
        while cases.len() < count {
            let case = Case::of_request(&generator.request());
            if (1..=MAX_OWNERS).contains(&case.asks.len()) && check(&case.file).is_ok() {
                cases.push(case);
            }
        }
        cases
    }

    /// The call; what it writes is left in the case's choices and the memory.
    pub fn call(&mut self, to: &mut impl Operations, memory: &mut Memory) -> Answer<Vec<Told>> {
        let mut owners: Vec<Owner> = self.asks.iter_mut().map(Ask::owner).collect();
        let Memory { clauses, values, trail } = memory;
        to.owners(&self.file, self.bound, &mut owners, Shared { clauses, values, trail })
    }

    /// VERDICT alone on property 0 for one owner; what it writes is left in the
    /// owner's choices and the memory.
    pub fn alone(&mut self, to: &mut impl Operations, i: usize, memory: &mut Memory) -> Told {
        let Ask { piece, budget, choices } = &mut self.asks[i];
        let query = Query::new(&self.file[..], INVARIANT).with_piece(piece);
        let Memory { clauses, values, trail } = memory;
        match to.verdict(query, self.bound, *budget, Lent { clauses, values, trail, choices }) {
            Answer::Done(verdict) => Ok(verdict),
            Answer::Refused(refusal) => Err(refusal),
            Answer::Missing => panic!("there is no VERDICT"),
        }
    }
}

fn done(answer: Answer<Vec<Told>>) -> Vec<Told> {
    match answer {
        Answer::Done(told) => told,
        other => panic!("{other:?}"),
    }
}

fn name(told: &Told) -> String {
    match told {
        Ok(verdict) => match verdict.finding {
            Finding::Violated(_) => "violated".to_string(),
            Finding::Clean => "clean".to_string(),
            Finding::Spent(_) => "spent".to_string(),
        },
        Err(refusal) => format!("refused {}", refusal.number),
    }
}

/// How often owners were told what. Every case is asked, and each owner's
/// answer and choices are held against those of VERDICT alone.
pub fn like_alone(to: &mut impl Operations, cases: &[Case]) -> BTreeMap<String, u32> {
    let mut seen = BTreeMap::new();
    for case in cases {
        let mut together = case.clone();
        let told = done(together.call(to, &mut Memory::filled(case.lengths, 3)));
        for (i, told) in told.iter().enumerate() {
            let mut apart = case.clone();
            let alone = apart.alone(to, i, &mut Memory::filled(case.lengths, 200));
            assert_eq!(told, &alone, "owner {i} of {case:?}");
            assert_eq!(together.asks[i], apart.asks[i], "owner {i} of {case:?}");
            *seen.entry(name(told)).or_default() += 1;
        }
        assert_eq!(told.len(), case.asks.len());
    }
    seen
}

/// What is left of two memories of other contents: elements that both have
/// alike were written.
fn written<T: PartialEq>(a: &[T], b: &[T]) -> Vec<bool> {
    a.iter().zip(b).map(|(a, b)| a == b).collect()
}

/// Zero where any owner wrote, and kept elsewhere.
fn zeroed<T: Copy + Default>(before: &[T], written: &[Vec<bool>]) -> Vec<T> {
    let used = |i: usize| written.iter().any(|w| w[i]);
    before.iter().enumerate().map(|(i, x)| if used(i) { T::default() } else { *x }).collect()
}

/// What VERDICT alone writes is found by two calls on memory of other contents.
/// In so many cases memory was used, and in so many it was used in part alone.
pub fn zeroes_what_was_used(to: &mut impl Operations, cases: &[Case]) -> (u32, u32) {
    let (mut used, mut in_part) = (0, 0);
    for case in cases {
        let (mut clauses, mut values, mut trail) = (vec![], vec![], vec![]);
        for i in 0..case.asks.len() {
            let [a, b] = [100, 200].map(|fill| {
                let mut memory = Memory::filled(case.lengths, fill);
                let _ = case.clone().alone(to, i, &mut memory);
                memory
            });
            clauses.push(written(&a.clauses, &b.clauses));
            values.push(written(&a.values, &b.values));
            trail.push(written(&a.trail, &b.trail));
        }
        let before = Memory::filled(case.lengths, 5);
        let mut after = before.clone();
        done(case.clone().call(to, &mut after));
        let expected = Memory {
            clauses: zeroed(&before.clauses, &clauses),
            values: zeroed(&before.values, &values),
            trail: zeroed(&before.trail, &trail),
        };
        assert!(after == expected, "{case:?}");
        used += (after != before) as u32;
        in_part += (after != before && after.clauses.last() == Some(&5)) as u32;
    }
    (used, in_part)
}

/// Other owners for the same design: their pieces, budgets, choices and the
/// lengths of these, too.
fn others(random: &mut Random, pieces: &[Vec<u8>], count: usize) -> Vec<Ask> {
    let mut other = || {
        let piece = pieces[random.below(pieces.len())].clone();
        let budget = random.pick(&[0, 1, 2, 5, 20, 60]);
        let choices = (0..random.below(8)).map(|_| random.word() as u8).collect();
        Ask { piece, budget, choices }
    };
    (0..count).map(|_| other()).collect()
}

/// Two calls that agree on the design, the lengths, the bound, the number of
/// owners and one owner's piece, budget and old choices, and differ in all
/// else, also in that owner's place among the others: it is told the same and
/// has the same choices. Answers how often it was told what, and how often the
/// others were told something else.
pub fn two_runs(to: &mut impl Operations, cases: &[Case]) -> (BTreeMap<String, u32>, u32) {
    let (mut random, mut seen, mut differ) = (Random::new(67), BTreeMap::new(), 0);
    for case in cases {
        let mut pieces = vec![vec![], vec![0x10, 0], vec![0x10, 1], vec![0xff]];
        pieces.extend(case.asks.iter().map(|ask| ask.piece.clone()));
        let mut own = case.asks[random.below(case.asks.len())].clone();
        own.choices.fill_with(|| random.word() as u8);
        let runs = [(); 2].map(|()| {
            let mut asks = others(&mut random, &pieces, case.asks.len() - 1);
            let place = random.below(case.asks.len());
            asks.insert(place, own.clone());
            let mut run = Case { asks, ..case.clone() };
            let mut told = done(run.call(to, &mut Memory::any(case.lengths, &mut random)));
            (told.remove(place), run.asks[place].choices.clone(), told)
        });
        let [(told, choices, rest), (told_again, choices_again, other_rest)] = runs;
        assert_eq!((&told, choices), (&told_again, choices_again), "{own:?} of {case:?}");
        *seen.entry(name(&told)).or_default() += 1;
        differ += (rest != other_rest) as u32;
    }
    (seen, differ)
}
