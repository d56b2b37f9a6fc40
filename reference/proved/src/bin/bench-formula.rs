//! Benchmarks of SIZE, ENCODE, VERDICT and several owners, beside the second implementation as in `bench`. ENCODE is also held against
//! a plain copy of as many words: no writer can be faster. Several owners are also held against their VERDICTs, one after the other.
//! REFUTE is held against a plain program (`plain.rs`) on refutations that cadical writes, where it is installed; a ratio of at most
//! 1.5 is asked.

use proved::cadical::refutation;
use proved::plain;
use proved::timing::{make, note, report, report_beside, seconds, seconds_of_few};
use proved::Proved;
use reference::designs::all_files;
use reference::formula::Size;
use reference::operations::{Answer, Operations, Reference};
use reference::owners::{Owner, Shared, Told, MAX_OWNERS};
use reference::query::{Query, INVARIANT};
use reference::refute::Refuted;
use reference::verdict::{Lent, Verdict};
use std::hint::black_box;

fn file(name: &str) -> Vec<u8> {
    let found = all_files().into_iter().find(|file| file.0 == format!("{name}.stm"));
    found.expect("a known design").1
}

fn done<T>(answer: Answer<T>) -> T {
    match answer {
        Answer::Done(value) => value,
        _ => panic!("a call is refused"),
    }
}

fn sizes(operations: &mut impl Operations, query: Query<[u8]>, bound: u64) -> Size {
    done(operations.size(query, bound))
}

fn size(name: &str, property: u64, bound: u64) {
    let design = file(name);
    let query = Query::new(&design[..], property);
    assert_eq!(sizes(&mut Proved, query, bound), sizes(&mut Reference, query, bound));
    let [proved, reference] = seconds([
        &mut || make(sizes(&mut Proved, black_box(query), bound)),
        &mut || make(sizes(&mut Reference, black_box(query), bound)),
    ]);
    report(&format!("SIZE {name}, bound {bound}"), proved, reference);
}

/// The words of every part, one after the other.
fn encoded(operations: &mut impl Operations, query: Query<[u8]>, bound: u64, words: &mut [i32]) -> usize {
    let mut at = 0;
    for part in 0..=bound + 2 {
        at += done(operations.encode(query, bound, part, &mut words[at..])) as usize;
    }
    at
}

fn encode(name: &str, property: u64, bound: u64) {
    let design = file(name);
    let query = Query::new(&design[..], property);
    let length = sizes(&mut Reference, query, bound).words as usize;
    let (mut first, mut second) = (vec![0; length], vec![0; length]);
    assert_eq!(encoded(&mut Proved, query, bound, &mut first), length);
    assert_eq!(encoded(&mut Reference, query, bound, &mut second), length);
    assert_eq!(first, second);
    let (words, mut third) = (first.clone(), first.clone());
    let [proved, reference, copy] = seconds([
        &mut || make(encoded(&mut Proved, black_box(query), bound, &mut first)),
        &mut || make(encoded(&mut Reference, black_box(query), bound, &mut second)),
        &mut || black_box(&mut third).copy_from_slice(black_box(&words)),
    ]);
    report(&format!("ENCODE {name}, bound {bound}, {length} words"), proved, reference);
    let million = |time: f64| length as f64 / time / 1e6;
    note(&format!(
        "{:.0} million words a second; reference {:.0}; a plain copy {:.0}, {:.1} times as fast",
        million(proved),
        million(reference),
        million(copy),
        proved / copy
    ));
}

/// Memory for VERDICT.
#[derive(Clone)]
struct Memory {
    clauses: Vec<i32>,
    values: Vec<u8>,
    trail: Vec<u32>,
    choices: Vec<u8>,
}

impl Memory {
    /// As much as a formula of these sizes needs.
    fn new(size: &Size, bound: u64) -> Memory {
        let n = size.variables as usize;
        Memory {
            clauses: vec![0; size.words as usize],
            values: vec![0; n],
            trail: vec![0; n],
            choices: vec![0; bound as usize],
        }
    }

    fn verdict(&mut self, operations: &mut impl Operations, query: Query<[u8]>, bound: u64) -> Verdict {
        let Memory { clauses, values, trail, choices } = self;
        done(operations.verdict(query, bound, u64::MAX, Lent { clauses, values, trail, choices }))
    }
}

fn verdict(name: &str, property: u64, bound: u64) {
    let design = file(name);
    let query = Query::new(&design[..], property);
    let mut first = Memory::new(&sizes(&mut Reference, query, bound), bound);
    let mut second = first.clone();
    let found = first.verdict(&mut Proved, query, bound);
    assert_eq!(found, second.verdict(&mut Reference, query, bound));
    let [proved, reference] = seconds([
        &mut || make(first.verdict(&mut Proved, black_box(query), bound)),
        &mut || make(second.verdict(&mut Reference, black_box(query), bound)),
    ]);
    report(&format!("VERDICT {name}, bound {bound}, {} tries", found.tries), proved, reference);
}

/// The invariant itself, c < 1, that the external is false, and true. No formula is longer than the invariant's.
const PIECES: [&[u8]; MAX_OWNERS] = [&[], &[0x16, 0x02, 1, 0x01, 1, 0], &[0x12, 0x11, 0], &[0x10, 1]];

/// One call for the four owners of Design A.
fn together(operations: &mut impl Operations, design: &[u8], bound: u64, memory: &mut Memory) -> Vec<Told> {
    let mut choices = vec![memory.choices.clone(); MAX_OWNERS];
    let lent = PIECES.iter().zip(&mut choices);
    let mut owners: Vec<Owner> = lent.map(|(piece, choices)| Owner { piece, budget: u64::MAX, choices }).collect();
    let Memory { clauses, values, trail, .. } = memory;
    done(operations.owners(design, bound, &mut owners, Shared { clauses, values, trail }))
}

/// Their VERDICTs, one after the other.
fn apart(operations: &mut impl Operations, design: &[u8], bound: u64, memory: &mut Memory) -> Vec<Told> {
    let query = Query::new(design, INVARIANT);
    PIECES.iter().map(|piece| Ok(memory.verdict(operations, query.with_piece(piece), bound))).collect()
}

fn owners(bound: u64) {
    let design = file("design-a");
    let mut first = Memory::new(&sizes(&mut Reference, Query::new(&design[..], INVARIANT), bound), bound);
    let (mut second, mut third) = (first.clone(), first.clone());
    let told = together(&mut Proved, &design, bound, &mut first);
    assert_eq!(told, together(&mut Reference, &design, bound, &mut second));
    assert_eq!(told, apart(&mut Proved, &design, bound, &mut third));
    let [proved, reference, one_by_one] = seconds([
        &mut || make(together(&mut Proved, black_box(&design), bound, &mut first)),
        &mut || make(together(&mut Reference, black_box(&design), bound, &mut second)),
        &mut || make(apart(&mut Proved, black_box(&design), bound, &mut third)),
    ]);
    let tries: u64 = told.iter().flatten().map(|verdict| verdict.tries).sum();
    report(&format!("OWNERS design-a, bound {bound}, 4 owners, {tries} tries"), proved, reference);
    note(&format!("four VERDICTs {:.2} us, {:.2} times the one call", one_by_one * 1e6, one_by_one / proved));
}

/// How often a job is timed.
enum Rounds {
    Many,
    Few,
}

fn refute(name: &str, bound: u64, rounds: Rounds) {
    let design = file(name);
    let query = Query::new(&design[..], INVARIANT);
    let size = sizes(&mut Proved, query, bound);
    let mut words = vec![0; size.words as usize];
    encoded(&mut Proved, query, bound, &mut words);
    let Some(refutation) = refutation(size.variables, &words) else {
        return println!("REFUTE {name}, bound {bound}: left out, cadical wrote no refutation");
    };
    let n = size.variables;
    let (mut first, mut second) = (vec![0; n as usize], vec![0; n as usize]);
    let mut proved =
        || assert_eq!(done(Proved.refute(n, black_box(&words), black_box(&refutation), &mut first)), Refuted::Accepted);
    let mut plain = || assert_eq!(plain::refute(black_box(&words), black_box(&refutation), &mut second), Refuted::Accepted);
    let [proved, plain] = match rounds {
        Rounds::Many => seconds([&mut proved, &mut plain]),
        Rounds::Few => seconds_of_few([&mut proved, &mut plain]),
    };
    let clauses = refutation.iter().filter(|&&word| word == 0).count();
    report_beside(&format!("REFUTE {name}, bound {bound}"), proved, "plain", plain);
    let (list, refutation) = (words.len(), refutation.len());
    note(&format!("{list} words of the list, {refutation} of the refutation in {clauses} clauses; at most 1.5 is asked"));
}

fn main() {
    size("design-a", 0, 100);
    size("money-changer-uic1", 0, 100);
    size("wide", 1, 100);
    size("money-changer-dyn", 2, 100);
    // At bound 70 its formula is refused by 19.
    size("most-gates", 1, 69);
    encode("design-a", 0, 3);
    encode("design-a", 0, 100);
    encode("money-changer-uic1", 0, 21);
    encode("wide", 1, 1);
    encode("money-changer-dyn", 2, 21);
    encode("vending", 0, 21);
    verdict("design-a", 0, 3);
    verdict("crossing", 0, 3);
    verdict("mutex", 0, 3);
    verdict("money-changer-uic1", 1, 1);
    verdict("moved", 2, 3);
    verdict("crossing-turns", 2, 3);
    verdict("money-changer-dyn", 2, 2);
    verdict("minus-three", 0, 3);
    owners(3);
    refute("design-a", 2, Rounds::Many);
    refute("peterson", 6, Rounds::Many);
    refute("peterson", 8, Rounds::Many);
    refute("money-changer-revised-uic1", 5, Rounds::Many);
    refute("peterson", 12, Rounds::Few);
}
