//! REFUTE of the proved archive by its text, and the plain program that the benchmark holds it against.

#[path = "../../tests/support/refutations.rs"]
mod refutations;

use proved::{plain, Proved};
use reference::operations::{Answer, Operations};
use reference::refute::Refuted;
use refutations::{cases, only_what_is_so, refusals, table};

#[test]
fn each_sentence_of_the_text() {
    cases(&mut Proved);
}

#[test]
fn the_table_of_the_reference() {
    table(&mut Proved);
}

#[test]
fn refusals_and_their_places() {
    refusals(&mut Proved);
}

#[test]
fn what_is_accepted_has_no_satisfying_assignment() {
    let count = only_what_is_so(&mut Proved, 1, 60_000);
    assert!(count.accepted > 5_000 && count.word > 5_000 && count.ended > 5_000, "{count:?}");
}

/// The plain program as an operation; it tests nothing.
struct Plain;

impl Operations for Plain {
    fn refute(&mut self, n: u64, words: &[i32], refutation: &[i32], values: &mut [u8]) -> Answer<Refuted> {
        Answer::Done(plain::refute(words, refutation, &mut values[..n as usize]))
    }
}

#[test]
fn the_plain_program_of_the_benchmark() {
    cases(&mut Plain);
    let count = only_what_is_so(&mut Plain, 2, 20_000);
    assert!(count.accepted > 1_000 && count.word > 1_000 && count.ended > 1_000, "{count:?}");
}
