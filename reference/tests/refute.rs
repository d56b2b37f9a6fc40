//! REFUTE of R-7 by its text.

#[path = "support/refutations.rs"]
mod refutations;

use reference::operations::Reference;
use refutations::{cases, only_what_is_so, refusals, table};

#[test]
fn each_sentence_of_the_text() {
    cases(&mut Reference);
}

#[test]
fn the_table_of_the_reference() {
    table(&mut Reference);
}

#[test]
fn refusals_and_their_places() {
    refusals(&mut Reference);
}

#[test]
fn what_is_accepted_has_no_satisfying_assignment() {
    let count = only_what_is_so(&mut Reference, 1, 60_000);
    assert!(count.accepted > 5_000 && count.word > 5_000 && count.ended > 5_000, "{count:?}");
}
