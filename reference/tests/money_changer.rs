//! The published results of source 001 on the Money-Changer.

mod support;

use reference::builder::file_bytes;
use reference::designs::{money_changer, Property, Version, ALL_PROPERTIES, ORIGINAL_PROPERTIES};
use reference::formula::{decode, size};
use reference::models::QuickSearch;
use reference::programs::clauses_output;
use reference::query::Query;
use reference::step::{replay, State};
use support::*;

/// The published steps, but for DYN: the table says 20 where 21 is right.
fn published(version: Version, property: Property) -> Option<usize> {
    match (version, property) {
        (Version::Original, Property::Uic1 | Property::Uic2 | Property::Dyn) => Some(21),
        (Version::Original, Property::Stc1) => Some(17),
        (Version::Original, Property::Stc2) => Some(19),
        (Version::Revised, Property::Fstc1) => Some(5),
        (Version::Revised, Property::Fstc2) => Some(4),
        _ => None,
    }
}

#[test]
fn original_breaks_at_the_published_steps() {
    for property in ORIGINAL_PROPERTIES {
        let design = through_file(&money_changer(Version::Original, property));
        let first = first_break(&design, property.number());
        assert_eq!(first, published(Version::Original, property));
    }
}

#[test]
fn revised_breaks_at_the_published_steps_or_never() {
    for property in ALL_PROPERTIES {
        let design = through_file(&money_changer(Version::Revised, property));
        let first = first_break(&design, property.number());
        assert_eq!(first, published(Version::Revised, property));
    }
}

#[test]
fn property_1_is_both_invalid_cells() {
    let original = money_changer(Version::Original, Property::Stc1);
    assert_eq!(first_break(&original, 1), Some(21));
    let revised = money_changer(Version::Revised, Property::Stc1);
    assert_eq!(first_break(&revised, 1), None);
}

/// The published table says 20 for DYN, but a step that breaks DYN sets payment
/// while RETURNER is in status 1, which breaks UIC2, and its row for UIC2 has no
/// break before 21.
#[test]
fn a_break_of_dyn_is_one_of_uic2() {
    let dynamic = |before: &State, after: &State| {
        before.statuses[0] == 1 && after.statuses[0] == 2 && after.statuses[1] != 0
    };
    let payment = |state: &State| state.statuses[1] == 1 && state.values[3] == 1;
    for (version, step) in [(Version::Original, Some(21)), (Version::Revised, None)] {
        let design = money_changer(version, Property::Dyn);
        assert_eq!(first_bad_step(&design, false, dynamic), step);
        let only_dynamic =
            |before: &State, after: &State| dynamic(before, after) && !payment(after);
        assert_eq!(first_bad_step(&design, false, only_dynamic), None);
    }
}

#[test]
fn sizes() {
    let design = money_changer(Version::Original, Property::Uic1);
    let answer = size(Query::new(&design, 0), 1).unwrap();
    assert_eq!((answer.state_bits, answer.movers), (46, 10));
}

#[test]
fn clause_printing_refuses_from_bound_1() {
    let file = file_bytes(&money_changer(Version::Original, Property::Uic1));
    let output = |bound: u8| clauses_output(&[&[0, bound], &file[..]].concat());
    assert!(output(0).starts_with(b"1 0\n-2 0\n"));
    assert_eq!(output(1), b"refused 16 at 0\n");
}

/// The tries are those of VERDICT: summed over the bounds.
#[test]
fn irrational_properties_by_search() {
    for (property, step, total) in [(Property::Fstc2, 4, 4_826), (Property::Fstc1, 5, 48_202)] {
        let design = money_changer(Version::Revised, property);
        let mut tries = 0;
        for bound in 0..=step {
            let n = variables(&design, 0, bound);
            let mut search = QuickSearch::new(n, &formula_words(&design, 0, bound));
            let model = search.first_model();
            tries += search.tries;
            assert_eq!(model.is_some(), bound == step);
            let Some(values) = model else { continue };
            let mut choices = vec![0; bound as usize];
            decode(Query::new(&design, 0), bound, &values, &mut choices).unwrap();
            let found = replay(Query::new(&design, 0), &choices).unwrap();
            assert_eq!(found.broken, Some(step));
        }
        assert_eq!(tries, total);
    }
}

/// With property 1 nothing prunes the lists: every one is tried.
#[test]
fn tries_without_pruning() {
    let design = money_changer(Version::Original, Property::Uic1);
    for bound in 0..=3u64 {
        let n = variables(&design, 1, bound);
        let mut search = QuickSearch::new(n, &formula_words(&design, 1, bound));
        assert_eq!(search.first_model(), None);
        assert_eq!(search.tries, 2 * (10u64.pow(bound as u32) - 1));
    }
}
