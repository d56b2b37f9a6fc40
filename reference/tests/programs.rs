//! What the printing programs write.

mod support;

use reference::builder::file_bytes;
use reference::design::{Boolean, CellKind, Design, Matrix};
use reference::designs::design_a;
use reference::programs::{clauses_output, replay_output};
use support::*;

fn replayed(head: &[u8], file: &[u8]) -> String {
    String::from_utf8(replay_output(&[head, file].concat())).unwrap()
}

fn printed(head: &[u8], file: &[u8]) -> String {
    String::from_utf8(clauses_output(&[head, file].concat())).unwrap()
}

#[test]
fn every_choice_is_printed_past_a_break() {
    let output = replayed(&[0, 5, 2, 0, 1, 2, 0], &file_bytes(&design_a()));
    let expected = "0 - 0 1 0 0 | 0\n1 2 0 1 1 0 | 0\n2 0 0 1 1 1 | 1\n3 1 0 0 1 2 | 0\n\
                    4 2 1 0 1 2 | 0\n5 0 0 0 1 3 | 1\nbroken at 3\n";
    assert_eq!(output, expected);
}

#[test]
fn a_list_that_holds() {
    let output = replayed(&[0, 1, 0], &file_bytes(&design_a()));
    assert_eq!(output, "0 - 0 1 0 0 | 0\n1 0 1 1 0 0 | 0\nholds\n");
    assert_eq!(replayed(&[1, 0], &file_bytes(&design_a())), "0 - 0 1 0 0 | 0\nholds\n");
}

#[test]
fn no_variables_leave_single_spaces() {
    let kind = CellKind::Normal { target: 0, guard: None, action: vec![] };
    let cell = reference::design::Cell { matrix: 0, status: 0, event: 0, kind };
    let design = Design {
        variables: vec![],
        matrices: vec![Matrix { statuses: 1, events: vec![Boolean::Constant(true)] }],
        cells: vec![cell],
        invariant: Boolean::Constant(true),
        constraint: None,
    };
    let output = replayed(&[0, 1, 0], &file_bytes(&design));
    assert_eq!(output, "0 - 0 1 | 0\n1 0 0 1 | 0\nholds\n");
}

#[test]
fn refusals_stand_alone() {
    let file = file_bytes(&design_a());
    assert_eq!(replay_output(&[]), b"refused 1 at 0\n");
    assert_eq!(replay_output(&[0]), b"refused 1 at 0\n");
    assert_eq!(replay_output(&[0, 2, 0]), b"refused 1 at 0\n");
    assert_eq!(replayed(&[0, 0], &[]), "refused 1 at 0\n");
    assert_eq!(replayed(&[0, 0], &file[..15]), "refused 1 at 15\n");
    assert_eq!(replayed(&[2, 1, 9], &file), "refused 13 at 0\n");
    assert_eq!(replayed(&[0, 2, 0, 3], &file), "refused 12 at 1\n");
    let many = [&[0, 101][..], &[0; 101]].concat();
    assert_eq!(replayed(&many, &file), "refused 14 at 0\n");
    for length in [16_385, 16_386, 20_000] {
        assert_eq!(replayed(&[0, 0], &vec![0; length]), "refused 1 at 16385\n");
        assert_eq!(printed(&[0, 0], &vec![0; length]), "refused 1 at 16385\n");
    }
}

#[test]
fn clauses_in_order() {
    let file = file_bytes(&design_a());
    for bound in [0, 1, 2] {
        let output = printed(&[0, bound], &file);
        let numbers: Vec<i32> = output.split_whitespace().map(|n| n.parse().unwrap()).collect();
        assert_eq!(numbers, formula_words(&design_a(), 0, bound as u64));
        for line in output.lines() {
            assert!(line.ends_with(" 0") && !line.contains("  "));
        }
    }
    assert!(printed(&[0, 0], &file).starts_with("1 0\n-2 0\n-3 0\n"));
}

/// Without an invalid cell property 1 has one gate in every frame, its and with the mark.
#[test]
fn last_clause_of_property_1() {
    assert!(printed(&[1, 2], &file_bytes(&design_a())).ends_with("\n-24 -428 -832 0\n"));
}

#[test]
fn clause_printing_refuses() {
    let file = file_bytes(&design_a());
    assert_eq!(clauses_output(&[0]), b"refused 1 at 0\n");
    assert_eq!(printed(&[2, 101], &file), "refused 13 at 0\n");
    assert_eq!(printed(&[1, 101], &file), "refused 14 at 0\n");
    assert_eq!(printed(&[2, 101], &file[..15]), "refused 1 at 15\n");
}
