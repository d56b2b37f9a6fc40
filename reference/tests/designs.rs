//! The checked-in design files are what the builder writes, use all of the format, and break where designs/README.md says.

mod support;
#[path = "support/tables.rs"]
mod tables;

use reference::design::{check, Boolean, CellKind, Design, Integer, Statement};
use reference::designs::{
    all_files, all_pieces, money_changer, money_changer_pieces, mutex, peterson, Property, Version,
};
use std::collections::BTreeSet;
use support::first_break;
use tables::{file_of, folder, rows};

/// The files of the folder with this ending are these.
fn folder_has(ending: &str, files: &[(String, Vec<u8>)]) {
    let mut names = BTreeSet::new();
    for (name, bytes) in files {
        assert_eq!(&std::fs::read(folder().join(name)).unwrap(), bytes, "{name}");
        names.insert(name.clone());
    }
    let found: BTreeSet<String> = std::fs::read_dir(folder())
        .unwrap()
        .map(|entry| entry.unwrap().file_name().into_string().unwrap())
        .filter(|name| name.ends_with(ending))
        .collect();
    assert_eq!(found, names);
}

#[test]
fn files_equal_the_builder() {
    folder_has(".stm", &all_files());
    folder_has(".piece", &all_pieces());
    assert!(all_files().iter().all(|(_, bytes)| check(bytes).is_ok()));
}

/// Both designs take every piece, also those that source 001 asks of one alone.
#[test]
fn pieces_are_properties_of_the_money_changer() {
    for version in [Version::Original, Version::Revised] {
        let design = money_changer(version, Property::Dyn);
        for (name, piece) in money_changer_pieces() {
            assert!(design.expression(&piece).is_some(), "{name}");
        }
    }
}

/// By breadth-first search over STEP, in `mutex` and in `peterson`.
#[test]
fn other_pieces_break_both_mutual_exclusions_where_they_should() {
    let pieces = &all_pieces()[money_changer_pieces().len()..];
    let expected = [("exclusion-flags.piece", [4, 2]), ("exclusion-second.piece", [2, 2])];
    assert_eq!(pieces.len(), expected.len());
    for ((name, piece), (expected_name, steps)) in pieces.iter().zip(expected) {
        assert_eq!(name, expected_name);
        for (design, step) in [mutex(), peterson()].into_iter().zip(steps) {
            let invariant = design.expression(piece).unwrap();
            assert_eq!(first_break(&Design { invariant, ..design }, 0), Some(step), "{name}");
        }
    }
}

/// Sizes, verdict, tries, models, choices and the strict count: all words but the first.
#[test]
fn rows_of_pieces_are_those_of_the_files_with_that_invariant() {
    let stored = [rows("rows.txt"), rows("rows-deep.txt")].concat();
    let mut pieces = BTreeSet::new();
    for row in [rows("rows-pieces.txt"), rows("rows-deep.txt")].concat() {
        let Some((design, piece)) = row[0].split_once('+') else { continue };
        let file = file_of(design, piece, &row[1]);
        let same = stored.iter().find(|other| other[0] == file && other[1..4] == row[1..4]);
        assert_eq!(same.unwrap()[1..], row[1..], "{}", row[0]);
        pieces.insert((design.to_string(), piece.to_string()));
    }
    // Four published properties of the original, six of the revised one.
    assert_eq!(pieces.len(), 10);
}

/// An owner is told what a verdict alone says: where another table has the same question, it has the same answer.
#[test]
fn rows_of_owners_are_those_of_the_other_tables() {
    let stored = [rows("rows.txt"), rows("rows-pieces.txt")].concat();
    let owners = rows("rows-owners.txt");
    let mut found = 0;
    for row in &owners {
        if let Some(same) = stored.iter().find(|other| other[..4] == row[..4]) {
            assert_eq!(same, row);
            found += 1;
        }
    }
    assert!(found >= 14, "{found} rows of {}", owners.len());
    for verdict in ["CLEAN", "VIOLATED", "SPENT", "REFUSED"] {
        assert!(owners.iter().any(|row| row[4] == verdict), "no owner is {verdict}");
    }
}

/// Operator bytes of a design.
#[derive(Default)]
struct Operators(BTreeSet<u8>);

impl Operators {
    fn integer(&mut self, e: &Integer) {
        let code = match e {
            Integer::Constant(_) => 0x01,
            Integer::Variable(_) => 0x02,
            Integer::Status(_) => 0x03,
            Integer::Sum(a, b) => self.integers(0x04, a, b),
            Integer::Difference(a, b) => self.integers(0x05, a, b),
            Integer::NextVariable(_) => 0x06,
            Integer::NextStatus(_) => 0x07,
            Integer::Product(_, a) => {
                self.integer(a);
                0x08
            }
        };
        self.0.insert(code);
    }

    fn integers(&mut self, code: u8, a: &Integer, b: &Integer) -> u8 {
        self.integer(a);
        self.integer(b);
        code
    }

    fn boolean(&mut self, e: &Boolean) {
        let code = match e {
            Boolean::Constant(_) => 0x10,
            Boolean::Variable(_) => 0x11,
            Boolean::Not(a) => {
                self.boolean(a);
                0x12
            }
            Boolean::And(a, b) => self.booleans(0x13, a, b),
            Boolean::Or(a, b) => self.booleans(0x14, a, b),
            Boolean::Equal(a, b) => self.integers(0x15, a, b),
            Boolean::Less(a, b) => self.integers(0x16, a, b),
            Boolean::NextVariable(_) => 0x17,
        };
        self.0.insert(code);
    }

    fn booleans(&mut self, code: u8, a: &Boolean, b: &Boolean) -> u8 {
        self.boolean(a);
        self.boolean(b);
        code
    }

    fn list(&mut self, list: &[Statement]) {
        for statement in list {
            let code = match statement {
                Statement::AssignInteger(_, e) => {
                    self.integer(e);
                    0x20
                }
                Statement::AssignBoolean(_, e) => {
                    self.boolean(e);
                    0x20
                }
                Statement::If(condition, then, other) => {
                    self.boolean(condition);
                    self.list(then);
                    self.list(other);
                    0x21
                }
            };
            self.0.insert(code);
        }
    }

    fn design(&mut self, design: &Design) {
        design.matrices.iter().flat_map(|m| &m.events).for_each(|e| self.boolean(e));
        for cell in &design.cells {
            if let CellKind::Normal { guard, action, .. } = &cell.kind {
                guard.iter().for_each(|g| self.boolean(g));
                self.list(action);
            }
        }
        self.boolean(&design.invariant);
        design.constraint.iter().for_each(|c| self.boolean(c));
    }
}

#[test]
fn every_operator_is_used() {
    let mut operators = Operators::default();
    for (_, bytes) in all_files() {
        operators.design(&check(&bytes).unwrap());
    }
    let all = (0x01..=0x08).chain(0x10..=0x17).chain(0x20..=0x21);
    assert_eq!(operators.0, all.collect());
}

/// By breadth-first search over STEP. Property 1 of the others is about no cell at all.
#[test]
fn small_designs_break_where_they_should() {
    let expected = [
        ("design-a", 0, Some(3)),
        ("first-state", 0, Some(0)),
        ("first-state", 1, Some(0)),
        ("turnstile", 0, None),
        ("turnstile", 1, Some(1)),
        ("crossing", 0, None),
        ("mutex", 0, Some(4)),
        ("peterson", 0, None),
        ("wrap", 0, Some(2)),
        ("wrap", 1, Some(2)),
        ("nested-ifs", 0, Some(4)),
        ("old-status", 0, Some(3)),
        ("operators", 0, Some(3)),
        ("lock", 0, Some(6)),
        ("longest", 0, None),
        ("moved", 0, Some(3)),
        ("moved", 2, Some(3)),
        // Its counter passes the end: one choice raises the external, 32,768 count.
        ("no-idle", 0, Some(32_769)),
        ("no-idle", 2, Some(1)),
        ("raised-next", 0, None),
        ("raised-next", 2, Some(1)),
        ("crossing-turns", 0, None),
        ("crossing-turns", 2, None),
        ("vending", 0, Some(2)),
        ("minus-three", 0, Some(3)),
        ("minus-three", 1, Some(3)),
        ("minus-three", 2, Some(3)),
        ("barrier", 0, Some(2)),
        ("branch-taken", 0, Some(2)),
        ("branch-taken", 1, Some(2)),
        ("wrapping-guard", 0, None),
        ("wrapping-guard", 1, None),
        ("negated", 0, Some(3)),
        ("negated", 1, Some(3)),
        ("later-mark", 0, Some(3)),
        ("later-mark", 2, Some(3)),
    ];
    let files = all_files();
    for (name, property, step) in expected {
        let file = files.iter().find(|file| file.0 == format!("{name}.stm")).unwrap();
        let design = check(&file.1).unwrap();
        assert_eq!(first_break(&design, property), step, "{name}, property {property}");
    }
}
