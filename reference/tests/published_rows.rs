//! designs/rows-published.txt against the second implementation, the other tables and the accepted refutations.

mod support;
#[path = "support/tables.rs"]
mod tables;

use reference::design::{check, Design};
use reference::formula::size;
use reference::query::Query;
use reference::step::{replay, start, step, State};
use std::collections::HashMap;
use support::{bad_step, first_break};
use tables::{file_of, folder, rows};

/// A row of the table.
struct Published {
    /// The first word, and the file that has the piece, if there is one, as its invariant.
    name: String,
    file: String,
    design: Design,
    piece: Vec<u8>,
    property: u64,
    bound: u64,
    /// n, clauses, words.
    sizes: [u64; 3],
    choices: Vec<u8>,
}

fn read(name: &str) -> Vec<u8> {
    std::fs::read(folder().join(name)).unwrap()
}

fn published(row: &[String]) -> Published {
    let words: Vec<&str> = row.iter().map(String::as_str).collect();
    let [name, property, bound, "-", "VIOLATED", at, "?", n, clauses, words, "?", choices, "?"] =
        words[..]
    else {
        panic!("{row:?}");
    };
    assert_eq!(at, bound, "{name}");
    let number = |word: &str| word.parse::<u64>().unwrap();
    let (design, piece) = name.split_once('+').unwrap_or((name, ""));
    let file = if piece.is_empty() { design.into() } else { file_of(design, piece, property) };
    Published {
        name: name.to_string(),
        file,
        design: check(&read(design)).unwrap(),
        piece: if piece.is_empty() { vec![] } else { read(piece) },
        property: number(property),
        bound: number(bound),
        sizes: [n, clauses, words].map(number),
        choices: choices.split(',').map(|choice| choice.parse().unwrap()).collect(),
    }
}

fn all_published() -> Vec<Published> {
    rows("rows-published.txt").iter().map(|row| published(row)).collect()
}

impl Published {
    fn query(&self) -> Query<'_, Design> {
        Query::new(&self.design, self.property).with_piece(&self.piece)
    }

    /// The design with the piece in its invariant's place.
    fn as_invariant(&self) -> Design {
        let design = self.design.clone();
        match design.expression(&self.piece) {
            Some(invariant) => Design { invariant, ..design },
            None => design,
        }
    }
}

/// The steps that source 001 publishes, and its two invalid cells together as property 1; 21 for DYN.
#[test]
fn the_rows_are_the_published_ones() {
    let changer = |name: &str| format!("money-changer-{name}.stm");
    let piece = |name: &str| format!("money-changer-dyn.stm+money-changer-{name}.piece");
    let steps = [("uic1", 21), ("uic2", 21), ("stc1", 17), ("stc2", 19)];
    let mut wanted: Vec<(String, u64, u64)> = vec![];
    wanted.extend(steps.map(|(name, step)| (changer(name), 0, step)));
    wanted.extend([(changer("stc1"), 1, 21), (changer("dyn"), 2, 21)]);
    wanted.extend(steps.map(|(name, step)| (piece(name), 0, step)));
    let found = all_published().into_iter().map(|row| (row.name, row.property, row.bound));
    assert_eq!(found.collect::<Vec<_>>(), wanted);
}

#[test]
fn every_witness_breaks_at_its_last_choice() {
    for row in all_published() {
        let broken = replay(row.query(), &row.choices).unwrap().broken;
        assert_eq!(row.choices.len() as u64, row.bound, "{}", row.name);
        assert_eq!(broken, Some(row.bound), "{}", row.name);
    }
}

#[test]
fn sizes_are_the_formulas() {
    for row in all_published() {
        let found = size(row.query(), row.bound).unwrap();
        assert_eq!([found.variables, found.clauses, found.words], row.sizes, "{}", row.name);
    }
}

#[test]
fn no_shorter_list_breaks() {
    for row in all_published() {
        let first = first_break(&row.as_invariant(), row.property);
        assert_eq!(first, Some(row.bound as usize), "{}", row.name);
    }
}

/// Whether some list of so many choices breaks the property from a state on; known answers are kept.
struct Ahead<'a> {
    design: &'a Design,
    property: u64,
    known: HashMap<(State, u64), bool>,
}

impl Ahead<'_> {
    fn breaks(&mut self, state: &State, length: u64) -> bool {
        if let Some(&known) = self.known.get(&(*state, length)) {
            return known;
        }
        let breaks = self.first_choice(state, length).is_some();
        self.known.insert((*state, length), breaks);
        breaks
    }

    /// The smallest choice with which such a list starts, and the state that it leads to.
    fn first_choice(&mut self, state: &State, length: u64) -> Option<(u8, State)> {
        if length == 0 {
            return None;
        }
        let mut after = (0..self.design.movers().len() as u64)
            .map(|choice| (choice as u8, step(self.design, state, choice).unwrap().state));
        after.find(|(_, after)| {
            bad_step(self.design, self.property, state, after) || self.breaks(after, length - 1)
        })
    }
}

/// Found choice by choice, where the program `rows` goes through the lists by their lengths.
#[test]
fn every_witness_is_the_first_breaking_list_of_its_length() {
    for row in all_published() {
        let design = row.as_invariant();
        let mut ahead = Ahead { design: &design, property: row.property, known: HashMap::new() };
        let mut state = start(&design);
        for (i, &choice) in row.choices.iter().enumerate() {
            let (first, after) = ahead.first_choice(&state, row.bound - i as u64).unwrap();
            assert_eq!(choice, first, "{}, choice {i}", row.name);
            state = after;
        }
    }
}

/// A row with a piece has the words of the file with that invariant.
#[test]
fn rows_with_a_piece_are_those_of_the_files() {
    let stored = rows("rows-published.txt");
    let mut pieces = 0;
    for row in &stored {
        let Some((design, piece)) = row[0].split_once('+') else { continue };
        let file = file_of(design, piece, &row[1]);
        let same = stored.iter().find(|other| other[0] == file && other[1..3] == row[1..3]);
        assert_eq!(same.unwrap()[1..], row[1..], "{}", row[0]);
        pieces += 1;
    }
    assert_eq!(pieces, 4);
}

/// That no shorter list breaks has an accepted proof.
#[test]
fn one_bound_less_is_refuted() {
    let refuted = rows("rows-refuted.txt");
    for row in all_published() {
        let asked = [row.file, row.property.to_string(), (row.bound - 1).to_string()];
        let found = refuted.iter().find(|other| other[..3] == asked);
        assert_eq!(found.expect(&asked.join(" "))[9], "accepted", "{}", asked.join(" "));
    }
}

/// A row of another table is asked of VERDICT, so that its tries are known.
#[test]
fn only_these_rows_have_no_tries() {
    for table in ["rows.txt", "rows-pieces.txt", "rows-owners.txt", "rows-deep.txt"] {
        assert!(rows(table).iter().all(|row| row[6] != "?"), "{table}");
    }
}
