//! The tables of reference rows in designs/.
#![allow(dead_code)]

use std::path::{Path, PathBuf};

pub fn folder() -> PathBuf {
    Path::new(env!("CARGO_MANIFEST_DIR")).join("../designs")
}

/// The rows of a table, by their words.
pub fn rows(table: &str) -> Vec<Vec<String>> {
    let text = std::fs::read_to_string(folder().join(table)).unwrap();
    let rows = text.lines().filter(|line| !line.starts_with('#') && !line.is_empty());
    rows.map(|line| line.split_whitespace().map(String::from).collect()).collect()
}

/// The file whose row a piece's row has to be: the one with the piece as its
/// invariant; where the property is the constraint, the design's own.
pub fn file_of(design: &str, piece: &str, property: &str) -> String {
    let name = piece.strip_prefix("money-changer-").and_then(|p| p.strip_suffix(".piece"));
    match property {
        "2" => design.to_string(),
        _ => design.replace("dyn", name.unwrap()),
    }
}
