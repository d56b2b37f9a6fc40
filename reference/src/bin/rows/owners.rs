//! Rows that stand together as the owners of one call.

use crate::files::{design_and_piece, read};
use crate::served::told_words;
use crate::table::*;
use reference::client::Program;
use reference::protocol::hex;
use std::path::Path;

/// One call for the owners of these rows, on memory that just suffices for the longest formula.
pub fn ask_owners(program: &mut Program, folder: &Path, rows: &[&[String]]) -> Result<(), String> {
    let design = |row: &[String]| row[0].split('+').next().unwrap_or("").to_string();
    let (file, bound) = (design(rows[0]), &rows[0][BOUND]);
    if rows.iter().any(|row| design(row) != file || row[PROPERTY] != "0" || row[BOUND] != *bound) {
        return Err("owners have one design, property 0 and one bound".to_string());
    }
    let longest =
        |at: usize| rows.iter().filter_map(|row| row[at].parse::<u64>().ok()).max().unwrap_or(0);
    let (words, n) = (longest(WORDS), longest(VARIABLES));
    let mut request = format!("owners {} {bound} {words} {n} {n}", hex(&read(folder, &file)?));
    for row in rows {
        let (_, piece) = design_and_piece(folder, &row[0])?;
        request += &format!(" {}:{}:{bound}", hex(&piece), budget_of(&row[BUDGET])?);
    }
    let reply = program.ask(&request);
    let told: Vec<&str> = reply.split(" mem").next().unwrap_or("").split(" | ").collect();
    let found: Result<Vec<[String; 4]>, String> =
        told[1..].iter().map(|told| told_words(told)).collect();
    let wanted: Vec<[String; 4]> =
        rows.iter().map(|row| [VERDICT, AT, TRIES, CHOICES].map(|at| row[at].clone())).collect();
    if told[0] != "ok" || found.as_ref() != Ok(&wanted) {
        return Err(format!("alone {wanted:?}, as owners {reply}"));
    }
    Ok(())
}
