//! The files that a row names, in the table's folder.

use reference::builder::file_bytes;
use reference::design::{check, Design};
use std::path::Path;

pub fn read(folder: &Path, file: &str) -> Result<Vec<u8>, String> {
    std::fs::read(folder.join(file)).map_err(|e| format!("{file}: {e}"))
}

/// The bytes that a row's first word names; a piece may be none.
pub fn design_and_piece(folder: &Path, name: &str) -> Result<(Vec<u8>, Vec<u8>), String> {
    match name.split_once('+') {
        Some((file, piece)) => Ok((read(folder, file)?, read(folder, piece)?)),
        None => Ok((read(folder, name)?, vec![])),
    }
}

/// A design file as its tree.
pub fn design_of(file: &[u8]) -> Result<Design, String> {
    check(file).map_err(|r| format!("refused {} at {}", r.number, r.place))
}

/// The file with the piece in its invariant's place.
pub fn with_invariant(file: &[u8], piece: &[u8]) -> Result<Vec<u8>, String> {
    let design = design_of(file)?;
    let invariant = design.expression(piece).ok_or("the piece is no property of the design")?;
    Ok(file_bytes(&Design { invariant, ..design }))
}
