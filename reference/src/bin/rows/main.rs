//! The reference rows: asks a serving program for every row of a table again and compares.
//!
//! rows SERVER FILE [--owners | --published] [--write]
//!
//! FILE is the table, designs/rows.txt; the design files are in its folder. The first four words of a row say what to ask; with
//! --write the rest is written anew, so that a new row is made by a line of four words. The first word is a design file, or a
//! design file and a piece of that folder, joined by +. A row with a piece is asked twice: with the piece, and of the design whose
//! file has the piece as its invariant; both answers have to be the same. Where a piece is refused, the row says so in place of a
//! verdict.
//!
//! The last word is the number of strict lists among the row's breaking ones (docs/IDLE-STEPS.md). They are walked by the serving
//! program's own STEP, and `strict` of this package has to count as many.
//!
//! With --owners, rows that follow each other, with no comment or empty line between, are the owners of one call on one design: that
//! call is asked, too, and has to tell each owner what its row says.
//!
//! With --published, rows are of bounds that VERDICT's own search does not reach: `published` asks them without it, and their tries,
//! models and strict lists are `?`. Without it, a row whose tries are `?` is a fault, so that no row is left unasked by a `?`.

mod files;
mod owners;
mod published;
mod served;
mod table;
mod walk;

use crate::files::{design_and_piece, with_invariant};
use crate::owners::ask_owners;
use crate::served::Served;
use crate::table::{first_difference, number, table_text, Line, TRIES, UNASKED};
use reference::client::Program;
use reference::protocol::hex;
use std::path::Path;
use std::process::ExitCode;

const USAGE: &str = "usage: rows SERVER FILE [--owners | --published] [--write]";

/// How the rows of a table are asked.
#[derive(Clone, Copy, PartialEq, Eq)]
enum Kind {
    /// By VERDICT.
    Verdicts,
    /// By VERDICT, and those that stand together by one call, too.
    Owners,
    /// Without VERDICT.
    Published,
}

struct Settings {
    server: String,
    file: String,
    kind: Kind,
    write: bool,
}

fn settings() -> Option<Settings> {
    let mut arguments = std::env::args().skip(1);
    let (server, file) = (arguments.next()?, arguments.next()?);
    let mut settings = Settings { server, file, kind: Kind::Verdicts, write: false };
    for option in arguments {
        match (&option[..], settings.kind) {
            ("--owners", Kind::Verdicts) => settings.kind = Kind::Owners,
            ("--published", Kind::Verdicts) => settings.kind = Kind::Published,
            ("--write", _) => settings.write = true,
            _ => return None,
        }
    }
    Some(settings)
}

fn main() -> ExitCode {
    let Some(settings) = settings() else {
        eprintln!("{USAGE}");
        return ExitCode::from(2);
    };
    match run(&settings) {
        Ok(text) => {
            println!("{text}");
            ExitCode::SUCCESS
        }
        Err(text) => {
            println!("{text}");
            ExitCode::FAILURE
        }
    }
}

fn run(settings: &Settings) -> Result<String, String> {
    let path = Path::new(&settings.file);
    let folder = path.parent().unwrap_or(Path::new("."));
    let stored = std::fs::read_to_string(path).map_err(|e| format!("{}: {e}", path.display()))?;
    let mut program = Program::start(&settings.server)?;
    let table = ask_all(&mut program, folder, &stored, settings.kind);
    program.stop();
    let table = table?;
    let text = table_text(&table);
    let rows = table.iter().filter_map(Line::row).count();
    if rows == 0 {
        return Err("there are no rows".to_string());
    }
    if settings.write {
        std::fs::write(path, text).map_err(|e| format!("{}: {e}", path.display()))?;
        return Ok(format!("{rows} rows written"));
    }
    match first_difference(&stored, &text) {
        None => Ok(format!("{rows} rows as stored")),
        Some(lines) => Err(lines),
    }
}

/// Every line with its answers; where asked for, also by one call for each run of rows.
fn ask_all(
    program: &mut Program,
    folder: &Path,
    stored: &str,
    kind: Kind,
) -> Result<Vec<Line>, String> {
    let lines = stored.lines().map(|line| read_line(program, folder, line, kind));
    let table = lines.collect::<Result<Vec<Line>, String>>()?;
    if kind == Kind::Owners {
        for lines in table.split(|line| matches!(line, Line::Comment(_))) {
            let rows: Vec<&[String]> = lines.iter().filter_map(Line::row).collect();
            if !rows.is_empty() {
                ask_owners(program, folder, &rows)
                    .map_err(|e| format!("{}\n{e}", rows[0].join(" ")))?;
            }
        }
    }
    Ok(table)
}

fn read_line(program: &mut Program, folder: &Path, line: &str, kind: Kind) -> Result<Line, String> {
    if line.starts_with('#') || line.is_empty() {
        return Ok(Line::Comment(line.to_string()));
    }
    let words: Vec<&str> = line.split_whitespace().collect();
    let row = row(program, folder, &words, kind).map_err(|e| format!("{line}\n{e}"))?;
    Ok(Line::Row(row))
}

/// The words of a row, from its first four.
fn row(
    program: &mut Program,
    folder: &Path,
    words: &[&str],
    kind: Kind,
) -> Result<Vec<String>, String> {
    let [name, property, bound, budget, ..] = words[..] else {
        return Err("a row starts with file, property, bound and budget".to_string());
    };
    if kind != Kind::Published && words.get(TRIES) == Some(&UNASKED) {
        return Err("only with --published are the tries of a row not asked for".to_string());
    }
    let (file, piece) = design_and_piece(folder, name)?;
    let mut ask = |design: &[u8], piece: &[u8]| {
        let (design, piece) = (hex(design), hex(piece));
        let bound = number(bound)? as u32;
        let mut served = Served { program: &mut *program, design, piece, property, bound };
        match kind {
            Kind::Verdicts | Kind::Owners => served.answers(budget),
            Kind::Published => served.published_answers(budget),
        }
    };
    let answers = ask(&file, &piece)?;
    if !piece.is_empty() && answers[0] != "REFUSED" {
        let expected = ask(&with_invariant(&file, &piece)?, &[])?;
        if answers != expected {
            return Err(format!("with the piece {answers:?}, as the invariant {expected:?}"));
        }
    }
    let key = [name, property, bound, budget].map(String::from);
    Ok([key.to_vec(), answers].concat())
}
