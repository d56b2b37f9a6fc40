//! The lines of a run, by the programs that stand beside the one that serves: the proved Replay program and, since that one takes
//! no piece, `stm` where the query reads a piece.

use reference::protocol::list_text;
use reference::query::Query;
use std::io::{self, Write};
use std::path::{Path, PathBuf};
use std::process::{Command, Output, Stdio};
use std::sync::atomic::{AtomicU64, Ordering};

pub fn trace(query: Query<[u8]>, choices: &[u8]) -> io::Result<Vec<u8>> {
    if query.reads_piece() {
        by_stm(query, choices)
    } else {
        by_replay(query, choices)
    }
}

fn beside(name: &str) -> io::Result<PathBuf> {
    Ok(std::env::current_exe()?.with_file_name(name))
}

/// What the Replay program prints.
fn by_replay(query: Query<[u8]>, choices: &[u8]) -> io::Result<Vec<u8>> {
    let input = [&[query.property as u8, choices.len() as u8], choices, query.design].concat();
    let mut child = Command::new(beside("replay")?).stdin(Stdio::piped()).stdout(Stdio::piped()).spawn()?;
    // It may end before it has read a design that is too long.
    let _ = child.stdin.take().map(|mut stdin| stdin.write_all(&input));
    let output = child.wait_with_output()?;
    if !output.status.success() {
        return Err(io::Error::other(format!("the Replay program ended with {}", output.status)));
    }
    Ok(output.stdout)
}

/// What `stm replay` prints, in the form of the Replay program.
fn by_stm(query: Query<[u8]>, choices: &[u8]) -> io::Result<Vec<u8>> {
    let [design, piece] = [temporary("stm"), temporary("piece")];
    let written = std::fs::write(&design, query.design).and_then(|()| std::fs::write(&piece, query.piece));
    let output = written.and_then(|()| run_stm(&design, &piece, query.property, choices));
    for file in [design, piece] {
        let _ = std::fs::remove_file(file);
    }
    replay_form(output?)
}

/// A path that no other call of this or another process has.
fn temporary(extension: &str) -> PathBuf {
    static CALLS: AtomicU64 = AtomicU64::new(0);
    let call = CALLS.fetch_add(1, Ordering::Relaxed);
    std::env::temp_dir().join(format!("stm-trace-{}-{call}.{extension}", std::process::id()))
}

fn run_stm(design: &Path, piece: &Path, property: u64, choices: &[u8]) -> io::Result<Output> {
    let mut command = Command::new(beside("stm")?);
    command.arg("replay").arg(design).arg(property.to_string()).arg(list_text(choices)).arg("--piece").arg(piece);
    command.output()
}

/// `stm` exits with HOLDS or BROKEN where it has printed a run, with REFUSED where it has told a refusal on standard error.
const HOLDS: i32 = 0;
const BROKEN: i32 = 10;
const REFUSED: i32 = 3;

/// Without the meaning of a refusal, or the line of counts that follows a run.
fn replay_form(output: Output) -> io::Result<Vec<u8>> {
    let [answer, told] = [&output.stdout, &output.stderr].map(|bytes| String::from_utf8_lossy(bytes));
    let kept = match output.status.code() {
        Some(HOLDS | BROKEN) => answer.rsplit_once("events read ").map(|(lines, _)| lines.to_string()),
        Some(REFUSED) if answer.is_empty() && told.starts_with("refused ") => {
            told.split_once(':').map(|(refusal, _)| format!("{refusal}\n"))
        }
        _ => None,
    };
    kept.map(String::into_bytes).ok_or_else(|| io::Error::other(format!("stm ended with {}: {told}", output.status)))
}
