//! Refutations by cadical, where it is installed.

use std::fmt::Write;
use std::io;
use std::path::Path;
use std::process::{Command, Stdio};

/// The refutation that cadical writes for a list, without the clauses that it deletes. `None` where it is not installed or finds
/// none.
pub fn refutation(n: u64, words: &[i32]) -> Option<Vec<i32>> {
    let folder = std::env::temp_dir();
    let [cnf, proof] = ["cnf", "proof"].map(|extension| folder.join(format!("stm-bench-{}.{extension}", std::process::id())));
    let found = ran(n, words, &cnf, &proof).ok().flatten();
    for file in [cnf, proof] {
        let _ = std::fs::remove_file(file);
    }
    found
}

/// cadical's exit status where a list has no satisfying assignment.
const UNSATISFIABLE: i32 = 20;

fn ran(n: u64, words: &[i32], cnf: &Path, proof: &Path) -> io::Result<Option<Vec<i32>>> {
    std::fs::write(cnf, dimacs(n, words))?;
    let mut cadical = Command::new("cadical");
    cadical.args(["-q", "--no-binary"]).arg(cnf).arg(proof);
    let status = cadical.stdin(Stdio::null()).stdout(Stdio::null()).status()?;
    if status.code() != Some(UNSATISFIABLE) {
        return Ok(None);
    }
    Ok(added(&std::fs::read_to_string(proof)?))
}

/// A list as solvers read it.
fn dimacs(n: u64, words: &[i32]) -> String {
    let clauses = words.iter().filter(|&&word| word == 0).count();
    let mut text = format!("p cnf {n} {clauses}\n");
    for word in words {
        let end = if *word == 0 { '\n' } else { ' ' };
        write!(text, "{word}{end}").expect("a string takes all that is written");
    }
    text
}

/// The clauses that a proof adds, one on a line.
fn added(proof: &str) -> Option<Vec<i32>> {
    let lines = proof.lines().filter(|line| !line.starts_with('d'));
    lines.flat_map(str::split_whitespace).map(|word| word.parse().ok()).collect()
}
