//! What the two printing programs of document 01 write, as bytes.

use crate::design::{Design, Refusal};
use crate::formula::{Formula, Sink};
use crate::query::Query;
use crate::step::{check_replay, holds_at, run, Stepped, Tests};

const MAX_PART_WORDS: u64 = 16_384;
/// One byte more than a design may have, so that a longer one is refused.
const DESIGN_BYTES_READ: usize = 16_385;

/// The Replay program. Input: property byte, count byte, choices, design.
pub fn replay_output(input: &[u8]) -> Vec<u8> {
    let Some((query, choices)) = split_replay(input) else {
        return refused(Refusal { number: 1, place: 0 });
    };
    trace(query, choices)
}

/// What the Replay program prints for the query, also where a piece is lent,
/// which the program itself never is.
pub fn trace(query: Query<[u8]>, choices: &[u8]) -> Vec<u8> {
    let query = Query { design: read_design(query.design), ..query };
    query.checked(|query| print_replay(query, choices)).unwrap_or_else(refused)
}

/// The clause-printing program. Input: property byte, bound byte, design.
pub fn clauses_output(input: &[u8]) -> Vec<u8> {
    let [property, bound, design @ ..] = input else {
        return refused(Refusal { number: 1, place: 0 });
    };
    let query = Query::new(read_design(design), *property as u64);
    query.checked(|query| print_clauses(query, *bound as u64)).unwrap_or_else(refused)
}

fn refused(refusal: Refusal) -> Vec<u8> {
    format!("refused {} at {}\n", refusal.number, refusal.place).into_bytes()
}

fn read_design(bytes: &[u8]) -> &[u8] {
    &bytes[..bytes.len().min(DESIGN_BYTES_READ)]
}

fn split_replay(input: &[u8]) -> Option<(Query<'_, [u8]>, &[u8])> {
    let [property, count, rest @ ..] = input else {
        return None;
    };
    let (choices, design) = rest.split_at_checked(*count as usize)?;
    Some((Query::new(design, *property as u64), choices))
}

fn print_replay(query: Query<Design>, choices: &[u8]) -> Result<Vec<u8>, Refusal> {
    let claim = check_replay(query, choices)?;
    let states = run(query.design, choices, Tests::UpToFailure).states;
    let mut out = String::new();
    let mut broken = None;
    for (i, stepped) in states.iter().enumerate() {
        let holds = holds_at(query.design, &claim, &states, i);
        if !holds && broken.is_none() {
            broken = Some(i);
        }
        let mover = i.checked_sub(1).map(|before| choices[before]);
        out += &state_line(query.design, i, mover, stepped, holds);
    }
    match broken {
        Some(i) => out += &format!("broken at {i}\n"),
        None => out += "holds\n",
    }
    Ok(out.into_bytes())
}

fn state_line(
    design: &Design,
    step: usize,
    mover: Option<u8>,
    stepped: &Stepped,
    holds: bool,
) -> String {
    let mover = mover.map_or("-".to_string(), |m| m.to_string());
    let mut line = format!("{step} {mover} {} {}", stepped.idle as u8, holds as u8);
    for value in &stepped.state.values[..design.variables.len()] {
        line += &format!(" {value}");
    }
    line += " |";
    for status in &stepped.state.statuses[..design.matrices.len()] {
        line += &format!(" {status}");
    }
    line + "\n"
}

/// A sink that prints a clause a line, with its closing 0.
struct Lines(Vec<u8>);

impl Sink for Lines {
    fn clause(&mut self, literals: &[i32]) {
        for literal in literals {
            self.0.extend_from_slice(format!("{literal} ").as_bytes());
        }
        self.0.extend_from_slice(b"0\n");
    }
}

fn print_clauses(query: Query<Design>, bound: u64) -> Result<Vec<u8>, Refusal> {
    let formula = Formula::new(query, bound)?;
    let too_long = |part| formula.part_count(part).words > MAX_PART_WORDS;
    if (0..=formula.last_part()).any(too_long) {
        return Err(Refusal { number: 16, place: 0 });
    }
    let mut lines = Lines(Vec::new());
    for part in 0..=formula.last_part() {
        formula.write_clauses(part, &mut lines);
    }
    Ok(lines.0)
}
