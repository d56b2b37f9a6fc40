//! The clause-printing program of document 01.

use reference::programs::clauses_output;
use std::io::{self, Read, Write};

fn main() -> io::Result<()> {
    let mut input = Vec::new();
    io::stdin().read_to_end(&mut input)?;
    io::stdout().write_all(&clauses_output(&input))
}
