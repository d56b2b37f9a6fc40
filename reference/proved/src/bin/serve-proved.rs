//! The line protocol over the proved archive.

use std::io;

fn main() -> io::Result<()> {
    reference::protocol::serve(&mut proved::Proved, io::stdin().lock(), io::stdout().lock())
}
