//! Answers requests of the line protocol with the operations of this package.

use reference::operations::Reference;
use reference::protocol::serve;
use std::io;

fn main() -> io::Result<()> {
    serve(&mut Reference, io::stdin().lock(), io::stdout().lock())
}
