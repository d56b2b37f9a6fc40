//! Writes the known design files and pieces into a folder.

use reference::designs::{all_files, all_pieces};
use std::path::Path;
use std::process::ExitCode;

fn main() -> ExitCode {
    let Some(folder) = std::env::args().nth(1) else {
        eprintln!("usage: make-designs DIR");
        return ExitCode::from(2);
    };
    for (name, bytes) in all_files().into_iter().chain(all_pieces()) {
        let path = Path::new(&folder).join(name);
        if let Err(error) = std::fs::write(&path, bytes) {
            eprintln!("cannot write {}: {error}", path.display());
            return ExitCode::FAILURE;
        }
    }
    ExitCode::SUCCESS
}
