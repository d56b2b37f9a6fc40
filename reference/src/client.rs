//! A serving program of the line protocol, run as a child.

use std::io::{BufRead, BufReader, Write};
use std::process::{Child, ChildStdin, ChildStdout, Command, Stdio};

/// A serving program and what it writes.
pub struct Program {
    child: Child,
    input: Option<ChildStdin>,
    replies: BufReader<ChildStdout>,
}

impl Program {
    /// Starts a command given as a path and arguments, parted by spaces.
    pub fn start(command: &str) -> Result<Program, String> {
        let mut words = command.split_whitespace();
        let path = words.next().ok_or("an empty command")?;
        let mut command = Command::new(path);
        command.args(words).stdin(Stdio::piped()).stdout(Stdio::piped());
        let mut child = command.spawn().map_err(|e| format!("cannot start {path}: {e}"))?;
        let input = child.stdin.take();
        let output = child.stdout.take().ok_or("no output")?;
        Ok(Program { child, input, replies: BufReader::with_capacity(1 << 16, output) })
    }

    /// Where requests are written, for whoever writes them apart from reading replies.
    pub fn take_input(&mut self) -> Option<ChildStdin> {
        self.input.take()
    }

    pub fn reply(&mut self) -> String {
        let mut line = String::new();
        match self.replies.read_line(&mut line) {
            Ok(n) if n > 0 => line.trim_end_matches('\n').to_string(),
            _ => "(the program ended)".to_string(),
        }
    }

    /// Writes one request and waits for its reply.
    pub fn ask(&mut self, request: &str) -> String {
        // An ended program does not take the request; its reply tells.
        if let Some(input) = &mut self.input {
            let _ = writeln!(input, "{request}");
        }
        self.reply()
    }

    pub fn stop(&mut self) {
        let _ = self.child.kill();
        let _ = self.child.wait();
    }
}
