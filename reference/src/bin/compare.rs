//! Sends the same generated requests to two serving programs and compares
//! their replies line by line.
//!
//! compare A B [--seed N] [--count N] [--operations check,..] [--require 1,2,..] [--properties 0,1,..] [--pieces replay,..]
//!
//! It fails too where a refusal of --require was never given, a property of --properties never answered, or an operation of
//! --pieces never answered by a piece or never refused one.

use reference::client::Program;
use reference::generator::{all_operations, Generator};
use reference::query::INVARIANT;
use std::collections::BTreeMap;
use std::fmt::Display;
use std::io::Write;
use std::process::{ChildStdin, ExitCode};
use std::sync::mpsc::{sync_channel, Receiver, SyncSender};
use std::sync::Arc;
use std::thread;

const USAGE: &str = "usage: compare A B [--seed N] [--count N] [--operations check,..] \
                     [--require 1,2,..] [--properties 0,1,..] [--pieces replay,..]";
/// Where the owners begin among the fields of their request.
const FIRST_OWNER: usize = 6;
/// Requests under way towards each program.
const QUEUE: usize = 256;

struct Settings {
    programs: [String; 2],
    seed: u64,
    count: u64,
    operations: Vec<String>,
    require: Vec<u64>,
    properties: Vec<u64>,
    pieces: Vec<String>,
}

fn main() -> ExitCode {
    let Some(settings) = settings() else {
        eprintln!("{USAGE}");
        return ExitCode::from(2);
    };
    match compare(&settings) {
        Ok(()) => ExitCode::SUCCESS,
        Err(text) => {
            println!("{text}");
            ExitCode::FAILURE
        }
    }
}

fn settings() -> Option<Settings> {
    let mut arguments = std::env::args().skip(1);
    let mut settings = Settings {
        programs: [arguments.next()?, arguments.next()?],
        seed: 1,
        count: 20_000,
        operations: all_operations().iter().map(|s| s.to_string()).collect(),
        require: vec![],
        properties: vec![],
        pieces: vec![],
    };
    while let Some(name) = arguments.next() {
        let value = arguments.next()?;
        match name.as_str() {
            "--seed" => settings.seed = value.parse().ok()?,
            "--count" => settings.count = value.parse().ok()?,
            "--operations" => settings.operations = names(&value),
            "--require" => settings.require = numbers(&value)?,
            "--properties" => settings.properties = numbers(&value)?,
            "--pieces" => settings.pieces = names(&value),
            _ => return None,
        }
    }
    Some(settings)
}

fn names(list: &str) -> Vec<String> {
    list.split(',').map(String::from).collect()
}

fn numbers(list: &str) -> Option<Vec<u64>> {
    list.split(',').map(|n| n.parse().ok()).collect()
}

fn compare(settings: &Settings) -> Result<(), String> {
    let names: Vec<&str> = settings.operations.iter().map(String::as_str).collect();
    let generator = Generator::new(settings.seed, &names).ok_or("unknown operation")?;
    let mut programs =
        [Program::start(&settings.programs[0])?, Program::start(&settings.programs[1])?];
    let requests = send_requests(generator, settings.count, &mut programs);
    let mut seen = Seen::default();
    let compared = compare_replies(&requests, &mut programs, &mut seen);
    for program in &mut programs {
        program.stop();
    }
    let compared = compared?;
    seen.print();
    required(&settings.require, &seen.refusals, "refusal")?;
    required(&settings.properties, &seen.properties, "answer on property")?;
    required(&settings.pieces, &seen.by_pieces, "answer by a piece of")?;
    required(&settings.pieces, &seen.refused_pieces, "refused piece of")?;
    if compared != settings.count {
        return Err(format!("only {compared} requests were made"));
    }
    println!("no difference in {compared} requests");
    Ok(())
}

/// Makes the requests in a thread of its own and writes them to both programs
/// from two more. Each queue is filled in the same order, so that whoever
/// waits for a reply waits for a request that is already on its way.
fn send_requests(
    mut generator: Generator,
    count: u64,
    programs: &mut [Program; 2],
) -> Receiver<Arc<String>> {
    let writers: Vec<SyncSender<Arc<String>>> =
        programs.iter_mut().filter_map(Program::take_input).map(write_requests).collect();
    let (own, requests) = sync_channel(QUEUE);
    thread::spawn(move || {
        for _ in 0..count {
            let request = Arc::new(generator.request());
            for queue in writers.iter().chain([&own]) {
                // An ended program has closed its queue; its replies tell.
                let _ = queue.send(request.clone());
            }
        }
    });
    requests
}

fn write_requests(mut input: ChildStdin) -> SyncSender<Arc<String>> {
    let (queue, requests) = sync_channel::<Arc<String>>(QUEUE);
    thread::spawn(move || {
        for request in requests {
            if writeln!(input, "{request}").is_err() {
                return;
            }
        }
    });
    queue
}

fn compare_replies(
    requests: &Receiver<Arc<String>>,
    programs: &mut [Program; 2],
    seen: &mut Seen,
) -> Result<u64, String> {
    let mut compared = 0;
    for (index, request) in requests.iter().enumerate() {
        let replies = [programs[0].reply(), programs[1].reply()];
        let shown = || format!("request {index}: {request}\nA: {}\nB: {}", replies[0], replies[1]);
        if replies[0] != replies[1] {
            return Err(format!("difference\n{}", shown()));
        }
        if replies[0] == "error" || replies[0].starts_with('(') {
            return Err(format!("no answer\n{}", shown()));
        }
        seen.add(&request, &replies[0]);
        compared += 1;
    }
    Ok(compared)
}

/// What kinds of requests and replies came.
#[derive(Default)]
struct Seen {
    requests: BTreeMap<String, u64>,
    answers: BTreeMap<String, u64>,
    refusals: BTreeMap<u64, u64>,
    /// Calls that were answered, by their property.
    properties: BTreeMap<u64, u64>,
    /// Calls that were answered by a piece, and those that refused one.
    by_pieces: BTreeMap<String, u64>,
    refused_pieces: BTreeMap<String, u64>,
}

impl Seen {
    fn add(&mut self, request: &str, reply: &str) {
        let fields: Vec<&str> = request.split(' ').collect();
        let operation = fields[0];
        *self.requests.entry(operation.to_string()).or_default() += 1;
        let words: Vec<&str> = reply.split(' ').collect();
        let piece = property(&fields) == Some(INVARIANT) && has_piece(&fields);
        if words[0] == "refused" {
            let number = words.get(1).and_then(|n| n.parse().ok()).unwrap_or(0);
            *self.refusals.entry(number).or_default() += 1;
            // No design has an expression at place 0.
            if piece && words[1..].starts_with(&["8", "at", "0"]) {
                *self.refused_pieces.entry(operation.to_string()).or_default() += 1;
            }
            return;
        }
        if operation == "owners" {
            return self.add_owners(&fields, reply);
        }
        if piece {
            *self.by_pieces.entry(operation.to_string()).or_default() += 1;
        }
        if let Some(answer) = named_answer(&fields, &words) {
            *self.answers.entry(answer).or_default() += 1;
        }
        if let Some(property) = property(&fields) {
            *self.properties.entry(property).or_default() += 1;
        }
    }

    /// Each owner's answer, with the piece that it is about.
    fn add_owners(&mut self, fields: &[&str], reply: &str) {
        let told = reply.split(" mem").next().unwrap_or("");
        let owners = fields.get(FIRST_OWNER..).unwrap_or(&[]);
        for (owner, answer) in owners.iter().zip(told.split(" | ").skip(1)) {
            let words: Vec<&str> = answer.split(' ').collect();
            let refused = words[0] == "refused";
            let named =
                if refused { format!("refused {}", words[1]) } else { words[0].to_string() };
            *self
                .answers
                .entry(format!("owners, one of {}: {named}", owners.len()))
                .or_default() += 1;
            let piece = !owner.starts_with("-:");
            if piece && !refused {
                *self.by_pieces.entry("owners".to_string()).or_default() += 1;
            }
            if piece && named == "refused 8" {
                *self.refused_pieces.entry("owners".to_string()).or_default() += 1;
            }
            if !refused {
                *self.properties.entry(INVARIANT).or_default() += 1;
            }
        }
    }

    fn print(&self) {
        for (operation, count) in &self.requests {
            println!("requests {operation}: {count}");
        }
        for (answer, count) in &self.answers {
            println!("answers {answer}: {count}");
        }
        for (number, count) in &self.refusals {
            println!("refusals {number}: {count}");
        }
        for (number, count) in &self.properties {
            println!("answers on property {number}: {count}");
        }
        for (operation, count) in &self.by_pieces {
            println!("answers by a piece {operation}: {count}");
        }
        for (operation, count) in &self.refused_pieces {
            println!("refused pieces {operation}: {count}");
        }
    }
}

/// Whether all of these were seen.
fn required<T: Ord + Display>(
    wanted: &[T],
    seen: &BTreeMap<T, u64>,
    name: &str,
) -> Result<(), String> {
    match wanted.iter().find(|one| !seen.contains_key(one)) {
        Some(one) => Err(format!("{name} {one} was never seen")),
        None => Ok(()),
    }
}

/// The property that a request asks about.
fn property(fields: &[&str]) -> Option<u64> {
    let at = match fields[0] {
        // Owners ask property 0 alone; each is counted by itself.
        "check" | "start" | "step" | "solve" | "refute" | "owners" => return None,
        "holds" => 5,
        _ => 3,
    };
    fields.get(at)?.parse().ok()
}

/// Whether a request with a property lends a piece that has any bytes.
fn has_piece(fields: &[&str]) -> bool {
    fields[0] != "holds" && fields.get(2).is_some_and(|piece| *piece != "-")
}

/// A name for answers worth counting apart.
fn named_answer(fields: &[&str], words: &[&str]) -> Option<String> {
    let (operation, second) = (fields[0], words.get(1)?);
    let named = match operation {
        "solve" | "holds" => second.to_string(),
        "verdict" if *second == "clean" => second.to_string(),
        "verdict" => format!("{second} {}", words.get(2)?),
        "refute" => refute_name(fields, words)?,
        "replay" => replay_name(words)?,
        "step" => format!("idle {}, {}", words.last()?, mark_name(fields.get(4)?, words.get(3)?)),
        _ => return None,
    };
    Some(format!("{operation} {named}"))
}

/// The answer, and where the clause stands that decides it.
fn refute_name(fields: &[&str], words: &[&str]) -> Option<String> {
    let refutation = *fields.get(3)?;
    let named = match words[1..] {
        ["word", "0", ..] => "the first clause does not follow",
        ["word", ..] => "a later clause does not follow",
        ["accepted", ..] if refutation == "0" => "accepted at its first word",
        ["accepted", ..] => "accepted",
        [other, ..] if refutation == "-" => return Some(format!("{other}, no words")),
        [other, ..] => other,
        [] => return None,
    };
    Some(named.to_string())
}

/// What became of the mark in a step.
fn mark_name(before: &str, after: &str) -> &'static str {
    match (before, after) {
        ("0", "0") => "no mark",
        ("0", _) => "mark set",
        _ => "mark kept",
    }
}

/// Whether the property was broken, and whether the counts of events and guards read are 0 or the same.
fn replay_name(words: &[&str]) -> Option<String> {
    let [_, step, events, guards] = words else {
        return None;
    };
    let broken = if *step == "none" { "none" } else { "broken" };
    let counts = match (*events, *guards) {
        ("0", _) => "no event read",
        (_, "0") => "events read, no guard",
        (events, guards) if events == guards => "a guard read for every event",
        _ => "more events read than guards",
    };
    Some(format!("{broken}, {counts}"))
}
