//! The line protocol over a set of operations: a request line gives a reply
//! line. A malformed request, or an operation that is missing, gives `error`.

use crate::design::Refusal;
use crate::formula::Size;
use crate::operations::{Answer, Operations};
use crate::owners::{Ask, Owner, Shared, Told};
use crate::query::Query;
use crate::refute::Refuted;
use crate::search::Outcome;
use crate::step::State;
use crate::verdict::{Finding, Lent, Verdict};
use std::fmt::Display;
use std::io::{self, BufRead, Write};
use std::str::FromStr;

/// The most elements that a lent buffer may have here.
const MAX_LENT: usize = 1 << 28;

/// Answers requests line by line until the input ends.
pub fn serve(
    operations: &mut impl Operations,
    input: impl BufRead,
    mut output: impl Write,
) -> io::Result<()> {
    for line in input.split(b'\n') {
        let line = line?;
        let request = String::from_utf8_lossy(&line);
        let mut answer = reply(operations, &request);
        answer.push('\n');
        output.write_all(answer.as_bytes())?;
        output.flush()?;
    }
    Ok(())
}

/// The reply to one request, without its line end.
pub fn reply(operations: &mut impl Operations, request: &str) -> String {
    answered(operations, request).unwrap_or("error".to_string())
}

/// `None` is a malformed request or a missing operation.
fn answered(operations: &mut impl Operations, request: &str) -> Option<String> {
    let fields: Vec<&str> = request.split(' ').collect();
    match fields[..] {
        ["check", d] => check(operations, d),
        ["start", d] => start(operations, d),
        ["step", d, v, s, mark, choice] => step(operations, d, state(v, s, mark)?, choice),
        ["holds", d, v, s, mark, property] => holds(operations, d, state(v, s, mark)?, property),
        ["solve", n, words, ref rest @ ..] => solve(operations, n, words, rest),
        ["refute", n, words, refutation, length] => {
            refute(operations, n, words, refutation, length)
        }
        ["owners", d, bound, clauses, values, trail, ref each @ ..] => {
            owners(operations, d, bound, Buffers::new(clauses, values, trail)?, each)
        }
        [operation, d, piece, property, ref rest @ ..] => {
            let asked = Asked::new(d, piece, property)?;
            answered_query(operations, operation, asked.query(), rest)
        }
        _ => None,
    }
}

/// As `answered`, for the operations that take a design, a piece and a
/// property.
fn answered_query(
    operations: &mut impl Operations,
    operation: &str,
    query: Query<[u8]>,
    rest: &[&str],
) -> Option<String> {
    match operation {
        "replay" => replay(operations, query, rest),
        "size" => size(operations, query, rest),
        "encode" => encode(operations, query, rest),
        "decode" => decode(operations, query, rest),
        "verdict" => verdict(operations, query, rest),
        "trace" => trace(operations, query, rest),
        _ => None,
    }
}

fn check(operations: &mut impl Operations, d: &str) -> Option<String> {
    finish(operations.check(&bytes(d)?), |()| "ok".to_string())
}

fn start(operations: &mut impl Operations, d: &str) -> Option<String> {
    finish(operations.start(&bytes(d)?), |state| format!("ok {}", state_text(&state)))
}

fn step(operations: &mut impl Operations, d: &str, state: State, choice: &str) -> Option<String> {
    let answer = operations.step(&bytes(d)?, &state, number(choice)?);
    finish(answer, |stepped| format!("ok {} {}", state_text(&stepped.state), stepped.idle as u8))
}

fn holds(
    operations: &mut impl Operations,
    d: &str,
    state: State,
    property: &str,
) -> Option<String> {
    let answer = operations.holds(&bytes(d)?, &state, number(property)?);
    finish(answer, |holds| format!("ok {}", holds as u8))
}

fn replay(operations: &mut impl Operations, query: Query<[u8]>, rest: &[&str]) -> Option<String> {
    let [choices] = rest else {
        return None;
    };
    let answer = operations.replay(query, &list(choices)?);
    finish(answer, |replayed| {
        let broken = replayed.broken.map_or("none".to_string(), |i| i.to_string());
        format!("ok {broken} {} {}", replayed.events, replayed.guards)
    })
}

fn size(operations: &mut impl Operations, query: Query<[u8]>, rest: &[&str]) -> Option<String> {
    let [bound] = rest else {
        return None;
    };
    let answer = operations.size(query, number(bound)?);
    finish(answer, |size| size_text(&size))
}

fn size_text(size: &Size) -> String {
    format!("ok {}", size.numbers().map(|x| x.to_string()).join(" "))
}

fn encode(operations: &mut impl Operations, query: Query<[u8]>, rest: &[&str]) -> Option<String> {
    let [bound, part, length] = rest else {
        return None;
    };
    let mut clauses: Vec<i32> = lent(length)?;
    let answer = operations.encode(query, number(bound)?, number(part)?, &mut clauses);
    let memory = memory_text(&[hash(&clauses)]);
    finish_with(answer, &memory, |count| {
        format!("ok {count} {}", list_text(front(&clauses, count)))
    })
}

fn solve(operations: &mut impl Operations, n: &str, words: &str, rest: &[&str]) -> Option<String> {
    let [values_length, trail_length, budget] = rest else {
        return None;
    };
    let n: u64 = number(n)?;
    let mut values: Vec<u8> = lent(values_length)?;
    let mut trail: Vec<u32> = lent(trail_length)?;
    let answer = operations.solve(n, &list(words)?, &mut values, &mut trail, number(budget)?);
    let memory = memory_text(&[hash(&values), hash(&trail)]);
    finish_with(answer, &memory, |solved| {
        let outcome = match solved.outcome {
            Outcome::Sat => "sat",
            Outcome::Unsat => "unsat",
            Outcome::Spent => "spent",
        };
        format!("ok {outcome} {} {}", solved.tries, list_text(front(&values, n)))
    })
}

fn refute(
    operations: &mut impl Operations,
    n: &str,
    words: &str,
    refutation: &str,
    length: &str,
) -> Option<String> {
    let (words, refutation): (Vec<i32>, Vec<i32>) = (list(words)?, list(refutation)?);
    let mut values: Vec<u8> = lent(length)?;
    let answer = operations.refute(number(n)?, &words, &refutation, &mut values);
    finish_with(answer, &memory_text(&[hash(&values)]), |refuted| match refuted {
        Refuted::Accepted => "ok accepted".to_string(),
        Refuted::Word(word) => format!("ok word {word}"),
        Refuted::Ended => "ok ended".to_string(),
    })
}

fn decode(operations: &mut impl Operations, query: Query<[u8]>, rest: &[&str]) -> Option<String> {
    let [bound, values, length] = rest else {
        return None;
    };
    let bound: u64 = number(bound)?;
    let mut choices: Vec<u8> = lent(length)?;
    let answer = operations.decode(query, bound, &list(values)?, &mut choices);
    let memory = memory_text(&[hash(&choices)]);
    finish_with(answer, &memory, |()| format!("ok {}", list_text(front(&choices, bound))))
}

fn verdict(operations: &mut impl Operations, query: Query<[u8]>, rest: &[&str]) -> Option<String> {
    let [bound, budget, clauses, values, trail, choices] = rest else {
        return None;
    };
    let mut clauses: Vec<i32> = lent(clauses)?;
    let mut values: Vec<u8> = lent(values)?;
    let mut trail: Vec<u32> = lent(trail)?;
    let mut choices: Vec<u8> = lent(choices)?;
    let lent = Lent {
        clauses: &mut clauses,
        values: &mut values,
        trail: &mut trail,
        choices: &mut choices,
    };
    let answer = operations.verdict(query, number(bound)?, number(budget)?, lent);
    let hashes = [hash(&clauses), hash(&values), hash(&trail), hash(&choices)];
    finish_with(answer, &memory_text(&hashes), |verdict| {
        format!("ok {}", verdict_text(&verdict, &choices))
    })
}

/// What VERDICT found, with the choices that it wrote.
fn verdict_text(verdict: &Verdict, choices: &[u8]) -> String {
    let tries = verdict.tries;
    match verdict.finding {
        Finding::Violated(step) => {
            format!("violated {step} {tries} {}", list_text(front(choices, step)))
        }
        Finding::Clean => format!("clean {tries}"),
        Finding::Spent(bound) => format!("spent {bound} {tries}"),
    }
}

/// The buffers that several owners share.
struct Buffers {
    clauses: Vec<i32>,
    values: Vec<u8>,
    trail: Vec<u32>,
}

impl Buffers {
    fn new(clauses: &str, values: &str, trail: &str) -> Option<Buffers> {
        Some(Buffers { clauses: lent(clauses)?, values: lent(values)?, trail: lent(trail)? })
    }

    fn shared(&mut self) -> Shared<'_> {
        let Buffers { clauses, values, trail } = self;
        Shared { clauses, values, trail }
    }

    fn hashes(&self) -> Vec<u64> {
        vec![hash(&self.clauses), hash(&self.values), hash(&self.trail)]
    }
}

/// An owner as the request gives it, from PIECE:BUDGET:CHOICESLEN.
fn ask(owner: &str) -> Option<Ask> {
    let fields: Vec<&str> = owner.split(':').collect();
    let [piece, budget, choices] = fields[..] else {
        return None;
    };
    Some(Ask { piece: bytes(piece)?, budget: number(budget)?, choices: lent(choices)? })
}

/// What an owner is told, as a part of the reply.
fn told_text(told: &Told, choices: &[u8]) -> String {
    let text = match told {
        Ok(verdict) => verdict_text(verdict, choices),
        Err(refusal) => refusal_text(refusal),
    };
    format!(" | {text}")
}

fn owners(
    operations: &mut impl Operations,
    d: &str,
    bound: &str,
    mut buffers: Buffers,
    each: &[&str],
) -> Option<String> {
    let asks: Option<Vec<Ask>> = each.iter().map(|owner| ask(owner)).collect();
    let mut asks = asks?;
    let mut owners: Vec<Owner> = asks.iter_mut().map(Ask::owner).collect();
    let answer = operations.owners(&bytes(d)?, number(bound)?, &mut owners, buffers.shared());
    let mut hashes = buffers.hashes();
    hashes.extend(asks.iter().map(|ask| hash(&ask.choices)));
    finish_with(answer, &memory_text(&hashes), |told| {
        let texts = asks.iter().zip(&told).map(|(ask, told)| told_text(told, &ask.choices));
        format!("ok{}", texts.collect::<String>())
    })
}

/// The program reads the property and the number of choices as bytes.
fn trace(operations: &mut impl Operations, query: Query<[u8]>, rest: &[&str]) -> Option<String> {
    let [choices] = rest else {
        return None;
    };
    let choices: Vec<u8> = list(choices)?;
    u8::try_from(query.property).ok()?;
    u8::try_from(choices.len()).ok()?;
    finish(operations.trace(query, &choices), |output| {
        let text = String::from_utf8_lossy(&output).into_owned();
        text.strip_suffix('\n').unwrap_or(&text).replace('\n', ";")
    })
}

fn finish<T>(answer: Answer<T>, text: impl FnOnce(T) -> String) -> Option<String> {
    match answer {
        Answer::Done(value) => Some(text(value)),
        Answer::Refused(refusal) => Some(refusal_text(&refusal)),
        Answer::Missing => None,
    }
}

/// As `finish`, with the hashes of the lent memory at the end.
fn finish_with<T>(
    answer: Answer<T>,
    memory: &str,
    text: impl FnOnce(T) -> String,
) -> Option<String> {
    Some(format!("{} {memory}", finish(answer, text)?))
}

fn refusal_text(refusal: &Refusal) -> String {
    format!("refused {} at {}", refusal.number, refusal.place)
}

pub fn state_text(state: &State) -> String {
    format!("{} {} {}", list_text(&state.values), list_text(&state.statuses), state.mark)
}

/// The first elements; never more than there are, whatever a call answered.
fn front<T>(elements: &[T], count: u64) -> &[T] {
    &elements[..elements.len().min(count as usize)]
}

pub fn list_text<T: Display>(elements: &[T]) -> String {
    if elements.is_empty() {
        return "-".to_string();
    }
    let texts: Vec<String> = elements.iter().map(|e| e.to_string()).collect();
    texts.join(",")
}

pub fn hex(bytes: &[u8]) -> String {
    const DIGITS: &[u8; 16] = b"0123456789abcdef";
    if bytes.is_empty() {
        return "-".to_string();
    }
    let digits = bytes.iter().flat_map(|b| [b >> 4, b & 15]);
    digits.map(|d| DIGITS[d as usize] as char).collect()
}

pub fn bytes(text: &str) -> Option<Vec<u8>> {
    if text == "-" {
        return Some(Vec::new());
    }
    if text.is_empty() || text.len() % 2 == 1 {
        return None;
    }
    let pairs = text.as_bytes().chunks_exact(2);
    pairs.map(|pair| Some(digit(pair[0])? << 4 | digit(pair[1])?)).collect()
}

fn digit(character: u8) -> Option<u8> {
    match character {
        b'0'..=b'9' => Some(character - b'0'),
        b'a'..=b'f' => Some(character - b'a' + 10),
        _ => None,
    }
}

/// A decimal number, with a minus sign at most.
fn number<T: FromStr>(text: &str) -> Option<T> {
    let digits = text.strip_prefix('-').unwrap_or(text);
    let plain = !digits.is_empty() && digits.bytes().all(|b| b.is_ascii_digit());
    if plain {
        text.parse().ok()
    } else {
        None
    }
}

fn list<T: FromStr>(text: &str) -> Option<Vec<T>> {
    if text == "-" {
        return Some(Vec::new());
    }
    text.split(',').map(number).collect()
}

/// What a request with a property asks about.
struct Asked {
    design: Vec<u8>,
    piece: Vec<u8>,
    property: u64,
}

impl Asked {
    fn new(d: &str, piece: &str, property: &str) -> Option<Asked> {
        Some(Asked { design: bytes(d)?, piece: bytes(piece)?, property: number(property)? })
    }

    fn query(&self) -> Query<'_, [u8]> {
        Query::new(&self.design[..], self.property).with_piece(&self.piece)
    }
}

fn state(values: &str, statuses: &str, mark: &str) -> Option<State> {
    let values = list(values)?.try_into().ok()?;
    let statuses = list(statuses)?.try_into().ok()?;
    Some(State { values, statuses, mark: number(mark)? })
}

/// A lent buffer: element i is (37 i + 11) mod 251 before the call.
fn lent<T: From<u8>>(length: &str) -> Option<Vec<T>> {
    let length: usize = number(length)?;
    if length > MAX_LENT {
        return None;
    }
    Some((0..length).map(|i| T::from(((37 * i + 11) % 251) as u8)).collect())
}

/// The elements of lent memory as little-endian bytes.
trait Element {
    fn add_to(&self, hash: u64) -> u64;
}

impl Element for u8 {
    fn add_to(&self, hash: u64) -> u64 {
        (hash ^ *self as u64).wrapping_mul(0x0000_0100_0000_01b3)
    }
}

impl Element for u32 {
    fn add_to(&self, hash: u64) -> u64 {
        self.to_le_bytes().iter().fold(hash, |hash, byte| byte.add_to(hash))
    }
}

impl Element for i32 {
    fn add_to(&self, hash: u64) -> u64 {
        (*self as u32).add_to(hash)
    }
}

/// FNV-1a of 64 bits.
fn hash<T: Element>(elements: &[T]) -> u64 {
    elements.iter().fold(0xcbf2_9ce4_8422_2325, |hash, e| e.add_to(hash))
}

fn memory_text(hashes: &[u64]) -> String {
    hashes.iter().fold("mem".to_string(), |text, hash| format!("{text} {hash:016x}"))
}
