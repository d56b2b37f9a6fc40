//! Times of calls, for benchmarks.

use std::hint::black_box;
use std::time::{Duration, Instant};

/// How long a round of calls lasts, where more than one call fits.
const ROUND: Duration = Duration::from_millis(30);

/// Rounds of a side, where a round is one long call, and where that takes seconds.
const ROUNDS: usize = 20;
const LONG_ROUNDS: usize = 3;
const FEW_ROUNDS: usize = 2;

fn time(calls: u32, call: &mut dyn FnMut()) -> Duration {
    let start = Instant::now();
    (0..calls).for_each(|_| call());
    start.elapsed()
}

/// Calls that fill a round.
fn calls(call: &mut dyn FnMut()) -> u32 {
    let mut calls = 1;
    while time(calls, call) < ROUND {
        calls *= 2;
    }
    calls
}

/// Seconds that one call of each side takes, by its fastest round. The sides take turns, so that whatever else the machine does
/// strikes them all.
pub fn seconds<const N: usize>(mut sides: [&mut dyn FnMut(); N]) -> [f64; N] {
    let calls = sides.each_mut().map(|side| calls(*side));
    let rounds = if calls.contains(&1) { LONG_ROUNDS } else { ROUNDS };
    by_rounds(rounds, calls, sides)
}

/// The same for calls that take seconds: few rounds of one call, and no call before them.
pub fn seconds_of_few<const N: usize>(sides: [&mut dyn FnMut(); N]) -> [f64; N] {
    by_rounds(FEW_ROUNDS, [1; N], sides)
}

fn by_rounds<const N: usize>(rounds: usize, calls: [u32; N], mut sides: [&mut dyn FnMut(); N]) -> [f64; N] {
    let mut fastest = [f64::INFINITY; N];
    for _ in 0..rounds {
        for (i, side) in sides.iter_mut().enumerate() {
            fastest[i] = fastest[i].min(time(calls[i], *side).as_secs_f64() / f64::from(calls[i]));
        }
    }
    fastest
}

/// A result that only has to be made.
pub fn make<T>(result: T) {
    black_box(result);
}

/// Where a line's numbers begin.
const COLUMN: usize = 50;

/// A line of the report: below 1 the proved side is faster.
pub fn report(job: &str, proved: f64, reference: f64) {
    report_beside(job, proved, "reference", reference);
}

/// The same beside something else.
pub fn report_beside(job: &str, proved: f64, other: &str, time: f64) {
    let ratio = proved / time;
    println!("{job:<COLUMN$} proved {:>10.2} us   {other} {:>10.2} us   ratio {ratio:.2}", proved * 1e6, time * 1e6);
}

/// More about the job above.
pub fn note(text: &str) {
    println!("{:<COLUMN$} {text}", "");
}
