//! Benchmarks: each job runs on the proved archive and on the second implementation in one process, and the ratio of the two
//! times is printed. Times of one machine mean little elsewhere; the ratios are what to compare.

use proved::timing::{make, note, report, seconds};
use proved::Proved;
use reference::builder::file_bytes;
use reference::design::{Boolean, Design, Integer, MAX_MOVERS};
use reference::designs::{all_files, design_a, long_tests, money_changer, Property, Version};
use reference::formula::Formula;
use reference::generator::trees::{crowded_plan, design, Plan};
use reference::operations::{Answer, Operations, Reference};
use reference::query::{Query, CONSTRAINT, INVARIANT, MAX_BOUND};
use reference::random::Random;
use reference::search::Solved;
use reference::step::{replay_by, Replayed, Tests};
use std::hint::black_box;
use std::process::{Command, Stdio};
use std::time::Instant;

fn check(name: &str, design: &[u8]) {
    let [proved, reference] =
        seconds([&mut || make(Proved.check(black_box(design))), &mut || make(Reference.check(black_box(design)))]);
    report(&format!("CHECK {name}"), proved, reference);
}

/// As many choices as REPLAY takes.
fn choices_of(design: &Design) -> Vec<u8> {
    let mut random = Random::new(1);
    let movers = design.movers().len();
    (0..MAX_BOUND).map(|_| random.below(movers) as u8).collect()
}

/// What both sides answer for a list that breaks nothing, so that the property is judged at every step.
fn unbroken(query: Query<[u8]>, choices: &[u8]) -> Replayed {
    let Answer::Done(replayed) = Proved.replay(query, choices) else {
        panic!("REPLAY refused a run");
    };
    assert_eq!(Reference.replay(query, choices), Answer::Done(replayed));
    assert_eq!(replayed.broken, None);
    replayed
}

fn replay(name: &str, design: &Design, property: u64) {
    let (file, choices) = (file_bytes(design), choices_of(design));
    let query = Query::new(&file[..], property);
    unbroken(query, &choices);
    let [proved, reference] = seconds([
        &mut || make(Proved.replay(black_box(query), black_box(&choices))),
        &mut || make(Reference.replay(black_box(query), black_box(&choices))),
    ]);
    report(&format!("REPLAY {name}, {MAX_BOUND} choices"), proved, reference);
}

/// REPLAY where most statuses do not stand, beside a second implementation that makes every test of a chosen cell, and beside one
/// that leaves off, too. A call is CHECK and the run. The reference's run is timed alone; the proved one is what CHECK leaves of the
/// call.
fn replay_long_tests() {
    let design = long_tests();
    let (file, choices) = (file_bytes(&design), choices_of(&design));
    let query = Query::new(&file[..], INVARIANT);
    let Replayed { events, guards, .. } = unbroken(query, &choices);
    let call = |tests| black_box(query).checked(|q| replay_by(q, black_box(&choices), tests));
    let run = |tests| replay_by(black_box(Query::new(&design, INVARIANT)), black_box(&choices), tests);
    let [proved, proved_check, check, all, all_run, leaving_off, leaving_off_run] = seconds([
        &mut || make(Proved.replay(black_box(query), black_box(&choices))),
        &mut || make(Proved.check(black_box(&file))),
        &mut || make(Reference.check(black_box(&file))),
        &mut || make(call(Tests::All)),
        &mut || make(run(Tests::All)),
        &mut || make(call(Tests::UpToFailure)),
        &mut || make(run(Tests::UpToFailure)),
    ]);
    for (beside, reference, reference_run) in [("all tests", all, all_run), ("leaving off", leaving_off, leaving_off_run)] {
        report(&format!("REPLAY long-tests, {MAX_BOUND} choices, beside {beside}"), proved, reference);
        note(&format!("of which CHECK: {}", both(proved_check, check)));
        note(&format!("and the run: {}", both(proved - proved_check, reference_run)));
    }
    note(&format!("events read {events}, guards read {guards}"));
}

/// The times of a part of a job.
fn both(proved: f64, reference: f64) -> String {
    format!("proved {:.2} us, reference {:.2} us", proved * 1e6, reference * 1e6)
}

/// A design of the most movers, whose invariant nothing breaks.
fn crowded() -> Design {
    let mut random = Random::new(1);
    let plan = Plan { movers: MAX_MOVERS, variables: 3, integer_percent: 50, depth: 3, statements: 2, ..crowded_plan(&mut random) };
    let never = Boolean::Less(Integer::Status(0), Integer::Constant(16));
    Design { invariant: never, ..design(&mut random, plan) }
}

/// Design A with an invariant that no short run breaks.
fn clean_a() -> Design {
    Design { invariant: Boolean::Less(Integer::Variable(1), Integer::Constant(100)), ..design_a() }
}

/// The words of a formula and its number of variables.
fn formula(design: &Design, bound: u64) -> (u64, Vec<i32>) {
    let formula = Formula::new(Query::new(design, INVARIANT), bound).expect("a formula");
    let mut words = vec![0; formula.size().words as usize];
    let mut at = 0;
    for part in 0..=formula.last_part() {
        at += formula.write_part(part, &mut words[at..]) as usize;
    }
    (formula.variables(), words)
}

/// Memory for SOLVE.
#[derive(Clone)]
struct Memory {
    values: Vec<u8>,
    trail: Vec<u32>,
}

impl Memory {
    fn solve(&mut self, operations: &mut impl Operations, n: u64, words: &[i32]) -> Solved {
        match operations.solve(n, words, &mut self.values, &mut self.trail, u64::MAX) {
            Answer::Done(solved) => solved,
            _ => panic!("SOLVE refused a formula"),
        }
    }
}

fn solve(name: &str, design: &Design, bound: u64) {
    let (n, words) = formula(design, bound);
    let mut first = Memory { values: vec![0; n as usize], trail: vec![0; n as usize] };
    let mut second = first.clone();
    let tries = first.solve(&mut Proved, n, &words).tries;
    assert_eq!(tries, second.solve(&mut Reference, n, &words).tries);
    let [proved, reference] = seconds([
        &mut || make(first.solve(&mut Proved, n, black_box(&words))),
        &mut || make(second.solve(&mut Reference, n, black_box(&words))),
    ]);
    report(&format!("SOLVE {name}, bound {bound}, {tries} tries"), proved, reference);
    note(&format!("{:.0} tries a second{}", tries as f64 / proved, minisat(n, &words)));
}

/// For scale, what minisat takes for the same clauses as a process of its own, where it is installed.
fn minisat(n: u64, words: &[i32]) -> String {
    let clauses = words.iter().filter(|&&w| w == 0).count();
    let mut text = format!("p cnf {n} {clauses}\n");
    for word in words {
        text += &word.to_string();
        text.push(if *word == 0 { '\n' } else { ' ' });
    }
    let file = std::env::temp_dir().join(format!("stm-bench-{}.cnf", std::process::id()));
    if std::fs::write(&file, text).is_err() {
        return String::new();
    }
    let start = Instant::now();
    let ran = Command::new("minisat").arg("-verb=0").arg(&file).stdout(Stdio::null()).status();
    let time = start.elapsed().as_secs_f64();
    let _ = std::fs::remove_file(&file);
    ran.map_or(String::new(), |_| format!("; minisat {:.2} us", time * 1e6))
}

fn main() {
    for (name, design) in all_files().iter().take(2) {
        check(name, design);
    }
    replay("design-a, clean", &clean_a(), INVARIANT);
    replay("money-changer, revised", &money_changer(Version::Revised, Property::Uic1), INVARIANT);
    replay("money-changer, revised, DYN", &money_changer(Version::Revised, Property::Dyn), CONSTRAINT);
    replay("64 movers", &crowded(), INVARIANT);
    replay_long_tests();
    for bound in 1..=6 {
        solve("design-a", &design_a(), bound);
    }
    for bound in 3..=5 {
        solve("design-a, clean", &clean_a(), bound);
    }
}
