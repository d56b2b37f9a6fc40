//! R-8 of document 02 on generated designs, by every list of choices: for properties 0 and 1 both readings have the same answer and the
//! same smallest breaking step, and no breaking list of that length idles. For property 2 they may differ.

#[path = "support/strict.rs"]
mod lists;
mod support;

use lists::{count, runs, Run, WRONG};
use reference::builder::boolean_bytes;
use reference::design::Design;
use reference::generator::counters::counter_design;
use reference::generator::trees::{breakable, chain_design, design, tiny_plan};
use reference::query::{Query, CONSTRAINT, INVARIANT, NO_INVALID_CELL};
use reference::random::Random;
use reference::strict::{is_strict, strict_breaking};
use support::through_file;

const DESIGNS: usize = 1_200;

/// The lists of a design are at most so many.
const MOST_LISTS: usize = 300;

fn generated(random: &mut Random) -> Design {
    let mut made = match random.below(3) {
        0 => {
            let plan = tiny_plan(random);
            design(random, plan)
        }
        1 => chain_design(random),
        _ => counter_design(random),
    };
    if random.chance(50) {
        made.invariant = breakable(random, &made);
    }
    through_file(&made)
}

/// The greatest bound, up to 5, whose lists are not too many.
fn greatest_bound(design: &Design) -> usize {
    let movers = design.movers().len();
    (1..=5).rev().find(|&bound| movers.pow(bound) <= MOST_LISTS).unwrap_or(1) as usize
}

/// The lists of each length from 0, for one property and piece.
fn by_length(query: Query<Design>) -> Vec<Vec<Run>> {
    (0..=greatest_bound(query.design)).map(|length| runs(query, length)).collect()
}

/// Calls with every property of every generated design, with no piece and with one.
fn for_each_case(seed: u64, mut call: impl FnMut(Query<Design>, &[Vec<Run>])) {
    let mut random = Random::new(seed);
    for _ in 0..DESIGNS {
        let design = generated(&mut random);
        let piece = boolean_bytes(&breakable(&mut random, &design));
        let constraint = design.constraint.is_some().then_some((CONSTRAINT, &[][..]));
        let cases = [(INVARIANT, &[][..]), (INVARIANT, &piece), (NO_INVALID_CELL, &[])];
        for (property, piece) in cases.into_iter().chain(constraint) {
            let query = Query::new(&design, property).with_piece(piece);
            call(query, &by_length(query));
        }
    }
}

/// The smallest breaking step of the lists of at most so many choices.
fn smallest(lengths: &[Vec<Run>], counts: fn(&Run) -> bool) -> Option<u64> {
    lengths.iter().flatten().filter(|run| counts(run)).filter_map(|run| run.broken).min()
}

/// How often a case came, so that the tests show that they met it.
#[derive(Debug, Default)]
struct Met {
    broken: u32,
    later: u32,
    piece: u32,
    marked: u32,
    deadlock: u32,
    stuck_and_broken: u32,
    apart: u32,
}

impl Met {
    fn add(&mut self, query: Query<Design>, first: Option<u64>, runs: &[Run]) {
        let strict = || runs.iter().filter(|run| run.is_strict());
        let breaking = || strict().filter(|run| run.broken.is_some());
        self.broken += first.is_some() as u32;
        self.later += first.is_some_and(|step| step >= 2) as u32;
        self.piece += (query.reads_piece() && first.is_some()) as u32;
        self.marked += breaking().any(|run| run.last.mark == 1) as u32;
        self.deadlock += strict().any(Run::meets_deadlock) as u32;
        self.stuck_and_broken += breaking().any(Run::meets_deadlock) as u32;
        self.apart += (count(runs, Run::is_strict) != count(runs, |_| true)) as u32;
    }
}

#[test]
fn both_readings_break_properties_0_and_1_at_the_same_step() {
    let mut met = Met::default();
    for_each_case(81, |query, lengths| {
        if query.property == CONSTRAINT {
            return;
        }
        for bound in 0..lengths.len() {
            let first = smallest(&lengths[..=bound], |_| true);
            assert_eq!(smallest(&lengths[..=bound], Run::is_strict), first);
            if let Some(step) = first {
                let shortest = lengths[step as usize].iter().filter(|run| run.broken.is_some());
                shortest.for_each(|run| assert!(!run.idles(), "{:?}", run.choices));
            }
            met.add(query, first, &lengths[bound]);
        }
    });
    let Met { broken, later, piece, marked, deadlock, stuck_and_broken, apart } = met;
    assert!(broken > 4_000 && later > 500 && piece > 1_000 && marked > 1_000, "{met:?}");
    assert!(deadlock > 1_000 && stuck_and_broken > 500 && apart > 1_000, "{met:?}");
}

/// For all three properties. Every list is asked, too, whether it is strict.
#[test]
fn levels_count_what_the_definition_does() {
    let mut counted = [0; 3];
    for_each_case(82, |query, lengths| {
        for (bound, runs) in lengths.iter().enumerate() {
            let strict = count(runs, Run::is_strict);
            assert_eq!(strict_breaking(query, bound as u64), Ok(Some(strict)));
            counted[query.property as usize] += (strict > 0) as u32;
            for run in runs.iter().filter(|_| query.property == NO_INVALID_CELL) {
                assert_eq!(is_strict(query.design, &run.choices), run.is_strict());
            }
        }
    });
    assert!(counted.iter().all(|&count| count > 500), "{counted:?}");
}

/// Of property 2: some bounds where only lists that are not strict break it,
/// and some where both readings break it first at different steps.
#[test]
fn the_readings_differ_in_property_2() {
    let (mut other_verdict, mut other_step, mut idles) = (0, 0, 0);
    for_each_case(83, |query, lengths| {
        if query.property != CONSTRAINT {
            return;
        }
        for bound in 0..lengths.len() {
            let all = smallest(&lengths[..=bound], |_| true);
            let strict = smallest(&lengths[..=bound], Run::is_strict);
            other_verdict += (all.is_some() && strict.is_none()) as u32;
            other_step += (all.is_some() && strict.is_some() && all != strict) as u32;
            let shortest = all.map_or(&[][..], |step| &lengths[step as usize]);
            idles += shortest.iter().any(|run| run.broken.is_some() && run.idles()) as u32;
        }
    });
    let met = [other_verdict, other_step, idles];
    assert!(met.iter().all(|&count| count > 10), "{met:?}");
}

/// Each wrong definition counts otherwise in many cases.
#[test]
fn generated_designs_tell_wrong_definitions() {
    let mut told = [0; WRONG.len()];
    for_each_case(84, |_, lengths| {
        for runs in lengths {
            let strict = count(runs, Run::is_strict);
            for (told, (_, wrong)) in told.iter_mut().zip(WRONG) {
                *told += (count(runs, wrong) != strict) as u32;
            }
        }
    });
    assert!(told.iter().all(|&count| count > 100), "{told:?}");
}
