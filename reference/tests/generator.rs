//! What the generated requests must have among them, since a comparison shows nothing of what is never asked.

use reference::design::{check, Boolean, CellKind, Design, Integer, Kind, Mover, Statement};
use reference::generator::{all_operations, Generator};
use reference::operations::Reference;
use reference::protocol::{bytes, reply};
use reference::step::{run, step, State, Tests};
use reference::strict::is_strict;
use std::collections::BTreeSet;
use std::str::FromStr;

fn numbers<T: FromStr>(field: &str) -> Vec<T> {
    field.split(',').filter_map(|n| n.parse().ok()).collect()
}

/// How deep the ifs of a list nest.
fn ifs(list: &[Statement]) -> usize {
    let nested = |s: &Statement| match s {
        Statement::If(_, then, other) => 1 + ifs(then).max(ifs(other)),
        _ => 0,
    };
    list.iter().map(nested).max().unwrap_or(0)
}

/// The names of what a design has.
fn seen_in_design(design: &Design, seen: &mut BTreeSet<&'static str>) {
    for cell in &design.cells {
        match &cell.kind {
            CellKind::Normal { target, action, .. } => {
                if ifs(action) == 4 {
                    seen.insert("four ifs inside one another");
                }
                if *target == cell.status {
                    seen.insert("a self-loop");
                }
            }
            CellKind::Invalid => {
                seen.insert("an invalid cell");
            }
        }
    }
    if design.movers().len() == 64 {
        seen.insert("64 movers");
    }
}

fn seen_in_state(design: &Design, v: &str, s: &str, mark: &str, seen: &mut BTreeSet<&'static str>) {
    let (values, statuses): (Vec<i16>, Vec<u8>) = (numbers(v), numbers(s));
    for (i, value) in values.iter().enumerate() {
        match (design.variables.get(i).map(|v| v.kind), value) {
            (Some(Kind::Integer), &i16::MIN) => seen.insert("the least value"),
            (Some(Kind::Integer), &i16::MAX) => seen.insert("the greatest value"),
            (Some(Kind::Boolean), 2) => seen.insert("a Boolean of 2"),
            (Some(Kind::External), 2) => seen.insert("an external of 2"),
            (None, n) if *n != 0 => seen.insert("an unused value"),
            _ => false,
        };
    }
    for (i, status) in statuses.iter().enumerate() {
        match design.matrices.get(i) {
            Some(m) if *status == m.statuses => seen.insert("a status too high"),
            None if *status != 0 => seen.insert("an unused status"),
            _ => false,
        };
    }
    match mark {
        "0" => seen.insert("no mark"),
        "1" => seen.insert("a mark"),
        "2" => seen.insert("a mark of 2"),
        "256" | "257" => seen.insert("a mark that is no byte"),
        "65535" => seen.insert("the greatest mark"),
        _ => false,
    };
}

fn seen_in_choice(design: &Design, v: &str, choice: &str, seen: &mut BTreeSet<&'static str>) {
    let (movers, choice) = (design.movers(), choice.parse::<u64>().unwrap());
    match choice.checked_sub(movers.len() as u64 - 1) {
        Some(0) => seen.insert("the last mover"),
        Some(1) => seen.insert("one past the last mover"),
        Some(_) if choice > 255 => seen.insert("a choice that is no byte"),
        _ => false,
    };
    if let Some(Mover::External(x)) = movers.get(choice as usize) {
        let raised = numbers::<i16>(v)[*x] == 1;
        seen.insert(if raised { "an external already raised" } else { "an external to raise" });
    }
}

/// Whether the choice idles, and whether some mover is enabled.
fn seen_in_step(
    design: &Design,
    [v, s, mark]: [&str; 3],
    choice: &str,
    seen: &mut BTreeSet<&'static str>,
) {
    let (Ok(values), Ok(statuses)) = (numbers(v).try_into(), numbers(s).try_into()) else { return };
    let state = State { values, statuses, mark: mark.parse().unwrap() };
    let Ok(stepped) = step(design, &state, choice.parse().unwrap()) else { return };
    let enabled = |choice| !step(design, &state, choice).unwrap().idle;
    let some_enabled = (0..design.movers().len() as u64).any(enabled);
    seen.insert(match (stepped.idle, some_enabled) {
        (true, true) => "an idle choice where some mover is enabled",
        (true, false) => "an idle choice where no mover is enabled",
        _ => "a choice that is not idle",
    });
}

/// Whether the run is strict, and whether it idles.
fn seen_in_run(design: &Design, choices: &[u8], seen: &mut BTreeSet<&'static str>) {
    let is_mover = |&choice: &u8| (choice as usize) < design.movers().len();
    if choices.len() > 100 || !choices.iter().all(is_mover) {
        return;
    }
    let idles = run(design, choices, Tests::UpToFailure).states.iter().any(|step| step.idle);
    match (is_strict(design, choices), idles) {
        (true, true) => seen.insert("a strict run that idles"),
        (true, false) if choices.len() > 1 => seen.insert("a strict run that never idles"),
        (false, _) => seen.insert("a run that is not strict"),
        _ => false,
    };
}

fn seen_in_choices(design: &Design, choices: &str, seen: &mut BTreeSet<&'static str>) {
    seen_in_run(design, &numbers(choices), seen);
    let (movers, choices) = (design.movers().len(), numbers::<usize>(choices));
    match choices.len() {
        0 => seen.insert("no choice"),
        100 => seen.insert("100 choices"),
        101 => seen.insert("101 choices"),
        _ => false,
    };
    if choices.len() <= 100 && choices.contains(&movers) {
        seen.insert("a list with one past the last mover");
    }
}

/// What the requests of the step rule have to have among them.
const ENDS: [&str; 31] = [
    "four ifs inside one another",
    "a self-loop",
    "an invalid cell",
    "64 movers",
    "the least value",
    "the greatest value",
    "a Boolean of 2",
    "an external of 2",
    "an unused value",
    "a status too high",
    "an unused status",
    "no mark",
    "a mark",
    "a mark of 2",
    "a mark that is no byte",
    "the greatest mark",
    "the last mover",
    "one past the last mover",
    "a choice that is no byte",
    "an external already raised",
    "an external to raise",
    "no choice",
    "100 choices",
    "101 choices",
    "a list with one past the last mover",
    "an idle choice where some mover is enabled",
    "an idle choice where no mover is enabled",
    "a choice that is not idle",
    "a strict run that idles",
    "a strict run that never idles",
    "a run that is not strict",
];

#[test]
fn requests_reach_the_ends_of_the_step_rule() {
    let mut generator = Generator::new(3, &["step", "holds", "replay", "trace"]).unwrap();
    let mut seen = BTreeSet::new();
    for _ in 0..20_000 {
        let request = generator.request();
        let fields: Vec<&str> = request.split(' ').collect();
        let Ok(design) = check(&bytes(fields[1]).unwrap()) else {
            continue;
        };
        seen_in_design(&design, &mut seen);
        match fields[..] {
            ["step", _, v, s, mark, choice] => {
                seen_in_state(&design, v, s, mark, &mut seen);
                if numbers::<i16>(v).len() == 32 {
                    seen_in_choice(&design, v, choice, &mut seen);
                }
                seen_in_step(&design, [v, s, mark], choice, &mut seen);
            }
            ["holds", _, v, s, mark, _] => seen_in_state(&design, v, s, mark, &mut seen),
            [_, _, _, _, choices] => seen_in_choices(&design, choices, &mut seen),
            _ => {}
        }
    }
    let missing: Vec<_> = ENDS.iter().filter(|name| !seen.contains(**name)).collect();
    assert!(missing.is_empty(), "never asked: {missing:?}");
}

/// Where a field of two bytes stands: so many bytes before the end.
fn field(file: &[u8], before_end: usize) -> usize {
    let at = file.len() - before_end;
    u16::from_le_bytes([file[at], file[at + 1]]) as usize
}

/// The name of what CHECK says of the constraint's offset, in a file that is long enough for one.
fn seen_in_offset(file: &[u8], seen: &mut BTreeSet<&'static str>) {
    let (constraint, invariant, end) = (field(file, 18), field(file, 2), file.len() - 18);
    let (number, place) = check(file).map_or_else(|r| (r.number, r.place as usize), |_| (0, 0));
    let name = match (number, place == invariant) {
        (0, _) => "a file of version 2",
        (4, true) if constraint + 1 == invariant => "an offset just before the invariant",
        (4, true) if constraint == end + 1 => "an offset just past its limit",
        (4, true) if constraint < invariant => "an offset before the invariant",
        (4, true) if constraint > end => "an offset past its limit",
        (8, true) if constraint == invariant => "no invariant",
        (8, true) => "a bad invariant",
        (8, false) if place == end => "no constraint",
        (8, false) if place == constraint => "a bad constraint",
        (10, _) => "wrong movers",
        _ => return,
    };
    seen.insert(name);
}

#[test]
fn files_of_version_2_meet_the_limits_of_the_offset() {
    let mut generator = Generator::new(4, &["check"]).unwrap();
    let mut seen = BTreeSet::new();
    for _ in 0..30_000 {
        let request = generator.request();
        let file = bytes(&request["check ".len()..]).unwrap();
        match file.len() {
            16 | 17 if field(&file, 16) == 2 => {
                seen.insert("too short");
            }
            18.. if field(&file, 16) == 2 => seen_in_offset(&file, &mut seen),
            _ => {}
        }
    }
    let wanted = [
        "a bad constraint",
        "a bad invariant",
        "a file of version 2",
        "an offset before the invariant",
        "an offset just before the invariant",
        "an offset just past its limit",
        "an offset past its limit",
        "no constraint",
        "no invariant",
        "too short",
        "wrong movers",
    ];
    assert_eq!(seen.into_iter().collect::<Vec<_>>(), wanted);
}

/// The operators that read the next state, where they are not legal: with the operator made a constant the file is accepted.
#[test]
fn the_next_state_is_read_where_it_may_not_be() {
    let mut generator = Generator::new(5, &["check"]).unwrap();
    let mut seen = BTreeSet::new();
    for _ in 0..40_000 {
        let request = generator.request();
        let file = bytes(&request["check ".len()..]).unwrap();
        let Err(refusal) = check(&file) else { continue };
        if file.len() < 18 || (refusal.number != 8 && refusal.number != 9) {
            continue;
        }
        let (cells, invariant) = (field(&file, 6), field(&file, 2));
        let section = match refusal.place as usize {
            place if place < cells => "event",
            place if place < invariant && refusal.number == 8 => "guard",
            place if place < invariant => "action",
            place if place == invariant => "invariant",
            _ => continue,
        };
        seen.extend(illegal_reads(&file, refusal.place as usize).map(|code| (section, code)));
    }
    for section in ["event", "guard", "action", "invariant"] {
        for code in [0x06, 0x07, 0x17] {
            assert!(seen.contains(&(section, code)), "never asked: {code:x} in an {section}");
        }
    }
}

/// The operators whose earlier-state form in the same byte makes CHECK go on past the place.
fn illegal_reads(file: &[u8], place: usize) -> impl Iterator<Item = u8> + '_ {
    let legal = |code: u8| match code {
        0x06 => Some(0x02),
        0x07 => Some(0x03),
        0x17 => Some(0x11),
        _ => None,
    };
    (place..file.len() - 16).filter_map(move |at| {
        let mut changed = file.to_vec();
        changed[at] = legal(file[at])?;
        let goes_on = check(&changed).map_or_else(|r| r.place as usize != place, |_| true);
        goes_on.then_some(file[at])
    })
}

/// The property of a request's call, where it has one.
fn property(fields: &[&str]) -> Option<u64> {
    let at = match fields[0] {
        "holds" => 5,
        "replay" | "size" | "encode" | "decode" | "verdict" | "trace" => 3,
        _ => return None,
    };
    fields[at].parse().ok()
}

#[test]
fn every_call_asks_property_2_of_both_versions() {
    let mut generator = Generator::new(6, &all_operations()).unwrap();
    let mut seen = BTreeSet::new();
    for _ in 0..6_000 {
        let request = generator.request();
        let fields: Vec<&str> = request.split(' ').collect();
        let Some(property @ 2..=3) = property(&fields) else { continue };
        let Ok(design) = check(&bytes(fields[1]).unwrap()) else { continue };
        let reply = reply(&mut Reference, &request);
        let answer = match reply.split(' ').nth(1) {
            Some("11") => continue,
            Some("13") => "refused",
            _ => "taken",
        };
        let version = 1 + design.constraint.is_some() as u8;
        seen.insert((fields[0].to_string(), version, property, answer));
    }
    for call in ["replay", "size", "encode", "decode", "verdict", "trace"] {
        for (version, property, answer) in
            [(1, 2, "refused"), (2, 2, "taken"), (1, 3, "refused"), (2, 3, "refused")]
        {
            assert!(seen.contains(&(call.to_string(), version, property, answer)), "{call}");
        }
        assert!(!seen.contains(&(call.to_string(), 1, 2, "taken")));
    }
    assert!(seen.contains(&("holds".to_string(), 2, 2, "refused")));
    assert!(!seen.contains(&("holds".to_string(), 2, 2, "taken")));
}

/// How a constraint reads: by which operators of the next state.
fn next_reads(e: &Boolean, seen: &mut BTreeSet<u8>) {
    let mut number = |a: &Integer| next_numbers(a, seen);
    match e {
        Boolean::Constant(_) | Boolean::Variable(_) => {}
        Boolean::NextVariable(_) => {
            seen.insert(0x17);
        }
        Boolean::Not(a) => next_reads(a, seen),
        Boolean::And(a, b) | Boolean::Or(a, b) => {
            next_reads(a, seen);
            next_reads(b, seen);
        }
        Boolean::Equal(a, b) | Boolean::Less(a, b) => {
            number(a);
            number(b);
        }
    }
}

fn next_numbers(e: &Integer, seen: &mut BTreeSet<u8>) {
    match e {
        Integer::NextVariable(_) => {
            seen.insert(0x06);
        }
        Integer::NextStatus(_) => {
            seen.insert(0x07);
        }
        Integer::Sum(a, b) | Integer::Difference(a, b) => {
            next_numbers(a, seen);
            next_numbers(b, seen);
        }
        Integer::Product(_, a) => next_numbers(a, seen),
        _ => {}
    }
}

#[test]
fn formulas_of_property_2_read_by_every_operator() {
    let mut generator = Generator::new(7, &["encode"]).unwrap();
    let (mut seen, mut with_bound) = (BTreeSet::new(), 0);
    for _ in 0..3_000 {
        let request = generator.request();
        let fields: Vec<&str> = request.split(' ').collect();
        let Ok(design) = check(&bytes(fields[1]).unwrap()) else { continue };
        if let (Some(constraint), "2") = (&design.constraint, fields[3]) {
            next_reads(constraint, &mut seen);
            with_bound += (fields[4] != "0") as u32;
        }
    }
    assert_eq!(seen, BTreeSet::from([0x06, 0x07, 0x17]));
    assert!(with_bound > 50, "{with_bound}");
}
