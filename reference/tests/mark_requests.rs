//! Which marks the generated requests meet: where sums pass an end in a step that is carried out, where they do and nothing is
//! marked, and which answers the mark alone decides.

mod support;

use reference::design::{
    check, Boolean, Cell, CellKind, Design, Integer, Mover, Statement, MAX_NESTED_IFS,
};
use reference::generator::Generator;
use reference::operations::Reference;
use reference::protocol::{bytes, reply};
use reference::step::{holds, step, State};
use std::collections::{BTreeMap, BTreeSet};
use std::str::FromStr;
use support::*;

type Seen = BTreeSet<&'static str>;

fn numbers<T: FromStr>(field: &str) -> Vec<T> {
    field.split(',').filter_map(|n| n.parse().ok()).collect()
}

fn state_of(v: &str, s: &str, mark: &str) -> State {
    State {
        values: numbers(v).try_into().unwrap(),
        statuses: numbers(s).try_into().unwrap(),
        mark: mark.parse().unwrap(),
    }
}

/// The name of an operation that passes an end itself; its operands do not.
fn seen_in_number(e: &Integer, state: &State, seen: &mut Seen) {
    let operands = match e {
        Integer::Sum(a, b) | Integer::Difference(a, b) => vec![a, b],
        Integer::Product(_, a) => vec![a],
        _ => return,
    };
    let inner = operands.iter().any(|a| number_passes_an_end(a, state));
    operands.iter().for_each(|a| seen_in_number(a, state, seen));
    if inner {
        seen.insert("an operand that passes an end");
        return;
    }
    if !number_passes_an_end(e, state) {
        return;
    }
    seen.insert(match e {
        Integer::Sum(..) => "a sum",
        Integer::Difference(..) => "a difference",
        Integer::Product(-1, _) => "a product by -1",
        _ => "a product",
    });
    seen.insert(if number_in(e, state, state) < 0 {
        "past the greatest"
    } else {
        "past the least"
    });
}

fn seen_in_condition(e: &Boolean, state: &State, seen: &mut Seen) {
    match e {
        Boolean::Not(a) => seen_in_condition(a, state, seen),
        Boolean::And(a, b) | Boolean::Or(a, b) => {
            let decided = says(a, state, state) == matches!(e, Boolean::Or(..));
            if decided && passes_an_end(b, state) {
                seen.insert("a side that nothing depends on");
            }
            seen_in_condition(a, state, seen);
            seen_in_condition(b, state, seen);
        }
        Boolean::Equal(a, b) | Boolean::Less(a, b) => {
            seen_in_number(a, state, seen);
            seen_in_number(b, state, seen);
        }
        _ => {}
    }
}

/// What a list that is run meets; the state after it is left. `ifs` are around it.
fn seen_in_list(list: &[Statement], state: &mut State, ifs: u32, seen: &mut Seen) {
    for statement in list {
        match statement {
            Statement::AssignInteger(v, e) => {
                seen_in_number(e, state, seen);
                if number_passes_an_end(e, state) && ifs == MAX_NESTED_IFS {
                    seen.insert("inside four ifs");
                }
                state.values[*v as usize] = number_in(e, state, state) as i16;
            }
            Statement::AssignBoolean(v, e) => {
                seen_in_condition(e, state, seen);
                if passes_an_end(e, state) {
                    seen.insert("in a Boolean assignment");
                }
                state.values[*v as usize] = says(e, state, state) as i16;
            }
            Statement::If(condition, then, other) => {
                seen_in_condition(condition, state, seen);
                if passes_an_end(condition, state) {
                    seen.insert("in a condition");
                }
                let (taken, left, name) = match says(condition, state, state) {
                    true => (then, other, "a then-list that is taken"),
                    false => (other, then, "an else-list that is taken"),
                };
                if passes(left, *state) {
                    seen.insert("a list that is not taken");
                }
                if passes(taken, *state) {
                    seen.insert(name);
                }
                seen_in_list(taken, state, ifs + 1, seen);
            }
        }
    }
}

/// Whether some assignment of a list would pass an end in this state.
fn passes(list: &[Statement], state: State) -> bool {
    list.iter().any(|statement| match statement {
        Statement::AssignInteger(_, e) => number_passes_an_end(e, &state),
        Statement::AssignBoolean(_, e) => passes_an_end(e, &state),
        Statement::If(..) => false,
    })
}

/// What wraps without a mark, and what is marked.
fn seen_in_step(design: &Design, cell: &Cell, before: &State, idle: bool, seen: &mut Seen) {
    let CellKind::Normal { guard, action, .. } = &cell.kind else { panic!("no mover") };
    let event = design.event_of(cell);
    if passes_an_end(event, before) {
        seen.insert(if says(event, before, before) { "a true event" } else { "a false event" });
    }
    if let Some(guard) = guard.as_ref().filter(|g| passes_an_end(g, before)) {
        seen.insert(if says(guard, before, before) { "a true guard" } else { "a false guard" });
    }
    if idle && passes(action, *before) {
        seen.insert("an idle choice of a cell that would mark");
    }
    if !idle {
        seen_in_list(action, &mut before.clone(), 0, seen);
    }
}

#[test]
fn steps_pass_the_ends_in_every_way() {
    let mut generator = Generator::new(21, &["step"]).unwrap();
    let mut seen = Seen::new();
    for _ in 0..20_000 {
        let request = generator.request();
        let fields: Vec<&str> = request.split(' ').collect();
        let Ok(design) = check(&bytes(fields[1]).unwrap()) else { continue };
        let before = state_of(fields[2], fields[3], fields[4]);
        let choice: u64 = fields[5].parse().unwrap();
        let Ok(stepped) = step(&design, &before, choice) else { continue };
        match (before.mark, stepped.state.mark, stepped.idle) {
            (1, 1, true) => seen.insert("a mark kept by an idle choice"),
            (1, 1, false) => seen.insert("a mark kept"),
            (0, 1, _) => seen.insert("a mark set"),
            _ => seen.insert("no mark"),
        };
        if let Mover::Cell(i) = design.movers()[choice as usize] {
            seen_in_step(&design, &design.cells[i], &before, stepped.idle, &mut seen);
        }
    }
    let wanted = [
        "a difference",
        "a false event",
        "a false guard",
        "a list that is not taken",
        "a mark kept",
        "a mark kept by an idle choice",
        "a mark set",
        "a product",
        "a product by -1",
        "a side that nothing depends on",
        "a sum",
        "a then-list that is taken",
        "a true event",
        "a true guard",
        "an else-list that is taken",
        "an idle choice of a cell that would mark",
        "an operand that passes an end",
        "in a Boolean assignment",
        "in a condition",
        "inside four ifs",
        "no mark",
        "past the greatest",
        "past the least",
    ];
    assert_eq!(seen.into_iter().collect::<Vec<_>>(), wanted);
}

/// Whether HOLDS would say otherwise without the mark, and properties whose sums wrap.
#[test]
fn holds_asks_marked_states_and_wrapping_invariants() {
    let mut generator = Generator::new(22, &["holds"]).unwrap();
    let mut seen = BTreeSet::new();
    for _ in 0..8_000 {
        let request = generator.request();
        let fields: Vec<&str> = request.split(' ').collect();
        let Ok(design) = check(&bytes(fields[1]).unwrap()) else { continue };
        let state = state_of(fields[2], fields[3], fields[4]);
        let answer = reply(&mut Reference, &request);
        match (state.mark, fields[5]) {
            (1, "0" | "1") => {
                let unmarked = State { mark: 0, ..state };
                let property = fields[5].parse().unwrap();
                if holds(&design, &unmarked, property) == Ok(true) {
                    seen.insert(format!("property {property} by the mark: {answer}"));
                }
            }
            (0, "0") if passes_an_end(&design.invariant, &state) => {
                seen.insert(format!("a wrapping invariant: {answer}"));
            }
            _ => {}
        }
        if answer == "refused 11 at 40" {
            seen.insert(format!("refused, property {}", fields[5]));
        }
    }
    for wanted in [
        "property 0 by the mark: ok 0",
        "property 1 by the mark: ok 0",
        "a wrapping invariant: ok 0",
        "a wrapping invariant: ok 1",
        "refused, property 0",
        "refused, property 1",
        "refused, property 2",
    ] {
        assert!(seen.contains(wanted), "never asked: {wanted}");
    }
}

/// Runs that break each property by the mark alone: in REPLAY, in the program's traces and in verdicts.
#[test]
fn runs_and_verdicts_break_by_the_mark() {
    for (operation, count) in [("replay", 3_000), ("trace", 3_000), ("verdict", 1_500)] {
        let mut generator = Generator::new(23, &[operation]).unwrap();
        let mut seen = BTreeSet::new();
        for _ in 0..count {
            let request = generator.request();
            let fields: Vec<&str> = request.split(' ').collect();
            let Ok(design) = check(&bytes(fields[1]).unwrap()) else { continue };
            if fields[3] == "0" && fields[2] != "-" {
                continue;
            }
            let answer = reply(&mut Reference, &request);
            let Some((step, choices)) = break_of(operation, &fields, &answer) else { continue };
            let states = states_of(&design, &choices[..step]);
            let before = step.checked_sub(1).map_or(states[0], |i| states[i]);
            if states[step].mark == 1
                && holds_without_mark(&design, fields[3], &before, &states[step])
            {
                seen.insert(fields[3].to_string());
            }
        }
        for property in ["0", "1", "2"] {
            assert!(seen.contains(property), "{operation}: never by the mark on {property}");
        }
    }
}

/// The step that breaks, and choices that lead there.
fn break_of(operation: &str, fields: &[&str], answer: &str) -> Option<(usize, Vec<u8>)> {
    let words: Vec<&str> = answer.split(' ').collect();
    let (step, choices) = match operation {
        "replay" if words[0] == "ok" => (words[1].parse().ok()?, numbers(fields[4])),
        "trace" => (answer.rsplit_once(";broken at ")?.1.parse().ok()?, numbers(fields[4])),
        _ if words[1] == "violated" => (words[2].parse().ok()?, numbers(words[4])),
        _ => return None,
    };
    Some((step, choices))
}

fn holds_without_mark(design: &Design, property: &str, before: &State, after: &State) -> bool {
    let after = State { mark: 0, ..*after };
    match property {
        "2" => says(design.constraint.as_ref().unwrap(), before, &after),
        _ => holds(design, &after, property.parse().unwrap()) == Ok(true),
    }
}

/// The operators whose gates mark, in a list.
fn marking_operators(list: &[Statement], seen: &mut Seen) {
    for statement in list {
        match statement {
            Statement::AssignInteger(_, e) => operators_of_number(e, seen),
            Statement::AssignBoolean(_, e) => operators_of(e, seen),
            Statement::If(condition, then, other) => {
                operators_of(condition, seen);
                seen.insert("an if");
                marking_operators(then, seen);
                marking_operators(other, seen);
            }
        }
    }
}

fn operators_of(e: &Boolean, seen: &mut Seen) {
    match e {
        Boolean::Not(a) => operators_of(a, seen),
        Boolean::And(a, b) | Boolean::Or(a, b) => {
            operators_of(a, seen);
            operators_of(b, seen);
        }
        Boolean::Equal(a, b) | Boolean::Less(a, b) => {
            operators_of_number(a, seen);
            operators_of_number(b, seen);
        }
        _ => {}
    }
}

fn operators_of_number(e: &Integer, seen: &mut Seen) {
    let (name, operands) = match e {
        Integer::Sum(a, b) => ("a sum", vec![a, b]),
        Integer::Difference(a, b) => ("a difference", vec![a, b]),
        Integer::Product(_, a) => ("a product", vec![a]),
        _ => return,
    };
    seen.insert(name);
    operands.iter().for_each(|a| operators_of_number(a, seen));
}

/// Parts of frames that are written, of designs whose actions have these.
#[test]
fn formulas_have_marking_gates() {
    let mut generator = Generator::new(24, &["encode"]).unwrap();
    let mut counts = BTreeMap::new();
    for _ in 0..2_000 {
        let request = generator.request();
        let fields: Vec<&str> = request.split(' ').collect();
        let Ok(design) = check(&bytes(fields[1]).unwrap()) else { continue };
        let (bound, part): (u64, u64) = (fields[4].parse().unwrap(), fields[5].parse().unwrap());
        let in_a_frame = (1..=bound).contains(&part);
        if !in_a_frame || !reply(&mut Reference, &request).starts_with("ok ") {
            continue;
        }
        let mut seen = Seen::new();
        for cell in &design.cells {
            if let CellKind::Normal { action, .. } = &cell.kind {
                marking_operators(action, &mut seen);
            }
        }
        seen.into_iter().for_each(|name| *counts.entry(name).or_insert(0) += 1);
    }
    for name in ["a sum", "a difference", "a product", "an if"] {
        assert!(counts.get(name).is_some_and(|&count| count > 10), "{counts:?}");
    }
}
