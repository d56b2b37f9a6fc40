//! The formula against the step rule: models and breaking lists match one to
//! one, and each part has the shape that document 01 gives.

mod support;

use reference::builder::file_bytes;
use reference::design::{Boolean, CellKind, Design, Integer, Kind, Matrix, Statement, Variable};
use reference::designs::{design_a, money_changer, Property, Version};
use reference::formula::{decode, size};
use reference::generator::trees::{chain_design, design, tiny_plan, Plan};
use reference::models::models;
use reference::query::{Query, CONSTRAINT};
use reference::random::Random;
use reference::verdict::Finding;
use std::collections::BTreeSet;
use std::io::Write;
use std::process::{Command, Stdio};
use support::*;

fn small_design(random: &mut Random) -> Design {
    if random.chance(50) {
        return chain_design(random);
    }
    let plan = tiny_plan(random);
    design(random, Plan { integer_percent: 30, ..plan })
}

fn decoded(design: &Design, property: u64, bound: u64, values: &[u8]) -> Vec<u8> {
    let mut choices = vec![0; bound as usize];
    decode(Query::new(design, property), bound, values, &mut choices).unwrap();
    choices
}

#[test]
fn models_of_random_designs_are_their_breaking_lists() {
    let mut random = Random::new(5);
    let mut broken = [0; 5];
    let mut by_constraint = 0;
    for _ in 0..600 {
        let design = through_file(&small_design(&mut random));
        let property = property_of(&mut random, &design);
        let bound = random.between(0, 4) as u64;
        let n = variables(&design, property, bound);
        let models = models(n, &formula_words(&design, property, bound));
        let lists = breaking_lists(&design, property, bound as usize);
        let found: BTreeSet<Vec<u8>> =
            models.iter().map(|m| decoded(&design, property, bound, m)).collect();
        assert_eq!((models.len(), found.len()), (lists.len(), lists.len()));
        assert_eq!(found, lists.into_iter().collect());
        broken[bound as usize] += !models.is_empty() as u32;
        by_constraint += (property == CONSTRAINT && !models.is_empty()) as u32;
    }
    assert!(broken.iter().all(|&count| count > 5) && by_constraint > 20, "{broken:?}");
}

#[test]
fn verdicts_of_random_designs_are_their_first_breaks() {
    let mut random = Random::new(6);
    for _ in 0..150 {
        let design = small_design(&mut random);
        let property = property_of(&mut random, &design);
        let bound = random.between(0, 3) as u64;
        let (verdict, choices) = verdict_of(&design, property, bound, u64::MAX);
        let first =
            (0..=bound).find(|&k| !breaking_lists(&design, property, k as usize).is_empty());
        match first {
            Some(k) => {
                assert_eq!(verdict.finding, Finding::Violated(k));
                assert!(breaks(&design, property, &choices[..k as usize]));
            }
            None => assert_eq!(verdict.finding, Finding::Clean),
        }
    }
}

/// One step from any state: the circuit's next state is that of STEP.
#[test]
fn arithmetic_at_both_ends() {
    let ends = [0, 1, -1, 2, 32_767, -32_768, 12_345];
    for a in ends {
        for b in ends {
            let design = arithmetic_design(a, b);
            let n = variables(&design, 0, 1);
            let models = models(n, &formula_words(&design, 0, 1));
            assert_eq!(models.len(), 1);
            let frame = size(Query::new(&design, 0), 1).unwrap();
            let next = (n as u64 - frame.state_bits - frame.property_gates) as usize;
            let word = |i: usize| {
                let bits = &models[0][next + 16 * i..next + 16 * i + 16];
                bits.iter().rev().fold(0u16, |word, &bit| word << 1 | bit as u16) as i16
            };
            assert_eq!([word(0), word(1)], [a.wrapping_add(b), a.wrapping_add(b).wrapping_sub(b)]);
            let less = models[0][next + 32] == 1;
            let equal = models[0][next + 33] == 1;
            assert_eq!((less, equal), (a < b, a == b));
            // Neither the comparison nor the equality marks. Where the sum wraps, the difference wraps back.
            let mark = models[0][next + 38] == 1;
            assert_eq!(mark, a.checked_add(b).is_none());
        }
    }
}

/// x = a, y = b, then at once: l = x < y, e = x == y, x = x + y, y = x - y.
fn arithmetic_design(a: i16, b: i16) -> Design {
    let integer = |initial| Variable { kind: Kind::Integer, initial };
    let boolean = Variable { kind: Kind::Boolean, initial: 0 };
    let x = || Integer::Variable(0);
    let y = || Integer::Variable(1);
    let action = vec![
        Statement::AssignBoolean(2, Boolean::Less(x(), y())),
        Statement::AssignBoolean(3, Boolean::Equal(x(), y())),
        Statement::AssignInteger(0, Integer::Sum(Box::new(x()), Box::new(y()))),
        Statement::AssignInteger(1, Integer::Difference(Box::new(x()), Box::new(y()))),
    ];
    let kind = CellKind::Normal { target: 0, guard: None, action };
    let cell = reference::design::Cell { matrix: 0, status: 0, event: 0, kind };
    Design {
        variables: vec![integer(a), integer(b), boolean, boolean],
        matrices: vec![Matrix { statuses: 1, events: vec![Boolean::Constant(true)] }],
        cells: vec![cell],
        invariant: Boolean::Constant(false),
        constraint: None,
    }
}

/// A status read inside an action is the old one, in both.
#[test]
fn status_in_an_action_is_the_old_one() {
    let mut design = design_a();
    let CellKind::Normal { action, .. } = &mut design.cells[0].kind else { panic!() };
    action.push(Statement::AssignInteger(1, Integer::Status(0)));
    design.invariant = Boolean::Equal(Integer::Variable(1), Integer::Constant(0));
    for bound in 0..=4 {
        let n = variables(&design, 0, bound);
        let models = models(n, &formula_words(&design, 0, bound));
        assert_eq!(models.len(), breaking_lists(&design, 0, bound as usize).len());
    }
    assert_eq!(first_break(&design, 0), Some(3));
}

#[test]
fn first_part_is_true_and_the_initial_state() {
    let mut design = design_a();
    design.variables[0].initial = 1;
    design.variables[1].initial = -2;
    let words = part_words(&design, 0, 1, 0);
    let mut expected = vec![1, 0, 2, 0, -3, 0];
    expected.extend((4..=18).flat_map(|v| [v, 0]));
    // The status and the mark.
    expected.extend((19..=23).flat_map(|v| [-v, 0]));
    assert_eq!(words, expected);
}

#[test]
fn last_part_negates_the_property_of_every_frame() {
    // The last gate of the property in frame j is the and with the mark's
    // negation, after the 80 gates of the less.
    let gate = |j: i32| 2 + 484 * j + 22 + 80;
    let words = part_words(&design_a(), 0, 3, 5);
    assert_eq!(words, [-gate(0), -gate(1), -gate(2), -gate(3), 0]);
    // The less is an or negated twice: the carry's gate, and so the and's first operand.
    let (g, mark) = (gate(0), 23);
    let words = part_words(&design_a(), 0, 0, 1);
    let expected = [-g, g - 1, 0, -g, -mark, 0, g, 1 - g, mark, 0];
    assert_eq!(words[words.len() - 10..], expected);
}

/// Without an invalid cell property 1 is true, and has the and with the mark.
#[test]
fn property_1_of_no_invalid_cell() {
    let gate = |j: i32| 2 + 404 * j + 22;
    assert_eq!(part_words(&design_a(), 1, 2, 4), [-gate(0), -gate(1), -gate(2), 0]);
    let (g, mark) = (gate(2), gate(2) - 1);
    let expected = [-g, 1, 0, -g, -mark, 0, g, -1, mark, 0];
    assert_eq!(part_words(&design_a(), 1, 2, 3), expected);
}

#[test]
fn frame_starts_with_property_flags_and_pairs() {
    let mut design = design_a();
    design.invariant =
        Boolean::And(Box::new(Boolean::Variable(0)), Box::new(Boolean::Constant(true)));
    let words = part_words(&design, 0, 1, 1);
    let flags = [26, 27, 28];
    let expected = [
        &[-24, 2, 0, -24, 1, 0, 24, -2, -1, 0][..],
        // The mark is the last state bit, 23.
        &[-25, 24, 0, -25, -23, 0, 25, -24, 23, 0],
        &[flags[0], flags[1], flags[2], 0],
        &[-26, -27, 0, -26, -28, 0, -27, -28, 0],
        // The first step gate: xor of the lowest status bit and false.
        &[-29, 19, -1, 0, -29, -19, 1, 0, 29, -19, -1, 0, 29, 19, 1, 0],
    ]
    .concat();
    assert_eq!(words[..expected.len()], expected);
    // The last tie: the last mover's result for the mark, 22 bits before the
    // next frame's mark, which its two property gates follow.
    let b = variables(&design, 0, 1) as i32 - 2;
    let r = b - 22;
    assert_eq!(words[words.len() - 8..], [-28, -r, b, 0, -28, r, -b, 0]);
}

/// An empty guard is the literal true, and an and with it is still a gate.
#[test]
fn nothing_is_folded() {
    let answer = size(Query::new(&design_a(), 1), 0).unwrap();
    assert_eq!(answer.property_gates, 1);
    let enable_and_action = 32 + 1 + 1 + 82 + 22;
    let guarded = 32 + 1 + 80 + 1 + 82 + 22;
    assert_eq!(answer.step_gates, enable_and_action + guarded + 22);
}

#[test]
fn every_if_has_a_mux_for_every_bit() {
    let mut design = design_a();
    let before = size(Query::new(&design, 0), 0).unwrap().step_gates;
    let CellKind::Normal { action, .. } = &mut design.cells[0].kind else { panic!() };
    action.push(Statement::If(Boolean::Variable(0), vec![], vec![]));
    assert_eq!(size(Query::new(&design, 0), 0).unwrap().step_gates, before + 22);
}

#[test]
fn property_1_has_34_gates_for_a_plain_invalid_cell() {
    let design = money_changer(Version::Original, Property::Uic1);
    // 32 for equal, 1 for the and, 1 for the chain, twice; and the mark's and.
    assert_eq!(size(Query::new(&design, 1), 0).unwrap().property_gates, 69);
}

/// A part is written without the rest: the largest designs need only it.
#[test]
fn large_design() {
    let mut design = design_a();
    let empty_if = Statement::If(Boolean::Constant(true), vec![], vec![]);
    let lists: Vec<Statement> = (0..12)
        .map(|_| Statement::If(Boolean::Constant(true), vec![empty_if.clone(); 255], vec![]))
        .collect();
    design.variables.extend(vec![Variable { kind: Kind::Integer, initial: 0 }; 30]);
    let CellKind::Normal { action, .. } = &mut design.cells[0].kind else { panic!() };
    *action = lists;
    assert!(file_bytes(&design).len() <= 16_384);
    let design = through_file(&design);
    let formula = formula_of(&design, 0, 100);
    assert!(formula.size().words > 1 << 31);
    assert!(formula.variables() < 1 << 31);
    let part = part_words(&design, 0, 100, 100);
    assert_eq!(part.iter().filter(|&&w| w == 0).count() as u64, formula.part_count(100).clauses);
    assert_eq!(part_words(&design, 0, 100, 102).len(), 102);
}

#[test]
fn clasp_counts_the_same_models() {
    for (bound, count) in [(2, 0), (3, 1), (4, 9), (5, 51)] {
        let n = variables(&design_a(), 0, bound);
        match clasp_models(n, &formula_words(&design_a(), 0, bound)) {
            Some(found) => assert_eq!(found, count),
            None => {
                println!("skipped: clasp is not installed");
                return;
            }
        }
    }
}

/// The number of models that clasp reports, or `None` where it is missing.
fn clasp_models(n: usize, words: &[i32]) -> Option<u64> {
    let clauses = words.iter().filter(|&&w| w == 0).count();
    let numbers: Vec<String> = words.iter().map(|w| w.to_string()).collect();
    let text = format!("p cnf {n} {clauses}\n{}\n", numbers.join(" ").replace(" 0 ", " 0\n"));
    let mut command = Command::new("clasp");
    command.args(["0", "--quiet"]).stdin(Stdio::piped()).stdout(Stdio::piped());
    let mut child = command.spawn().ok()?;
    child.stdin.take()?.write_all(text.as_bytes()).ok()?;
    let output = child.wait_with_output().ok()?;
    let text = String::from_utf8_lossy(&output.stdout).into_owned();
    let line = text.lines().find(|line| line.contains("Models"))?;
    line.split(':').nth(1)?.trim().parse().ok()
}
