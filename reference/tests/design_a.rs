//! The facts of document 01 about Design A.

mod support;

use reference::builder::file_bytes;
use reference::design::{check, CellKind, Design, Integer, Statement};
use reference::designs::design_a;
use reference::formula::{decode, size, Size};
use reference::models::{models, QuickSearch};
use reference::programs::replay_output;
use reference::query::Query;
use reference::search::Outcome;
use reference::step::{replay, start, step};
use reference::verdict::{Finding, Verdict};
use support::*;

#[test]
fn file_has_the_given_bytes() {
    let file = file_bytes(&design_a());
    assert_eq!(file.len(), 73);
    let trailer: Vec<u16> =
        file[57..].chunks(2).map(|b| u16::from_le_bytes([b[0], b[1]])).collect();
    assert_eq!(trailer, [1, 2, 6, 1, 8, 11, 2, 51]);
    assert_eq!(file[8..11], [2, 0x11, 0]);
    assert_eq!(file[51..57], [0x16, 0x02, 1, 0x01, 2, 0]);
    assert_eq!(check(&file), Ok(design_a()));
}

#[test]
fn sizes() {
    let answer = |bound| size(Query::new(&design_a(), 0), bound).unwrap();
    let common = |n, clauses, words| Size {
        state_bits: 22,
        property_gates: 81,
        movers: 3,
        step_gates: 378,
        variables: n,
        clauses,
        words,
    };
    assert_eq!(answer(0), common(104, 299, 1_050));
    assert_eq!(answer(3), common(1_556, 5_522, 20_550));
    let frame = 22 + 81 + 3 + 378;
    assert_eq!(frame, 484);
    assert_eq!(answer(100).variables, 1 + 100 * frame + 103);
}

#[test]
fn written_formula_has_the_counted_size() {
    for property in [0, 1] {
        for bound in 0..=5 {
            let size = size(Query::new(&design_a(), property), bound).unwrap();
            let words = formula_words(&design_a(), property, bound);
            assert_eq!(words.len() as u64, size.words);
            assert_eq!(words.iter().filter(|&&w| w == 0).count() as u64, size.clauses);
            let greatest = words.iter().map(|w| w.unsigned_abs() as u64).max().unwrap();
            assert!(greatest <= size.variables);
        }
    }
}

#[test]
fn lists_that_break() {
    assert_eq!(replay(Query::new(&design_a(), 0), &[2, 0, 1]), replayed(Some(3), 2, 2));
    assert_eq!(replay(Query::new(&design_a(), 0), &[0, 1, 2]), replayed(None, 1, 0));
    assert_eq!(breaking_lists(&design_a(), 0, 3), [[2, 0, 1]]);
}

#[test]
fn models_are_the_breaking_lists() {
    let design = design_a();
    for (bound, count) in [0, 0, 0, 1, 9, 51].into_iter().enumerate() {
        let bound = bound as u64;
        let n = variables(&design, 0, bound);
        let models = models(n, &formula_words(&design, 0, bound));
        let lists = breaking_lists(&design, 0, bound as usize);
        assert_eq!((models.len(), lists.len()), (count, count), "bound {bound}");
        let mut decoded = decoded_lists(&models, bound);
        decoded.sort();
        assert_eq!(decoded, lists);
    }
}

fn decoded_lists(models: &[Vec<u8>], bound: u64) -> Vec<Vec<u8>> {
    let decoded = |values: &Vec<u8>| {
        let mut choices = vec![255; bound as usize];
        decode(Query::new(&design_a(), 0), bound, values, &mut choices).unwrap();
        choices
    };
    models.iter().map(decoded).collect()
}

#[test]
fn each_list_has_one_assignment() {
    let design = design_a();
    for bound in 0..=3u64 {
        let n = variables(&design, 0, bound);
        let words = formula_words(&design, 0, bound);
        let last = part_words(&design, 0, bound, bound + 2).len();
        let without_last = &words[..words.len() - last];
        for list in all_lists(3, bound as usize) {
            let flag = |(j, c): (usize, &u8)| 2 + 484 * j as i32 + 103 + *c as i32;
            let flags: Vec<i32> = list.iter().enumerate().map(flag).collect();
            let values = QuickSearch::new(n, without_last).consequences(&flags).unwrap();
            assert!(satisfies(without_last, &values));
            assert_eq!(satisfies(&words, &values), breaks(&design, 0, &list));
        }
    }
}

#[test]
fn tries_of_each_bound() {
    let design = design_a();
    for (bound, tries) in [0, 4, 16, 17, 19, 21, 23].into_iter().enumerate() {
        let n = variables(&design, 0, bound as u64);
        let words = formula_words(&design, 0, bound as u64);
        let (answer, values) = solved(n, &words, u64::MAX);
        assert_eq!((answer.tries, is_sat(&answer)), (tries, bound >= 3));
        let mut quick = QuickSearch::new(n, &words);
        let model = quick.first_model();
        assert_eq!((quick.tries, model.is_some()), (tries, bound >= 3));
        if let Some(model) = model {
            assert_eq!(model, values);
        }
    }
}

#[test]
fn verdicts() {
    let design = design_a();
    let clean = |tries| Verdict { finding: Finding::Clean, tries };
    assert_eq!(verdict_of(&design, 0, 0, 0).0, clean(0));
    assert_eq!(verdict_of(&design, 0, 2, u64::MAX), (clean(20), vec![255; 2]));
    assert_eq!(verdict_of(&design, 0, 2, 20).0, clean(20));
    for bound in 3..=6 {
        let (verdict, choices) = verdict_of(&design, 0, bound, 37);
        assert_eq!(verdict, Verdict { finding: Finding::Violated(3), tries: 37 });
        assert_eq!(choices[..3], [2, 0, 1]);
        assert!(choices[3..].iter().all(|&c| c == 255));
    }
}

#[test]
fn verdict_is_spent_at_the_first_bound_beyond_the_budget() {
    let spent = |bound, tries| Verdict { finding: Finding::Spent(bound), tries };
    for (budget, bound) in [(0, 1), (3, 1), (4, 2), (19, 2), (20, 3), (36, 3)] {
        assert_eq!(verdict_of(&design_a(), 0, 5, budget).0, spent(bound, budget));
    }
}

#[test]
fn sums_and_differences_wrap() {
    let mut state = start(&design_a());
    state.values[..2].copy_from_slice(&[1, 32_767]);
    let after = step(&design_a(), &state, 0).unwrap();
    assert_eq!((after.state.values[1], after.idle), (-32_768, false));
    // -32768 is below 2: the order is the signed one.
    assert!(!step(&design_a(), &after.state, 1).unwrap().idle);
    let after = step(&subtracting(), &after.state, 1).unwrap();
    assert_eq!((after.state.values[1], after.idle), (-32_768, false));
}

/// Design A with c = 0 - c in its second cell.
fn subtracting() -> Design {
    let mut design = design_a();
    let CellKind::Normal { action, .. } = &mut design.cells[1].kind else { panic!() };
    let zero = Box::new(Integer::Constant(0));
    let difference = Integer::Difference(zero, Box::new(Integer::Variable(1)));
    *action = vec![Statement::AssignInteger(1, difference)];
    design
}

#[test]
fn solve_table() {
    let both = [1, 2, 0, -1, 2, 0, 1, -2, 0, -1, -2, 0];
    let row = |n, words: &[i32], budget| {
        let (answer, values) = solved(n, words, budget);
        (answer.outcome, answer.tries, values)
    };
    assert_eq!(row(0, &[], 0), (Outcome::Sat, 0, vec![]));
    assert_eq!(row(1, &[0], 0), (Outcome::Unsat, 0, vec![0]));
    assert_eq!(row(1, &[], 1), (Outcome::Sat, 1, vec![0]));
    assert_eq!(row(1, &[], 0), (Outcome::Spent, 0, vec![0]));
    assert_eq!(row(2, &both, 2), (Outcome::Unsat, 2, vec![0, 0]));
    assert_eq!(row(2, &both, 1), (Outcome::Spent, 1, vec![0, 0]));
}

#[test]
fn replay_program() {
    let mut input = vec![0, 3, 2, 0, 1];
    input.extend(file_bytes(&design_a()));
    let expected =
        "0 - 0 1 0 0 | 0\n1 2 0 1 1 0 | 0\n2 0 0 1 1 1 | 1\n3 1 0 0 1 2 | 0\nbroken at 3\n";
    assert_eq!(String::from_utf8(replay_output(&input)).unwrap(), expected);
}
