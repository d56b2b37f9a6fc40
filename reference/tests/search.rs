//! SOLVE against other ways to the same answer.

mod support;

use reference::models::{models, QuickSearch};
use reference::random::Random;
use reference::search::{Outcome, Solved};
use support::*;

fn random_list(random: &mut Random, n: usize) -> Vec<i32> {
    let mut words = vec![];
    for _ in 0..random.between(0, 5 * n) {
        let fewest = if random.chance(3) { 0 } else { 1 };
        for _ in 0..random.between(fewest, 4) {
            let variable = random.between(1, n) as i32;
            words.push(if random.chance(50) { variable } else { -variable });
        }
        words.push(0);
    }
    words
}

/// Few variables and up to four literals give repeated literals and
/// tautologies often.
#[test]
fn random_lists() {
    let mut random = Random::new(3);
    for round in 0..6_000 {
        let n = random.between(1, if round % 3 == 0 { 4 } else { 11 });
        let words = random_list(&mut random, n);
        let (answer, values) = solved(n, &words, u64::MAX);
        let table = models_by_table(n, &words);
        assert_eq!(is_sat(&answer), !table.is_empty());
        let mut quick = QuickSearch::new(n, &words);
        let model = quick.first_model();
        assert_eq!(answer.tries, quick.tries, "{words:?}");
        assert!(answer.tries <= (1 << (n + 1)) - 2);
        assert_eq!(model.unwrap_or(vec![0; n]), values);
        assert!(table.is_empty() || satisfies(&words, &values));
        assert_eq!(models(n, &words).len(), table.len());
    }
}

#[test]
fn budgets() {
    let mut random = Random::new(4);
    for _ in 0..500 {
        let n = random.between(1, 8);
        let words = random_list(&mut random, n);
        let (full, values) = solved(n, &words, u64::MAX);
        assert_eq!(solved(n, &words, full.tries), (full, values));
        for budget in 0..full.tries {
            let spent = Solved { outcome: Outcome::Spent, tries: budget };
            assert_eq!(solved(n, &words, budget), (spent, vec![0; n]));
        }
    }
}

/// "One unset position" counts positions and not literals.
#[test]
fn repeated_literals() {
    assert_eq!(solved(1, &[1, 1, 0], u64::MAX).0, Solved { outcome: Outcome::Sat, tries: 2 });
    assert_eq!(solved(1, &[1, 0], u64::MAX).0, Solved { outcome: Outcome::Sat, tries: 0 });
    let words = [-1, 0, 1, 1, 2, 0];
    assert_eq!(solved(2, &words, 0), (Solved { outcome: Outcome::Sat, tries: 0 }, vec![0, 1]));
    // A tautology is never a unit clause.
    assert_eq!(solved(1, &[1, -1, 0], u64::MAX).0, Solved { outcome: Outcome::Sat, tries: 1 });
}

/// Equation 2.2.1 of source 004.
#[test]
fn source_004() {
    let words = [-1, 2, 0, -2, -3, 0, 1, -2, 3, 0, 1, -3, 0];
    let (answer, values) = solved(3, &words, u64::MAX);
    assert_eq!(answer, Solved { outcome: Outcome::Sat, tries: 1 });
    assert_eq!(values, [0, 0, 0]);
    assert_eq!(models_by_table(3, &words).len(), 2);
    assert_eq!(models(3, &words).len(), 2);
}

#[test]
fn most_tries() {
    for n in 1..=6i32 {
        // The one excluded assignment is never reached by a unit clause: every
        // literal stands twice, so each variable is branched on both ways.
        let words: Vec<i32> = (0..1 << n)
            .flat_map(|row: i32| {
                let literal = move |v: i32| if row >> (v - 1) & 1 == 1 { -v } else { v };
                (1..=n).flat_map(move |v| [literal(v), literal(v)]).chain([0])
            })
            .collect();
        let answer = solved(n as usize, &words, u64::MAX).0;
        assert_eq!(answer, Solved { outcome: Outcome::Unsat, tries: (1 << (n + 1)) - 2 });
    }
}
