//! SOLVE of the proved archive and of the second implementation on the formulas of Design A: answer, tries and lent memory.

use proved::Proved;
use reference::designs::design_a;
use reference::formula::Formula;
use reference::operations::{Answer, Operations, Reference};
use reference::query::Query;
use reference::search::{Outcome, Solved};

struct Solving {
    answer: Answer<Solved>,
    values: Vec<u8>,
    trail: Vec<u32>,
}

fn solve(operations: &mut impl Operations, n: u64, words: &[i32], budget: u64) -> Solving {
    let mut values = vec![7; n as usize + 3];
    let mut trail = vec![9; n as usize + 2];
    let answer = operations.solve(n, words, &mut values, &mut trail, budget);
    Solving { answer, values, trail }
}

fn formula(bound: u64) -> (u64, Vec<i32>) {
    let design = design_a();
    let formula = Formula::new(Query::new(&design, 0), bound).unwrap();
    let mut words = vec![0; formula.size().words as usize];
    let mut at = 0;
    for part in 0..=formula.last_part() {
        at += formula.write_part(part, &mut words[at..]) as usize;
    }
    (formula.variables(), words)
}

#[test]
fn solve_agrees_on_design_a() {
    for (bound, tries) in [(0, 0), (1, 4), (2, 16), (3, 17), (4, 19)] {
        let (n, words) = formula(bound);
        let whole = solve(&mut Proved, n, &words, u64::MAX);
        let outcome = if bound < 3 { Outcome::Unsat } else { Outcome::Sat };
        assert_eq!(whole.answer, Answer::Done(Solved { outcome, tries }));
        for budget in [0, tries.saturating_sub(1), tries, tries + 1] {
            let proved = solve(&mut Proved, n, &words, budget);
            let reference = solve(&mut Reference, n, &words, budget);
            assert_eq!(proved.answer, reference.answer, "bound {bound}, budget {budget}");
            assert_eq!(proved.values, reference.values, "bound {bound}, budget {budget}");
            assert_eq!(proved.trail, reference.trail, "bound {bound}, budget {budget}");
        }
    }
}
