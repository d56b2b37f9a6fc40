//! VERDICT of document 01: bounds in order with one budget, to the first SAT.

use crate::design::{refusal, Design, Refusal};
use crate::formula::{self, Formula};
use crate::query::Query;
use crate::search::{solve, Outcome, Solved};

#[derive(Clone, Copy, Debug, PartialEq, Eq)]
pub enum Finding {
    /// The step that breaks the property.
    Violated(u64),
    Clean,
    /// The bound that needed a try beyond the budget.
    Spent(u64),
}

#[derive(Clone, Copy, Debug, PartialEq, Eq)]
pub struct Verdict {
    pub finding: Finding,
    pub tries: u64,
}

/// The memory lent to VERDICT.
pub struct Lent<'a> {
    pub clauses: &'a mut [i32],
    pub values: &'a mut [u8],
    pub trail: &'a mut [u32],
    pub choices: &'a mut [u8],
}

/// VERDICT: 13, 8, 14, 19 for its own bound, 16, then the bounds from 0.
pub fn verdict(
    query: Query<Design>,
    bound: u64,
    budget: u64,
    mut lent: Lent,
) -> Result<Verdict, Refusal> {
    check_memory(&Formula::new(query, bound)?, &lent, bound)?;
    let mut tries = 0;
    for k in 0..=bound {
        let formula = Formula::new(query, k)?;
        let solved = solve_bound(&formula, budget - tries, &mut lent)?;
        tries += solved.tries;
        match solved.outcome {
            Outcome::Unsat => {}
            Outcome::Spent => return Ok(Verdict { finding: Finding::Spent(k), tries }),
            Outcome::Sat => {
                formula::decode(query, k, lent.values, lent.choices)?;
                return Ok(Verdict { finding: Finding::Violated(k), tries });
            }
        }
    }
    Ok(Verdict { finding: Finding::Clean, tries })
}

fn check_memory(formula: &Formula, lent: &Lent, bound: u64) -> Result<(), Refusal> {
    let size = formula.size();
    let short = (lent.clauses.len() as u64) < size.words
        || (lent.values.len() as u64) < size.variables
        || (lent.trail.len() as u64) < size.variables
        || (lent.choices.len() as u64) < bound;
    if short {
        Err(refusal(16, 0))
    } else {
        Ok(())
    }
}

fn solve_bound(formula: &Formula, budget: u64, lent: &mut Lent) -> Result<Solved, Refusal> {
    let mut at = 0;
    for part in 0..=formula.last_part() {
        at += formula.write_part(part, &mut lent.clauses[at..]) as usize;
    }
    solve(formula.variables(), &lent.clauses[..at], lent.values, lent.trail, budget)
}
