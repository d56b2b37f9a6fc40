//! Requests for SOLVE: short clause lists, good and bad ones.

use super::near::{budget_near, formula_of, length_near, property_of};
use super::trees::chain_design;
use crate::protocol::list_text;
use crate::query::Query;
use crate::random::Random;
use crate::search::{solve as solve_list, Outcome};

const MAX_VARIABLES: usize = 12;

/// The tries of a request's search are at most these, but for lists of few variables.
const MAX_TRIES: u64 = 100;

pub fn solve(random: &mut Random) -> String {
    let (count, mut words) = any_list(random);
    let exact = exact_tries(count, &words);
    if random.chance(20) {
        list_fault(random, count, &mut words);
    }
    let n = if random.chance(4) { far_count(random) } else { count as u64 };
    let budget = match exact {
        Some(tries) => budget_near(random, tries),
        None => random.below(MAX_TRIES as usize) as u64,
    };
    let (values, trail) = (length_near(random, count), length_near(random, count));
    format!("solve {n} {} {values} {trail} {budget}", list_text(&words))
}

/// The number of variables and the words of a short list, or of a small formula.
fn any_list(random: &mut Random) -> (usize, Vec<i32>) {
    if random.chance(5) {
        return formula_list(random);
    }
    let n = random.between(0, MAX_VARIABLES);
    (n, clause_list(random, n))
}

pub fn formula_list(random: &mut Random) -> (usize, Vec<i32>) {
    let design = chain_design(random);
    let query = Query::new(&design, property_of(random, &design));
    let formula = formula_of(query, random.between(0, 2) as u64);
    let mut words = vec![0; formula.size().words as usize];
    let mut at = 0;
    for part in 0..=formula.last_part() {
        at += formula.write_part(part, &mut words[at..]) as usize;
    }
    (formula.variables() as usize, words)
}

/// Some lists have so few clauses that they are SAT, some so many that not.
pub fn clause_list(random: &mut Random, n: usize) -> Vec<i32> {
    let clauses = random.between(0, 1 + 5 * n);
    let width = random.between(1, 4);
    let mut words = Vec::new();
    for _ in 0..clauses {
        words.extend(clause(random, n, width));
        words.push(0);
    }
    words
}

pub fn clause(random: &mut Random, n: usize, width: usize) -> Vec<i32> {
    if n == 0 || random.chance(1) {
        return vec![];
    }
    let mut clause: Vec<i32> =
        (0..random.between(1, width + 1)).map(|_| literal(random, n)).collect();
    if random.chance(10) {
        let again = random.pick(&clause);
        clause.push(if random.chance(50) { again } else { -again });
    }
    clause
}

pub fn literal(random: &mut Random, n: usize) -> i32 {
    let variable = random.between(1, n) as i32;
    if random.chance(50) {
        variable
    } else {
        -variable
    }
}

/// The tries with no budget set, where they are few.
fn exact_tries(n: usize, words: &[i32]) -> Option<u64> {
    let (mut values, mut trail) = (vec![0; n], vec![0; n]);
    let budget = if n > MAX_VARIABLES { MAX_TRIES } else { u64::MAX };
    let solved = solve_list(n as u64, words, &mut values, &mut trail, budget).ok()?;
    (solved.outcome != Outcome::Spent).then_some(solved.tries)
}

pub fn list_fault(random: &mut Random, n: usize, words: &mut Vec<i32>) {
    let beyond = n as i32 + 1;
    for _ in 0..random.between(1, 2) {
        let bad = random.pick(&[beyond, -beyond, i32::MAX, i32::MIN, -i32::MAX]);
        match random.below(3) {
            0 => {
                words.pop();
            }
            1 => words.push(bad),
            _ => {
                let at = random.between(0, words.len());
                words.insert(at, bad);
            }
        }
    }
}

/// A variable count at or beyond the end of the permitted ones.
pub fn far_count(random: &mut Random) -> u64 {
    random.pick(&[(1 << 31) - 1, 1 << 31, 1 << 32, u64::MAX, 13])
}
