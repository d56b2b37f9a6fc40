//! Requests for REFUTE: short clause lists with refutations that follow, that
//! nearly do, and that are no lists.

use super::lists::{clause, clause_list, far_count, formula_list, list_fault, literal};
use super::near::length_near;
use crate::protocol::list_text;
use crate::random::Random;
use crate::refute::{clauses, refute as refute_list, Refuted};

type Clause = Vec<i32>;

const MAX_VARIABLES: usize = 7;
/// A refutation that is made has at most so many clauses; the rest is left out.
const MAX_CLAUSES: usize = 40;
/// The same for a formula, where a clause takes longer to read.
const MAX_FORMULA_CLAUSES: usize = 8;
/// A list and its resolvents have at most so many clauses.
const MAX_RESOLVENTS: usize = 200;
/// The most values that are lent, for counts far beyond what a list uses.
const MAX_LENT: u64 = 10_000;

/// What a request asks.
struct Asked {
    n: usize,
    list: Vec<Clause>,
    refutation: Vec<Clause>,
}

pub fn refute(random: &mut Random) -> String {
    let mut asked = any_refutation(random);
    for _ in 0..random.pick(&[0, 0, 0, 1, 1, 1, 2, 3]) {
        change(random, &mut asked);
    }
    let Asked { n, list, refutation } = asked;
    let (mut words, mut refutation) = (joined(&list), joined(&refutation));
    damage(random, n, &mut words, &mut refutation);
    let n = match random.below(25) {
        0 => far_count(random),
        1 | 2 => (n + random.between(1, 3)) as u64,
        _ => n as u64,
    };
    let values = values_length(random, n);
    format!("refute {n} {} {} {values}", list_text(&words), list_text(&refutation))
}

/// Mostly enough.
fn values_length(random: &mut Random, n: u64) -> usize {
    let needed = n.min(MAX_LENT) as usize;
    if random.chance(75) {
        needed + random.below(3)
    } else {
        length_near(random, needed)
    }
}

fn joined(clauses: &[Clause]) -> Vec<i32> {
    clauses.iter().flat_map(|clause| clause.iter().copied().chain([0])).collect()
}

/// A list and what was found to refute it. Where the list has a satisfying
/// assignment, an empty clause that does not follow may stand at the end.
fn any_refutation(random: &mut Random) -> Asked {
    if random.chance(4) {
        let (n, words) = formula_list(random);
        let list: Vec<Clause> = clauses(&words).map(<[i32]>::to_vec).collect();
        let refutation = by_cases(random, n, &list, MAX_FORMULA_CLAUSES);
        return Asked { n, list, refutation };
    }
    let (n, mut list) = any_list(random);
    if random.chance(25) {
        repeat_literals(random, &mut list);
    }
    let mut refutation = match random.below(4) {
        0 | 1 => by_cases(random, n, &list, MAX_CLAUSES),
        2 => by_resolution(random, n, &list),
        _ => (0..random.below(3)).map(|_| clause(random, n, 3)).collect(),
    };
    let most = if refutation.is_empty() { 85 } else { 30 };
    if refutation.last().is_none_or(|last| !last.is_empty()) && random.chance(most) {
        refutation.push(vec![]);
    }
    Asked { n, list, refutation }
}

/// Mostly clauses of two or three literals, so that unit setting alone
/// decides nothing.
fn any_list(random: &mut Random) -> (usize, Vec<Clause>) {
    if random.chance(25) {
        let n = random.between(0, MAX_VARIABLES);
        let words = clause_list(random, n);
        return (n, clauses(&words).map(<[i32]>::to_vec).collect());
    }
    let n = random.between(2, MAX_VARIABLES);
    let count = random.between(2 * n, 6 * n);
    let list = (0..count).map(|_| {
        let width = random.pick(&[2, 2, 3]);
        (0..width).map(|_| literal(random, n)).collect()
    });
    (n, list.collect())
}

/// Many literals twice, so that few clauses are units.
fn repeat_literals(random: &mut Random, list: &mut [Clause]) {
    for clause in list.iter_mut().filter(|clause| !clause.is_empty()) {
        if random.chance(60) {
            clause.push(random.pick(clause));
        }
    }
}

/// Cases of variables in random order, down to what unit setting decides: the
/// clause that says a case is impossible comes after those of its two halves.
fn by_cases(random: &mut Random, n: usize, list: &[Clause], most: usize) -> Vec<Clause> {
    let mut order: Vec<i32> = (1..=n as i32).collect();
    for i in 1..n {
        order.swap(i, random.below(i + 1));
    }
    let mut proof = vec![];
    let mut cases = Cases { n, words: joined(list), order, most };
    cases.close(&mut vec![], &mut proof);
    proof
}

struct Cases {
    n: usize,
    /// The list and the clauses found so far.
    words: Vec<i32>,
    order: Vec<i32>,
    most: usize,
}

impl Cases {
    /// Adds the clause, after what it needs; false where that cannot be.
    fn close(&mut self, clause: &mut Clause, proof: &mut Vec<Clause>) -> bool {
        if !self.follows(clause) {
            let Some(&variable) = self.order.get(clause.len()) else {
                return false;
            };
            for literal in [variable, -variable] {
                clause.push(literal);
                let closed = self.close(clause, proof);
                clause.pop();
                if !closed {
                    return false;
                }
            }
        }
        self.words.extend(clause.iter().chain([&0]));
        proof.push(clause.clone());
        proof.len() < self.most
    }

    fn follows(&self, clause: &Clause) -> bool {
        let refutation = joined(std::slice::from_ref(clause));
        let mut values = vec![0; self.n];
        let refuted = refute_list(self.n as u64, &self.words, &refutation, &mut values);
        !matches!(refuted, Ok(Refuted::Word(_)) | Err(_))
    }
}

/// Resolvents on one variable after the other, until one is empty; of these
/// only what the last one came from, or a few of all.
fn by_resolution(random: &mut Random, n: usize, list: &[Clause]) -> Vec<Clause> {
    let mut found: Vec<Clause> = list.iter().map(|clause| as_set(clause)).collect();
    let mut parents = vec![None; found.len()];
    for variable in 1..=n as i32 {
        for i in 0..found.len() {
            for j in 0..found.len() {
                let Some(resolvent) = resolvent(&found[i], &found[j], variable) else {
                    continue;
                };
                if found.len() < MAX_RESOLVENTS && !found.contains(&resolvent) {
                    found.push(resolvent);
                    parents.push(Some((i, j)));
                }
            }
        }
    }
    let last = found.iter().position(|clause| clause.is_empty());
    let needed = match last {
        Some(last) => needed(&parents, last),
        None => (0..found.len()).map(|_| random.chance(20)).collect(),
    };
    let derived = (list.len()..found.len()).filter(|&i| needed[i]);
    derived.map(|i| found[i].clone()).take(MAX_CLAUSES).collect()
}

fn as_set(clause: &[i32]) -> Clause {
    let mut clause = clause.to_vec();
    clause.sort();
    clause.dedup();
    clause
}

/// `None` where the variable does not stand so, or the resolvent is true.
fn resolvent(positive: &Clause, negative: &Clause, variable: i32) -> Option<Clause> {
    if !positive.contains(&variable) || !negative.contains(&-variable) {
        return None;
    }
    let first = positive.iter().filter(|&&literal| literal != variable);
    let second = negative.iter().filter(|&&literal| literal != -variable);
    let both = as_set(&first.chain(second).copied().collect::<Clause>());
    (!both.iter().any(|literal| both.contains(&-literal))).then_some(both)
}

/// What a clause came from, and itself.
fn needed(parents: &[Option<(usize, usize)>], last: usize) -> Vec<bool> {
    let mut needed = vec![false; parents.len()];
    needed[last] = true;
    for i in (0..=last).rev() {
        if let (true, Some((a, b))) = (needed[i], parents[i]) {
            needed[a] = true;
            needed[b] = true;
        }
    }
    needed
}

/// A clause of a list that has one, or none.
fn any_of<'a>(random: &mut Random, clauses: &'a mut [Clause]) -> Option<&'a mut Clause> {
    let count = clauses.len();
    if count == 0 {
        return None;
    }
    clauses.get_mut(random.below(count))
}

/// Still lists of clauses, with another meaning or in another order.
fn change(random: &mut Random, asked: &mut Asked) {
    let Asked { n, list, refutation } = asked;
    match random.below(12) {
        0 | 1 => flip(random, refutation),
        2 => drop_any(random, refutation),
        3 => drop_any(random, list),
        4 | 5 => drop(refutation.pop()),
        6 => swap(random, refutation),
        7 => insert_odd(random, *n, refutation),
        8 if random.chance(50) => insert_odd(random, *n, list),
        8 | 9 => insert_any(random, *n, refutation),
        10 if random.chance(50) => repeat_literals(random, list),
        10 => repeat_literals(random, refutation),
        _ => append(random, *n, refutation),
    }
}

fn flip(random: &mut Random, refutation: &mut [Clause]) {
    let Some(clause) = any_of(random, refutation) else {
        return;
    };
    if let Some(at) = clause.len().checked_sub(1).map(|last| random.between(0, last)) {
        clause[at] = -clause[at];
    }
}

fn drop_any(random: &mut Random, clauses: &mut Vec<Clause>) {
    if !clauses.is_empty() {
        clauses.remove(random.below(clauses.len()));
    }
}

/// Two that stand beside each other, or any two: a clause may then follow only
/// from a later one.
fn swap(random: &mut Random, refutation: &mut [Clause]) {
    let count = refutation.len();
    if count > 1 {
        let at = random.below(count - 1);
        let other = if random.chance(60) { at + 1 } else { random.below(count) };
        refutation.swap(at, other);
    }
}

/// An empty clause, or one that holds a literal and its negation.
fn insert_odd(random: &mut Random, n: usize, clauses: &mut Vec<Clause>) {
    let at = random.between(0, clauses.len());
    if n == 0 || random.chance(30) {
        clauses.insert(at, vec![]);
        return;
    }
    let mut clause = clause(random, n, 3);
    let one = literal(random, n);
    for literal in [one, -one] {
        clause.insert(random.between(0, clause.len()), literal);
    }
    clauses.insert(at, clause);
}

/// Any clause, once or twice: the first follows from the second at most.
fn insert_any(random: &mut Random, n: usize, refutation: &mut Vec<Clause>) {
    let any = clause(random, n, 3);
    for _ in 0..random.between(1, 2) {
        refutation.insert(random.between(0, refutation.len()), any.clone());
    }
}

/// Clauses after the one that accepts.
fn append(random: &mut Random, n: usize, refutation: &mut Vec<Clause>) {
    for _ in 0..random.between(1, 3) {
        refutation.push(clause(random, n, 3));
    }
}

/// Words that are refused, in the list, the refutation or both.
fn damage(random: &mut Random, n: usize, words: &mut Vec<i32>, refutation: &mut Vec<i32>) {
    match random.below(40) {
        0 | 1 => list_fault(random, n, words),
        2..=4 => list_fault(random, n, refutation),
        5 => {
            list_fault(random, n, words);
            list_fault(random, n, refutation);
        }
        _ => {}
    }
}
