//! The search of document 01: SOLVE, a full scan of the list at every turn.

use crate::design::{refusal, Refusal};

pub const MAX_VARIABLE: u64 = (1 << 31) - 1;

#[derive(Clone, Copy, Debug, PartialEq, Eq)]
pub enum Outcome {
    Sat,
    Unsat,
    Spent,
}

#[derive(Clone, Copy, Debug, PartialEq, Eq)]
pub struct Solved {
    pub outcome: Outcome,
    pub tries: u64,
}

/// SOLVE: 17 for the list, 16 for the memory, then the search. It leaves the
/// first n values 0/1 on SAT, else 0, and n trail words 0.
pub fn solve(
    n: u64,
    words: &[i32],
    values: &mut [u8],
    trail: &mut [u32],
    budget: u64,
) -> Result<Solved, Refusal> {
    check_list(n, words)?;
    if (values.len() as u64) < n || (trail.len() as u64) < n {
        return Err(refusal(16, 0));
    }
    let n = n as usize;
    let mut search = Search::new(n, words, budget);
    let outcome = search.run();
    for (i, value) in values[..n].iter_mut().enumerate() {
        *value = (outcome == Outcome::Sat && search.truth_of(i + 1) == Truth::True) as u8;
    }
    trail[..n].fill(0);
    Ok(Solved { outcome, tries: search.tries })
}

/// 17: a list of clauses over n variables, each closed by a 0.
pub fn check_list(n: u64, words: &[i32]) -> Result<(), Refusal> {
    if n > MAX_VARIABLE {
        return Err(refusal(17, 0));
    }
    if let Some(i) = words.iter().position(|&w| w.unsigned_abs() as u64 > n) {
        return Err(refusal(17, i));
    }
    match words.last() {
        None | Some(0) => Ok(()),
        Some(_) => Err(refusal(17, words.len())),
    }
}

#[derive(Clone, Copy, PartialEq, Eq)]
enum Truth {
    Unset,
    True,
    False,
}

/// What one scan of the list finds.
enum Scan {
    Conflict,
    Unit(i32),
    Quiet,
}

struct Branch {
    variable: usize,
    trail_length: usize,
    first_value: bool,
}

struct Search {
    /// The truth of each literal, from -n at index 0 to n at index 2n.
    truths: Vec<Truth>,
    /// Literals as indexes into `truths`.
    literals: Vec<u32>,
    /// Where each clause ends in `literals`.
    ends: Vec<u32>,
    trail: Vec<usize>,
    branches: Vec<Branch>,
    n: usize,
    tries: u64,
    budget: u64,
}

impl Search {
    fn new(n: usize, words: &[i32], budget: u64) -> Search {
        let mut literals = Vec::with_capacity(words.len());
        let mut ends = Vec::new();
        for &word in words {
            match word {
                0 => ends.push(literals.len() as u32),
                _ => literals.push((word as i64 + n as i64) as u32),
            }
        }
        let truths = vec![Truth::Unset; 2 * n + 1];
        Search { truths, literals, ends, trail: vec![], branches: vec![], n, tries: 0, budget }
    }

    fn truth_of(&self, variable: usize) -> Truth {
        self.truths[self.n + variable]
    }

    fn run(&mut self) -> Outcome {
        loop {
            let ended = match self.scan() {
                Scan::Conflict => self.take_back(),
                Scan::Unit(literal) => {
                    self.set(literal);
                    None
                }
                Scan::Quiet => self.branch(),
            };
            if let Some(outcome) = ended {
                return outcome;
            }
        }
    }

    /// Looks for a false clause, and for the first unit clause on the way.
    fn scan(&self) -> Scan {
        let mut unit = None;
        let mut start = 0;
        'clauses: for &end in &self.ends {
            let clause = &self.literals[start..end as usize];
            start = end as usize;
            let mut unset = 0;
            let mut last = 0;
            for &literal in clause {
                match self.truths[literal as usize] {
                    Truth::True => continue 'clauses,
                    Truth::False => {}
                    Truth::Unset => {
                        unset += 1;
                        last = literal;
                    }
                }
            }
            if unset == 0 {
                return Scan::Conflict;
            }
            if unset == 1 && unit.is_none() {
                unit = Some(last);
            }
        }
        match unit {
            Some(literal) => Scan::Unit((literal as i64 - self.n as i64) as i32),
            None => Scan::Quiet,
        }
    }

    fn set(&mut self, literal: i32) {
        let at = (literal as i64 + self.n as i64) as usize;
        self.truths[at] = Truth::True;
        self.truths[2 * self.n - at] = Truth::False;
        self.trail.push(literal.unsigned_abs() as usize);
    }

    fn undo_to(&mut self, trail_length: usize) {
        for variable in self.trail.split_off(trail_length) {
            self.truths[self.n + variable] = Truth::Unset;
            self.truths[self.n - variable] = Truth::Unset;
        }
    }

    /// Counts a try, or says that the budget has none left.
    fn spend(&mut self) -> Option<Outcome> {
        if self.tries == self.budget {
            return Some(Outcome::Spent);
        }
        self.tries += 1;
        None
    }

    /// The latest branch still at its first value takes true.
    fn take_back(&mut self) -> Option<Outcome> {
        loop {
            let Some(branch) = self.branches.pop() else {
                return Some(Outcome::Unsat);
            };
            self.undo_to(branch.trail_length);
            if branch.first_value {
                let spent = self.spend();
                self.branches.push(Branch { first_value: false, ..branch });
                self.set(branch.variable as i32);
                return spent;
            }
        }
    }

    /// The lowest unset variable takes false; with none left the list is SAT.
    fn branch(&mut self) -> Option<Outcome> {
        let unset = (1..=self.n).find(|&v| self.truth_of(v) == Truth::Unset);
        let Some(variable) = unset else {
            return Some(Outcome::Sat);
        };
        let spent = self.spend();
        let trail_length = self.trail.len();
        self.branches.push(Branch { variable, trail_length, first_value: true });
        self.set(-(variable as i32));
        spent
    }
}
