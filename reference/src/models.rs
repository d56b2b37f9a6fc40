//! The models of a clause list, by a search of its own: it shares no code with `search`.

/// A search with the branch rule of document 01, but with unit clauses found
/// through lists of occurrences. Their order cannot change the answer.
pub struct QuickSearch {
    n: usize,
    clauses: Vec<Vec<i32>>,
    occurrences: Vec<Vec<u32>>,
    /// 1 true, -1 false, 0 unset, by variable.
    truths: Vec<i8>,
    trail: Vec<i32>,
    branches: Vec<(usize, usize, bool)>,
    pub tries: u64,
}

impl QuickSearch {
    pub fn new(n: usize, words: &[i32]) -> QuickSearch {
        let mut clauses: Vec<Vec<i32>> = words.split(|&w| w == 0).map(<[i32]>::to_vec).collect();
        clauses.pop();
        let mut occurrences = vec![vec![]; 2 * n + 1];
        for (i, clause) in clauses.iter().enumerate() {
            for &literal in clause {
                occurrences[(literal + n as i32) as usize].push(i as u32);
            }
        }
        let (truths, trail, branches) = (vec![0; n + 1], vec![], vec![]);
        QuickSearch { n, clauses, occurrences, truths, trail, branches, tries: 0 }
    }

    fn truth(&self, literal: i32) -> i8 {
        self.truths[literal.unsigned_abs() as usize] * literal.signum() as i8
    }

    fn set(&mut self, literal: i32) {
        self.truths[literal.unsigned_abs() as usize] = literal.signum() as i8;
        self.trail.push(literal);
    }

    /// False where the clause has every literal false.
    fn look_at(&mut self, clause: usize) -> bool {
        let mut unset = vec![];
        for &literal in &self.clauses[clause] {
            match self.truth(literal) {
                1 => return true,
                0 => unset.push(literal),
                _ => {}
            }
        }
        if unset.len() == 1 {
            self.set(unset[0]);
        }
        !unset.is_empty()
    }

    /// Sets what follows from the trail from `from` on; false on a conflict.
    fn propagate(&mut self, from: usize) -> bool {
        let mut at = from;
        while at < self.trail.len() {
            let falsified = self.n as i32 - self.trail[at];
            for i in 0..self.occurrences[falsified as usize].len() {
                let clause = self.occurrences[falsified as usize][i] as usize;
                if !self.look_at(clause) {
                    return false;
                }
            }
            at += 1;
        }
        true
    }

    fn begin(&mut self) -> bool {
        (0..self.clauses.len()).all(|i| self.look_at(i)) && self.propagate(0)
    }

    /// Takes the latest first value back; false where there is none.
    fn take_back(&mut self) -> bool {
        while let Some((variable, length, first)) = self.branches.pop() {
            for literal in self.trail.split_off(length) {
                self.truths[literal.unsigned_abs() as usize] = 0;
            }
            if first {
                self.tries += 1;
                self.branches.push((variable, length, false));
                self.set(variable as i32);
                if self.propagate(length) {
                    return true;
                }
            }
        }
        false
    }

    /// Goes on to the next model after a state without conflict.
    fn descend(&mut self) -> bool {
        while let Some(variable) = (1..=self.n).find(|&v| self.truths[v] == 0) {
            self.tries += 1;
            let length = self.trail.len();
            self.branches.push((variable, length, true));
            self.set(-(variable as i32));
            if !self.propagate(length) && !self.take_back() {
                return false;
            }
        }
        true
    }

    fn values(&self) -> Vec<u8> {
        self.truths[1..].iter().map(|&t| (t == 1) as u8).collect()
    }

    pub fn first_model(&mut self) -> Option<Vec<u8>> {
        (self.begin() && self.descend()).then(|| self.values())
    }

    /// Every satisfying assignment.
    pub fn models(mut self) -> Vec<Vec<u8>> {
        let mut models = vec![];
        let mut found = self.begin() && self.descend();
        while found {
            models.push(self.values());
            found = self.take_back() && self.descend();
        }
        models
    }

    /// Every value that follows from these literals, without a branch.
    pub fn consequences(mut self, literals: &[i32]) -> Option<Vec<u8>> {
        if !self.begin() {
            return None;
        }
        let from = self.trail.len();
        for &literal in literals {
            match self.truth(literal) {
                0 => self.set(literal),
                1 => {}
                _ => return None,
            }
        }
        let complete = self.propagate(from) && self.trail.len() == self.n;
        complete.then(|| self.values())
    }
}

pub fn models(n: usize, words: &[i32]) -> Vec<Vec<u8>> {
    QuickSearch::new(n, words).models()
}
