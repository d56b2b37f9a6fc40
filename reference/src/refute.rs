//! REFUTE of R-7: a refutation that another solver wrote, read clause by
//! clause. Unit setting looks at every clause by turns; the scan goes on where
//! it found a unit, and ends where a whole turn finds nothing.

use crate::design::{refusal, Refusal};
use crate::search::check_list;

#[derive(Clone, Copy, Debug, PartialEq, Eq)]
pub enum Refuted {
    Accepted,
    /// The refutation's word where the first clause that does not follow begins.
    Word(u64),
    /// Every clause follows, and none of them is empty.
    Ended,
}

/// REFUTE: 17 for the list, 17 for the refutation, whose places count on from
/// the list's length, 16 for the memory. The first n values are 0 afterwards.
pub fn refute(
    n: u64,
    words: &[i32],
    refutation: &[i32],
    values: &mut [u8],
) -> Result<Refuted, Refusal> {
    check_list(n, words)?;
    check_list(n, refutation)
        .map_err(|bad| Refusal { place: words.len() as u64 + bad.place, ..bad })?;
    if (values.len() as u64) < n {
        return Err(refusal(16, 0));
    }
    let refuted = Reader::new(n as usize, words).read(refutation);
    values[..n as usize].fill(0);
    Ok(refuted)
}

#[derive(Clone, Copy, PartialEq, Eq)]
enum Truth {
    Unset,
    True,
    False,
}

/// What a look at one clause finds.
enum Look {
    AllFalse,
    /// No literal is true and one position unset: this literal's.
    Unit(usize),
    Nothing,
}

/// A literal is told by its index into `truths`.
struct Reader {
    n: usize,
    /// The truth of each literal, from -n at index 0 to n at index 2n.
    truths: Vec<Truth>,
    /// The literals of the list's clauses and of the refutation's so far.
    literals: Vec<u32>,
    /// Where each of these clauses ends in `literals`.
    ends: Vec<usize>,
    /// What is true, in the order of setting.
    trail: Vec<usize>,
}

impl Reader {
    fn new(n: usize, words: &[i32]) -> Reader {
        let truths = vec![Truth::Unset; 2 * n + 1];
        let mut reader = Reader { n, truths, literals: vec![], ends: vec![], trail: vec![] };
        clauses(words).for_each(|clause| reader.add(clause));
        reader
    }

    fn read(&mut self, refutation: &[i32]) -> Refuted {
        let mut begin = 0;
        for clause in clauses(refutation) {
            if !self.follows(clause) {
                return Refuted::Word(begin);
            }
            if clause.is_empty() {
                return Refuted::Accepted;
            }
            self.add(clause);
            begin += clause.len() as u64 + 1;
        }
        Refuted::Ended
    }

    fn index(&self, literal: i32) -> usize {
        (literal as i64 + self.n as i64) as usize
    }

    fn add(&mut self, clause: &[i32]) {
        for &literal in clause {
            self.literals.push(self.index(literal) as u32);
        }
        self.ends.push(self.literals.len());
    }

    /// By the clauses so far; afterwards every variable is unset again.
    fn follows(&mut self, clause: &[i32]) -> bool {
        let follows = !self.set_false(clause) || self.reaches_all_false();
        for literal in std::mem::take(&mut self.trail) {
            self.truths[literal] = Truth::Unset;
            self.truths[2 * self.n - literal] = Truth::Unset;
        }
        follows
    }

    /// Sets every literal of the clause false; false where it holds the
    /// negation of one, too.
    fn set_false(&mut self, clause: &[i32]) -> bool {
        for &literal in clause {
            let at = self.index(literal);
            match self.truths[at] {
                Truth::Unset => self.set_true(2 * self.n - at),
                Truth::True => return false,
                Truth::False => {}
            }
        }
        true
    }

    fn set_true(&mut self, literal: usize) {
        self.truths[literal] = Truth::True;
        self.truths[2 * self.n - literal] = Truth::False;
        self.trail.push(literal);
    }

    /// Sets units until a clause is all false, or a whole turn finds none.
    fn reaches_all_false(&mut self) -> bool {
        let mut at = 0;
        let mut looked = 0;
        while looked < self.ends.len() {
            looked += 1;
            match self.look_at(at) {
                Look::AllFalse => return true,
                Look::Unit(literal) => {
                    self.set_true(literal);
                    looked = 0;
                }
                Look::Nothing => {}
            }
            at = if at + 1 == self.ends.len() { 0 } else { at + 1 };
        }
        false
    }

    fn look_at(&self, clause: usize) -> Look {
        let start = if clause == 0 { 0 } else { self.ends[clause - 1] };
        let (mut unset, mut last) = (0, 0);
        for &literal in &self.literals[start..self.ends[clause]] {
            match self.truths[literal as usize] {
                Truth::True => return Look::Nothing,
                Truth::False => {}
                Truth::Unset => {
                    unset += 1;
                    last = literal as usize;
                }
            }
        }
        match unset {
            0 => Look::AllFalse,
            1 => Look::Unit(last),
            _ => Look::Nothing,
        }
    }
}

/// The clauses of a list that is well formed, without the 0 that closes each.
pub fn clauses(words: &[i32]) -> impl Iterator<Item = &[i32]> {
    words.split_inclusive(|&word| word == 0).map(|clause| &clause[..clause.len() - 1])
}
