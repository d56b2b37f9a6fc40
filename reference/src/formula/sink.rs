//! Where the clauses of a part go.

/// Takes the clauses of a part one at a time, without their closing 0.
pub trait Sink {
    fn clause(&mut self, literals: &[i32]);
}

/// A sink for gates of which only the result is wanted.
pub struct Unseen;

impl Sink for Unseen {
    fn clause(&mut self, _: &[i32]) {}
}

/// Numbers of clauses and words; words include each clause's closing 0.
#[derive(Clone, Copy, Debug, PartialEq, Eq)]
pub struct Count {
    pub clauses: u64,
    pub words: u64,
}

impl Count {
    pub fn plus(self, other: Count) -> Count {
        Count { clauses: self.clauses + other.clauses, words: self.words + other.words }
    }

    pub fn times(self, k: u64) -> Count {
        Count { clauses: self.clauses * k, words: self.words * k }
    }
}

/// A sink that writes into lent words, which are known to suffice.
pub struct Writer<'a> {
    pub words: &'a mut [i32],
    pub at: usize,
}

impl Sink for Writer<'_> {
    fn clause(&mut self, literals: &[i32]) {
        let end = self.at + literals.len();
        self.words[self.at..end].copy_from_slice(literals);
        self.words[end] = 0;
        self.at = end + 1;
    }
}
