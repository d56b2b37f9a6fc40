//! The operations of documents 01 and 02 as one trait over lent memory, so that
//! one line protocol can serve more than one set of operations.

use crate::design::{self, Refusal};
use crate::formula::{self, Size};
use crate::owners::{self, Owner, Shared, Told};
use crate::programs;
use crate::query::Query;
use crate::refute::{self, Refuted};
use crate::search::{self, Solved};
use crate::step::{self, Replayed, State, Stepped};
use crate::verdict::{self, Lent, Verdict};

/// What a call answers.
#[derive(Clone, Debug, PartialEq, Eq)]
pub enum Answer<T> {
    Done(T),
    Refused(Refusal),
    /// This operation does not exist in this set.
    Missing,
}

impl<T> From<Result<T, Refusal>> for Answer<T> {
    fn from(result: Result<T, Refusal>) -> Answer<T> {
        match result {
            Ok(value) => Answer::Done(value),
            Err(refusal) => Answer::Refused(refusal),
        }
    }
}

/// One method for each operation; a set that lacks one keeps its default.
/// Mutable slices are lent memory: afterwards they hold what the call left.
#[allow(unused_variables)]
pub trait Operations {
    fn check(&mut self, design: &[u8]) -> Answer<()> {
        Answer::Missing
    }

    fn start(&mut self, design: &[u8]) -> Answer<State> {
        Answer::Missing
    }

    fn step(&mut self, design: &[u8], state: &State, choice: u64) -> Answer<Stepped> {
        Answer::Missing
    }

    fn holds(&mut self, design: &[u8], state: &State, property: u64) -> Answer<bool> {
        Answer::Missing
    }

    fn replay(&mut self, query: Query<[u8]>, choices: &[u8]) -> Answer<Replayed> {
        Answer::Missing
    }

    fn size(&mut self, query: Query<[u8]>, bound: u64) -> Answer<Size> {
        Answer::Missing
    }

    /// The number of words written.
    fn encode(
        &mut self,
        query: Query<[u8]>,
        bound: u64,
        part: u64,
        clauses: &mut [i32],
    ) -> Answer<u64> {
        Answer::Missing
    }

    fn solve(
        &mut self,
        n: u64,
        words: &[i32],
        values: &mut [u8],
        trail: &mut [u32],
        budget: u64,
    ) -> Answer<Solved> {
        Answer::Missing
    }

    /// The list, then the refutation.
    fn refute(
        &mut self,
        n: u64,
        words: &[i32],
        refutation: &[i32],
        values: &mut [u8],
    ) -> Answer<Refuted> {
        Answer::Missing
    }

    /// Writes `bound` choices.
    fn decode(
        &mut self,
        query: Query<[u8]>,
        bound: u64,
        values: &[u8],
        choices: &mut [u8],
    ) -> Answer<()> {
        Answer::Missing
    }

    fn verdict(
        &mut self,
        query: Query<[u8]>,
        bound: u64,
        budget: u64,
        lent: Lent,
    ) -> Answer<Verdict> {
        Answer::Missing
    }

    /// What each owner's VERDICT alone answers, in the owners' order.
    fn owners(
        &mut self,
        design: &[u8],
        bound: u64,
        owners: &mut [Owner],
        shared: Shared,
    ) -> Answer<Vec<Told>> {
        Answer::Missing
    }

    /// What the Replay program prints for this property, these choices and
    /// this design, with the piece's expression where the query reads one. Its
    /// refusals are printed, too. The property is a byte, and so is the number
    /// of choices.
    fn trace(&mut self, query: Query<[u8]>, choices: &[u8]) -> Answer<Vec<u8>> {
        Answer::Missing
    }
}

/// The operations of this package.
pub struct Reference;

impl Operations for Reference {
    fn check(&mut self, design: &[u8]) -> Answer<()> {
        design::check(design).map(|_| ()).into()
    }

    fn start(&mut self, design: &[u8]) -> Answer<State> {
        design::check(design).map(|d| step::start(&d)).into()
    }

    fn step(&mut self, design: &[u8], state: &State, choice: u64) -> Answer<Stepped> {
        design::check(design).and_then(|d| step::step(&d, state, choice)).into()
    }

    fn holds(&mut self, design: &[u8], state: &State, property: u64) -> Answer<bool> {
        design::check(design).and_then(|d| step::holds(&d, state, property)).into()
    }

    fn replay(&mut self, query: Query<[u8]>, choices: &[u8]) -> Answer<Replayed> {
        query.checked(|q| step::replay(q, choices)).into()
    }

    fn size(&mut self, query: Query<[u8]>, bound: u64) -> Answer<Size> {
        query.checked(|q| formula::size(q, bound)).into()
    }

    fn encode(
        &mut self,
        query: Query<[u8]>,
        bound: u64,
        part: u64,
        clauses: &mut [i32],
    ) -> Answer<u64> {
        query.checked(|q| formula::encode(q, bound, part, clauses)).into()
    }

    fn solve(
        &mut self,
        n: u64,
        words: &[i32],
        values: &mut [u8],
        trail: &mut [u32],
        budget: u64,
    ) -> Answer<Solved> {
        search::solve(n, words, values, trail, budget).into()
    }

    fn refute(
        &mut self,
        n: u64,
        words: &[i32],
        refutation: &[i32],
        values: &mut [u8],
    ) -> Answer<Refuted> {
        refute::refute(n, words, refutation, values).into()
    }

    fn decode(
        &mut self,
        query: Query<[u8]>,
        bound: u64,
        values: &[u8],
        choices: &mut [u8],
    ) -> Answer<()> {
        query.checked(|q| formula::decode(q, bound, values, choices)).into()
    }

    fn verdict(
        &mut self,
        query: Query<[u8]>,
        bound: u64,
        budget: u64,
        lent: Lent,
    ) -> Answer<Verdict> {
        query.checked(|q| verdict::verdict(q, bound, budget, lent)).into()
    }

    fn owners(
        &mut self,
        design: &[u8],
        bound: u64,
        owners: &mut [Owner],
        shared: Shared,
    ) -> Answer<Vec<Told>> {
        design::check(design).and_then(|d| owners::owners(&d, bound, owners, shared)).into()
    }

    fn trace(&mut self, query: Query<[u8]>, choices: &[u8]) -> Answer<Vec<u8>> {
        Answer::Done(programs::trace(query, choices))
    }
}
