//! R-6 of document 02: several owners check their pieces of one design in one
//! call.

use crate::design::{refusal, Design, Refusal};
use crate::formula::Formula;
use crate::query::{Query, INVARIANT};
use crate::verdict::{verdict, Finding, Lent, Verdict};

/// The most owners of a call.
pub const MAX_OWNERS: usize = 4;

/// What one owner lends.
pub struct Owner<'a> {
    pub piece: &'a [u8],
    pub budget: u64,
    pub choices: &'a mut [u8],
}

/// What one owner asks, with choices of its own to lend.
#[derive(Clone, Debug, PartialEq, Eq)]
pub struct Ask {
    pub piece: Vec<u8>,
    pub budget: u64,
    pub choices: Vec<u8>,
}

impl Ask {
    /// With so many choices, all 7.
    pub fn new(piece: &[u8], budget: u64, choices: usize) -> Ask {
        Ask { piece: piece.to_vec(), budget, choices: vec![7; choices] }
    }

    pub fn owner(&mut self) -> Owner<'_> {
        Owner { piece: &self.piece, budget: self.budget, choices: &mut self.choices }
    }
}

/// The memory that is lent to all owners together.
pub struct Shared<'a> {
    pub clauses: &'a mut [i32],
    pub values: &'a mut [u8],
    pub trail: &'a mut [u32],
}

/// What VERDICT, called alone, answers one owner.
pub type Told = Result<Verdict, Refusal>;

/// How much of the shared memory a formula fills.
#[derive(Default)]
struct Used {
    words: usize,
    variables: usize,
}

/// 20, then each owner's VERDICT on property 0, refusals included. In the end
/// the words, values and trail words that any owner used are zero.
pub fn owners(
    design: &Design,
    bound: u64,
    owners: &mut [Owner],
    shared: Shared,
) -> Result<Vec<Told>, Refusal> {
    if owners.is_empty() || owners.len() > MAX_OWNERS {
        return Err(refusal(20, 0));
    }
    let mut answers = vec![];
    let mut used = Used::default();
    for owner in owners {
        let query = Query::new(design, INVARIANT).with_piece(owner.piece);
        let told = alone(query, bound, owner, &shared);
        if let Ok(verdict) = told {
            used = longer(used, used_by(query, bound, &verdict)?);
        }
        answers.push(told);
    }
    shared.clauses[..used.words].fill(0);
    shared.values[..used.variables].fill(0);
    shared.trail[..used.variables].fill(0);
    Ok(answers)
}

/// VERDICT on copies of the shared memory, so that no owner meets what another
/// one left there.
fn alone(query: Query<Design>, bound: u64, owner: &mut Owner, shared: &Shared) -> Told {
    let lent = Lent {
        clauses: &mut shared.clauses.to_vec(),
        values: &mut shared.values.to_vec(),
        trail: &mut shared.trail.to_vec(),
        choices: owner.choices,
    };
    verdict(query, bound, owner.budget, lent)
}

/// The last formula that VERDICT tried is its longest.
fn used_by(query: Query<Design>, bound: u64, verdict: &Verdict) -> Result<Used, Refusal> {
    let last = match verdict.finding {
        Finding::Clean => bound,
        Finding::Violated(step) => step,
        Finding::Spent(at) => at,
    };
    let size = Formula::new(query, last)?.size();
    Ok(Used { words: size.words as usize, variables: size.variables as usize })
}

fn longer(a: Used, b: Used) -> Used {
    Used { words: a.words.max(b.words), variables: a.variables.max(b.variables) }
}
