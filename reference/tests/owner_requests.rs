//! What the generated requests must have among them about several owners: each
//! wrong implementation below is told by some of them, so a comparison would
//! show it.

use reference::design::{check, refusal, Refusal};
use reference::formula::{size, Size};
use reference::generator::Generator;
use reference::operations::{Answer, Operations, Reference};
use reference::owners::{Owner, Shared, Told, MAX_OWNERS};
use reference::protocol::reply;
use reference::query::{Query, INVARIANT, NO_INVALID_CELL};
use reference::verdict::{verdict, Finding, Lent, Verdict};

type Answered = Result<Vec<Told>, Refusal>;

/// What a wrong implementation of the call is given.
struct Call<'a> {
    file: &'a [u8],
    bound: u64,
    owners: &'a mut [Owner<'a>],
    shared: Shared<'a>,
}

impl Call<'_> {
    /// CHECK's refusal, then 20.
    fn check(&self) -> Result<(), Refusal> {
        check(self.file)?;
        match self.owners.len() {
            1..=MAX_OWNERS => Ok(()),
            _ => Err(refusal(20, 0)),
        }
    }

    /// VERDICT on the shared memory itself.
    fn solve(&mut self, i: usize, property: u64, budget: u64) -> Told {
        let Owner { piece, choices, .. } = &mut self.owners[i];
        let Shared { clauses, values, trail } = &mut self.shared;
        let lent = Lent { clauses, values, trail, choices };
        let query = Query::new(self.file, property).with_piece(piece);
        query.checked(|query| verdict(query, self.bound, budget, lent))
    }

    fn each(&mut self) -> Vec<Told> {
        let owners = 0..self.owners.len();
        owners.map(|i| self.solve(i, INVARIANT, self.owners[i].budget)).collect()
    }

    /// The formula that an owner tried last.
    fn last(&self, i: usize, told: &Told) -> Option<Size> {
        let last = match told.as_ref().ok()?.finding {
            Finding::Clean => self.bound,
            Finding::Violated(at) | Finding::Spent(at) => at,
        };
        self.size(i, last)
    }

    fn size(&self, i: usize, bound: u64) -> Option<Size> {
        let query = Query::new(self.file, INVARIANT).with_piece(self.owners[i].piece);
        query.checked(|query| size(query, bound)).ok()
    }

    fn lasts(&self, told: &[Told]) -> Vec<Size> {
        told.iter().enumerate().filter_map(|(i, told)| self.last(i, told)).collect()
    }

    /// The front of the memory, for the longest of these formulas.
    fn clear(&mut self, sizes: &[Size]) {
        let words = sizes.iter().map(|size| size.words as usize).max().unwrap_or(0);
        let n = sizes.iter().map(|size| size.variables as usize).max().unwrap_or(0);
        front(self.shared.clauses, words).fill(0);
        front(self.shared.values, n).fill(0);
        front(self.shared.trail, n).fill(0);
    }

    /// The rest of the right implementation, where the answers are known.
    fn end(&mut self, told: Vec<Told>) -> Answered {
        let lasts = self.lasts(&told);
        self.clear(&lasts);
        Ok(told)
    }

    fn right(&mut self) -> Answered {
        let told = self.each();
        self.end(told)
    }
}

fn front<T>(memory: &mut [T], count: usize) -> &mut [T] {
    let count = count.min(memory.len());
    &mut memory[..count]
}

/// What a wrong implementation answers where CHECK and 20 do not refuse.
type Wrong = fn(&mut Call) -> Answered;

/// One budget for all: each has what the earlier ones have left of it.
fn one_budget(call: &mut Call) -> Answered {
    let mut left = call.owners[0].budget;
    let mut told = vec![];
    for i in 0..call.owners.len() {
        let answer = call.solve(i, INVARIANT, left);
        left -= answer.map_or(0, |verdict| verdict.tries);
        told.push(answer);
    }
    call.end(told)
}

/// Each has its own budget less the tries of all before it.
fn tries_of_all(call: &mut Call) -> Answered {
    let (mut tries, mut told) = (0, vec![]);
    for i in 0..call.owners.len() {
        let left = call.owners[i].budget.saturating_sub(tries);
        let answer = call.solve(i, INVARIANT, left);
        tries += answer.map_or(0, |verdict| verdict.tries);
        told.push(answer);
    }
    call.end(told)
}

/// The tries that an owner is told are those of the owners before it, too.
fn summed_tries(call: &mut Call) -> Answered {
    let (mut tries, mut told) = (0, call.each());
    for verdict in told.iter_mut().flatten() {
        tries += verdict.tries;
        verdict.tries = tries;
    }
    call.end(told)
}

fn one_refuses_all(call: &mut Call) -> Answered {
    let told = call.each();
    match told.iter().find_map(|told| told.err()) {
        Some(refusal) => Err(refusal),
        None => call.end(told),
    }
}

/// All are refused who come after one that is.
fn refusal_ends(call: &mut Call) -> Answered {
    let mut told = vec![];
    for i in 0..call.owners.len() {
        let before = told.iter().find_map(|told: &Told| told.err());
        let answer = match before {
            Some(refusal) => Err(refusal),
            None => call.solve(i, INVARIANT, call.owners[i].budget),
        };
        told.push(answer);
    }
    call.end(told)
}

/// An owner's words stand behind those of the owners before it.
fn parted_memory(call: &mut Call) -> Answered {
    let (mut used, mut told) = (0, vec![]);
    for i in 0..call.owners.len() {
        let needed = call.size(i, call.bound).map_or(0, |size| size.words);
        let short = needed > 0 && used + needed > call.shared.clauses.len() as u64;
        let answer = match call.solve(i, INVARIANT, call.owners[i].budget) {
            Ok(_) if short => Err(refusal(16, 0)),
            other => other,
        };
        used += call.last(i, &answer).map_or(0, |size| size.words);
        told.push(answer);
    }
    call.end(told)
}

/// What is lent must suffice for the longest formula of all.
fn long_enough_for_all(call: &mut Call) -> Answered {
    let needed: Vec<Size> =
        (0..call.owners.len()).filter_map(|i| call.size(i, call.bound)).collect();
    let Shared { clauses, values, trail } = &call.shared;
    let lent = (clauses.len(), values.len().min(trail.len()));
    let fits = |size: &Size| size.words as usize <= lent.0 && size.variables as usize <= lent.1;
    let mut told = call.each();
    if !needed.iter().all(fits) {
        told.iter_mut().filter(|told| told.is_ok()).for_each(|told| *told = Err(refusal(16, 0)));
    }
    call.end(told)
}

/// A later owner's clauses are joined to those that an earlier one left, so
/// what could not be satisfied stays so.
fn joined_clauses(call: &mut Call) -> Answered {
    let mut told = call.each();
    let clean = |told: &Told| matches!(told, Ok(Verdict { finding: Finding::Clean, .. }));
    if let Some(first) = told.iter().position(clean) {
        for verdict in told[first + 1..].iter_mut().flatten() {
            *verdict = Verdict { finding: Finding::Clean, tries: 0 };
        }
    }
    call.end(told)
}

/// A later owner finds the choices of an earlier one in its buffer.
fn earlier_choices(call: &mut Call) -> Answered {
    let told = call.each();
    for i in 1..told.len() {
        let (before, after) = call.owners.split_at_mut(i);
        let written = told[i].map_or(0, |verdict| match verdict.finding {
            Finding::Violated(step) => step as usize,
            _ => 0,
        });
        let (from, to) = (&before[i - 1].choices, &mut after[0].choices);
        let end = from.len().min(to.len());
        if written < end {
            to[written..end].copy_from_slice(&from[written..end]);
        }
    }
    call.end(told)
}

/// A later owner is solved from the step on at which an earlier one broke.
fn from_the_last_break(call: &mut Call) -> Answered {
    let mut told = call.each();
    let mut from = 0;
    for told in told.iter_mut().flatten() {
        if let Finding::Violated(step) = &mut told.finding {
            *step = (*step).max(from);
            from = *step;
        }
    }
    call.end(told)
}

/// An owner without a piece has that of the owner before it.
fn earlier_piece(call: &mut Call) -> Answered {
    for i in 1..call.owners.len() {
        if call.owners[i].piece.is_empty() {
            call.owners[i].piece = call.owners[i - 1].piece;
        }
    }
    call.right()
}

/// A part of the memory keeps what the owners left there.
fn cleared(call: &mut Call, clauses: bool, values: bool) -> Answered {
    let told = call.each();
    let kept = (call.shared.clauses.to_vec(), call.shared.values.to_vec());
    let told = call.end(told);
    if !clauses {
        call.shared.clauses.copy_from_slice(&kept.0);
    }
    if !values {
        call.shared.values.copy_from_slice(&kept.1);
    }
    told
}

/// What some owners used is zero, and no word more.
fn cleared_for(call: &mut Call, some: fn(&[Size]) -> Vec<Size>) -> Answered {
    let told = call.each();
    let lasts = some(&call.lasts(&told));
    call.clear(&lasts);
    Ok(told)
}

/// What the whole formula for the bound needs is zero, of the owners that are
/// not refused or of all.
fn cleared_to_the_bound(call: &mut Call, refused: bool) -> Answered {
    let told = call.each();
    let counted = |i: &usize| refused || told[*i].is_ok();
    let sizes: Vec<Size> = (0..told.len())
        .filter(counted)
        .filter_map(|i| if told[i].is_ok() { call.size(i, call.bound) } else { call.size(i, 0) })
        .collect();
    let lasts = call.lasts(&told);
    call.clear(&[sizes, lasts].concat());
    Ok(told)
}

fn all_cleared(call: &mut Call) -> Answered {
    let told = call.right();
    call.shared.clauses.fill(0);
    call.shared.values.fill(0);
    call.shared.trail.fill(0);
    told
}

/// One word, value and trail word more.
fn one_more(call: &mut Call) -> Answered {
    let told = call.each();
    let longer = |size: Size| Size { words: size.words + 1, variables: size.variables + 1, ..size };
    let lasts: Vec<Size> = call.lasts(&told).into_iter().map(longer).collect();
    call.clear(&lasts);
    Ok(told)
}

const WRONG: [(&str, Wrong); 24] = [
    ("one budget for all", one_budget),
    ("the tries of all count", tries_of_all),
    ("tries are summed", summed_tries),
    ("an owner's refusal refuses all", one_refuses_all),
    ("an owner's refusal refuses those after it", refusal_ends),
    ("the memory is parted among owners", parted_memory),
    ("memory must suffice for all owners", long_enough_for_all),
    ("clauses are joined to those of an earlier owner", joined_clauses),
    ("choices of an earlier owner are found", earlier_choices),
    ("an earlier owner's break is where a later one starts", from_the_last_break),
    ("the piece of an earlier owner is read", earlier_piece),
    ("nothing is cleared", |call| cleared(call, false, false)),
    ("clauses are not cleared", |call| cleared(call, false, true)),
    ("values are not cleared", |call| cleared(call, true, false)),
    ("cleared for the first owner alone", |call| {
        cleared_for(call, |s| s[..s.len().min(1)].to_vec())
    }),
    ("cleared for the last owner alone", |call| {
        cleared_for(call, |s| s[s.len().saturating_sub(1)..].to_vec())
    }),
    ("values cleared as for the formula with the most words", |call| {
        cleared_for(call, |s| s.iter().max_by_key(|size| size.words).copied().into_iter().collect())
    }),
    ("cleared to the formula of the bound", |call| cleared_to_the_bound(call, false)),
    ("cleared for refused owners, too", |call| cleared_to_the_bound(call, true)),
    ("all is cleared", all_cleared),
    ("one word more is cleared", one_more),
    ("the last owner first", |call| {
        call.owners.reverse();
        call.right()
    }),
    ("property 1 is asked", |call| {
        let owners = 0..call.owners.len();
        let told = owners.map(|i| call.solve(i, NO_INVALID_CELL, call.owners[i].budget)).collect();
        call.end(told)
    }),
    ("only the first owner is asked", |call| {
        let first = call.solve(0, INVARIANT, call.owners[0].budget);
        call.end(vec![first; call.owners.len()])
    }),
];

/// A set of operations with a wrong call of several owners.
struct With(Wrong);

impl Operations for With {
    fn owners(
        &mut self,
        design: &[u8],
        bound: u64,
        owners: &mut [Owner],
        shared: Shared,
    ) -> Answer<Vec<Told>> {
        let mut lent: Vec<Owner> = owners
            .iter_mut()
            .map(|o| Owner { piece: o.piece, budget: o.budget, choices: &mut *o.choices })
            .collect();
        let mut call = Call { file: design, bound, owners: &mut lent, shared };
        call.check().and_then(|()| (self.0)(&mut call)).into()
    }
}

/// The reply of the right implementation but for the order of the refusals of
/// the whole call.
fn wrong_order(request: &str, right: &str) -> Vec<(&'static str, bool)> {
    let counted = |count: usize| {
        let fields: Vec<&str> = request.split(' ').collect();
        let owners = vec!["-:0:0"; count];
        reply(&mut Reference, &[&fields[..6], &owners].concat().join(" "))
    };
    let number = |reply: &str| reply.split(" at ").next().unwrap_or("").to_string();
    let owners = request.split(' ').count() - 6;
    let bad_design = right.starts_with("refused ") && !right.starts_with("refused 20 ");
    let wrong_count = owners == 0 || owners > MAX_OWNERS;
    vec![
        ("20 before CHECK", wrong_count && bad_design),
        ("CHECK's refusal is each owner's own", bad_design && !wrong_count),
        ("no owner is taken", owners == 0 && number(&counted(1)) != number(right)),
        ("five owners are taken", owners == 5 && number(&counted(4)) != number(right)),
        ("eight owners are taken", owners == 8 && number(&counted(4)) != number(right)),
        ("four owners are refused", owners == 4 && right.starts_with("ok")),
        ("a bound over 100 refuses all", right.contains("| refused 14 at 0")),
    ]
}

/// At most so many requests, of which so many must tell each wrong
/// implementation.
const REQUESTS: usize = 1_500;
const TOLD: usize = 3;

#[test]
fn the_right_implementation_is_told_by_none() {
    let mut generator = Generator::new(70, &["owners"]).unwrap();
    let mut told = vec![];
    for _ in 0..60 {
        let request = generator.request();
        let right = reply(&mut Reference, &request);
        assert_eq!(reply(&mut With(|call| call.right()), &request), right, "{request}");
        told.push(right);
    }
    assert!(told.iter().any(|reply| reply.starts_with("ok")));
}

#[test]
fn generated_requests_tell_wrong_implementations() {
    let mut generator = Generator::new(71, &["owners"]).unwrap();
    let mut told = [0; WRONG.len()];
    for _ in 0..REQUESTS {
        let request = generator.request();
        let right = reply(&mut Reference, &request);
        for (told, (_, wrong)) in told.iter_mut().zip(WRONG).filter(|(told, _)| **told < TOLD) {
            *told += (reply(&mut With(wrong), &request) != right) as usize;
        }
        if told.iter().all(|&count| count == TOLD) {
            break;
        }
    }
    for ((name, _), count) in WRONG.iter().zip(told) {
        assert_eq!(count, TOLD, "{name}");
    }
}

#[test]
fn generated_requests_tell_another_order_of_the_refusals() {
    let mut generator = Generator::new(72, &["owners"]).unwrap();
    let mut told: Vec<(&str, usize)> = vec![];
    for _ in 0..300 {
        let request = generator.request();
        let right = reply(&mut Reference, &request);
        let found = wrong_order(&request, &right);
        told.resize(found.len(), ("", 0));
        for (told, (name, differs)) in told.iter_mut().zip(found) {
            *told = (name, told.1 + differs as usize);
        }
    }
    assert!(!told.is_empty() && told.iter().all(|(_, count)| *count >= TOLD), "{told:?}");
}
