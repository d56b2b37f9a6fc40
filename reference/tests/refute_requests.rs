//! What the generated requests must have among them for REFUTE: each wrong
//! implementation below is told by some of them, so a comparison would show it.

use reference::design::{refusal, Refusal};
use reference::generator::Generator;
use reference::operations::{Answer, Operations, Reference};
use reference::protocol::reply;
use reference::refute::{clauses, Refuted};
use reference::search::{check_list, MAX_VARIABLE};
use std::collections::BTreeSet;
use Fault::*;

/// Declares the faults and the list of all of them.
macro_rules! faults {
    ($($fault:ident,)*) => {
        /// The one point in which an implementation is wrong.
        #[derive(Clone, Copy, Debug, PartialEq, Eq)]
        enum Fault {
            Right,
            $($fault,)*
        }

        const WRONG: &[Fault] = &[$($fault),*];
    };
}

faults! {
    // Which clauses a clause may use.
    UsesItself,
    UsesItselfAndLater,
    UsesNoEarlierOne,
    UsesOnlyTheOneBefore,
    UsesNotTheFirst,
    UsesTheListOnlyAtFirst,
    UsesNotTheLastOfTheList,
    // Unit setting.
    UnitsByLiterals,
    UnitsBesideTrue,
    OnePass,
    RefutationGivesNoUnits,
    EmptyClauseOfTheListIgnored,
    TautologyOfTheListIsUnit,
    SettingsStay,
    LentValuesCount,
    OnlyTheFirstLiteralSet,
    // What follows.
    TautologyDoesNotFollow,
    TautologyOnlySideBySide,
    RepeatedFollows,
    // Where reading ends.
    AcceptsAtTheEnd,
    AcceptsNoWords,
    AcceptsByTheListAlone,
    AcceptsAnyEmptyClause,
    AcceptsOnlyAtTheLastClause,
    SkipsWhatDoesNotFollow,
    KeepsWhatDoesNotFollow,
    TellsTheLastOne,
    // The word.
    WordFromTheListsStart,
    WordIsTheClause,
    WordOfTheNextClause,
    WordIsAnEnd,
    // The values.
    SetAfterWord,
    SetAfterEnded,
    SetAfterAccepted,
    ValuesUntouched,
    AllValuesCleared,
    OneMoreCleared,
    OneFewerCleared,
    ClearedThoughRefused,
    // The refusals.
    SixteenFirst,
    SixteenBeforeTheRefutation,
    RefutationBeforeTheList,
    PlacesFromTheRefutation,
    PlacesPastTheList,
    TestedToTheAcceptingClause,
    TestedToTheAnswer,
    MissingZeroTaken,
    MissingZeroAtTheLastWord,
    LeastWordTaken,
    OneBeyondTaken,
    OneValueMoreNeeded,
    FarCountIsSixteen,
    MostVariablesRefused,
    RefutationUntested,
}

/// A plain implementation of its own, with one fault.
struct Plain<'a> {
    fault: Fault,
    list: Vec<&'a [i32]>,
    refutation: Vec<&'a [i32]>,
    /// 1 true, -1 false, 0 unset, by variable.
    truths: Vec<i8>,
}

impl<'a> Plain<'a> {
    fn new(fault: Fault, words: &'a [i32], refutation: &'a [i32], values: &[u8]) -> Plain<'a> {
        let mut list: Vec<&[i32]> = clauses(words).collect();
        match fault {
            EmptyClauseOfTheListIgnored => list.retain(|clause| !clause.is_empty()),
            UsesNotTheLastOfTheList => drop(list.pop()),
            _ => {}
        }
        let as_truth = |value: &u8| if value % 2 == 1 { 1 } else { -1 };
        let truths = match fault {
            LentValuesCount => values.iter().map(as_truth).collect(),
            _ => vec![0; values.len()],
        };
        Plain { fault, list, refutation: clauses(refutation).collect(), truths }
    }

    fn truth(&self, literal: i32) -> i8 {
        self.truths[literal.unsigned_abs() as usize - 1] * literal.signum() as i8
    }

    fn set(&mut self, literal: i32) {
        self.truths[literal.unsigned_abs() as usize - 1] = literal.signum() as i8;
    }

    /// The clauses that clause i of the refutation may use.
    fn used(&self, i: usize) -> Vec<&'a [i32]> {
        let earlier = match self.fault {
            UsesItself => &self.refutation[..=i],
            UsesItselfAndLater => &self.refutation[..],
            UsesNoEarlierOne => &[],
            UsesOnlyTheOneBefore => &self.refutation[i.saturating_sub(1)..i],
            UsesNotTheFirst => &self.refutation[i.min(1)..i],
            _ => &self.refutation[..i],
        };
        match self.fault {
            UsesTheListOnlyAtFirst if i > 0 => earlier.to_vec(),
            _ => [&self.list[..], earlier].concat(),
        }
    }

    fn follows(&mut self, i: usize) -> bool {
        let kept = match self.fault {
            SettingsStay => true,
            LentValuesCount => i == 0,
            _ => false,
        };
        if !kept {
            self.truths.fill(0);
        }
        let clause = self.refutation[i];
        if self.is_tautology(clause) {
            return true;
        }
        let set = if self.fault == OnlyTheFirstLiteralSet { 1 } else { clause.len() };
        clause.iter().take(set).for_each(|literal| self.set(-literal));
        let used = self.used(i);
        loop {
            if self.any_false(&used) {
                return true;
            }
            if !self.set_units(&used) {
                return false;
            }
            if self.fault == OnePass {
                return self.any_false(&used);
            }
        }
    }

    fn is_tautology(&self, clause: &[i32]) -> bool {
        match self.fault {
            TautologyDoesNotFollow => false,
            TautologyOnlySideBySide => clause.windows(2).any(|pair| pair[0] == -pair[1]),
            RepeatedFollows if repeats(clause) => true,
            _ => clause.iter().any(|literal| clause.contains(&-literal)),
        }
    }

    fn any_false(&self, used: &[&[i32]]) -> bool {
        used.iter().any(|clause| clause.iter().all(|&literal| self.truth(literal) == -1))
    }

    /// Sets every unit that is met on the way; false where there is none.
    fn set_units(&mut self, used: &[&[i32]]) -> bool {
        let mut any = false;
        for (at, clause) in used.iter().enumerate() {
            if self.fault == RefutationGivesNoUnits && at >= self.list.len() {
                break;
            }
            if let Some(literal) = self.unit(clause) {
                self.set(literal);
                any = true;
            }
        }
        any
    }

    fn unit(&self, clause: &[i32]) -> Option<i32> {
        if self.fault != UnitsBesideTrue && clause.iter().any(|&literal| self.truth(literal) == 1) {
            return None;
        }
        let mut unset: Vec<i32> =
            clause.iter().copied().filter(|&literal| self.truth(literal) == 0).collect();
        match self.fault {
            UnitsByLiterals => unset.dedup(),
            TautologyOfTheListIsUnit => unset.dedup_by_key(|literal| literal.abs()),
            _ => {}
        }
        (unset.len() == 1).then(|| unset[0])
    }

    fn read(&mut self) -> Refuted {
        let (mut begin, mut told) = (0, None);
        let mut i = 0;
        while i < self.refutation.len() {
            let clause = self.refutation[i];
            let empty = clause.is_empty();
            if empty && self.fault == AcceptsAnyEmptyClause {
                return Refuted::Accepted;
            }
            if !self.follows(i) {
                match self.fault {
                    KeepsWhatDoesNotFollow if !empty => {}
                    SkipsWhatDoesNotFollow if !empty => {
                        self.refutation.remove(i);
                        continue;
                    }
                    TellsTheLastOne => told = Some(begin),
                    _ => return Refuted::Word(self.word(i, begin)),
                }
            } else if empty && self.accepts(i) {
                return told.map_or(Refuted::Accepted, Refuted::Word);
            }
            begin += clause.len() as u64 + 1;
            i += 1;
        }
        told.map_or(Refuted::Ended, Refuted::Word)
    }

    fn accepts(&self, i: usize) -> bool {
        self.fault != AcceptsOnlyAtTheLastClause || i + 1 == self.refutation.len()
    }

    fn word(&self, i: usize, begin: u64) -> u64 {
        let list: usize = self.list.iter().map(|clause| clause.len() + 1).sum();
        match self.fault {
            WordFromTheListsStart => list as u64 + begin,
            WordIsTheClause => i as u64,
            WordOfTheNextClause => begin + self.refutation[i].len() as u64 + 1,
            WordIsAnEnd => begin + self.refutation[i].len() as u64,
            _ => begin,
        }
    }

    fn answer(&mut self) -> Refuted {
        match self.fault {
            AcceptsNoWords if self.refutation.is_empty() => return Refuted::Accepted,
            AcceptsByTheListAlone if self.list.iter().any(|clause| clause.is_empty()) => {
                return Refuted::Accepted;
            }
            _ => {}
        }
        match self.read() {
            Refuted::Ended if self.fault == AcceptsAtTheEnd => Refuted::Accepted,
            other => other,
        }
    }
}

fn repeats(clause: &[i32]) -> bool {
    clause.iter().enumerate().any(|(i, literal)| clause[..i].contains(literal))
}

/// What a request asks.
#[derive(Clone, Copy)]
struct Call<'a> {
    n: u64,
    words: &'a [i32],
    refutation: &'a [i32],
    lent: usize,
}

impl<'a> Call<'a> {
    fn test_list(&self) -> Result<(), Refusal> {
        check_list(self.n, self.words)
    }

    fn test_refutation(&self) -> Result<(), Refusal> {
        check_list(self.n, self.refutation)
            .map_err(|bad| Refusal { place: bad.place + self.words.len() as u64, ..bad })
    }

    fn test_values(&self) -> Result<(), Refusal> {
        if (self.lent as u64) < self.n {
            return Err(refusal(16, 0));
        }
        Ok(())
    }

    fn test(&self) -> Result<(), Refusal> {
        self.test_list()?;
        self.test_refutation()?;
        self.test_values()
    }

    fn test_by(&self, fault: Fault) -> Result<(), Refusal> {
        let right = self.test();
        let in_refutation = self.test_list().is_ok() && self.test_refutation().is_err();
        let list = self.words.len() as u64;
        match fault {
            SixteenFirst => self.test_values().and(right),
            SixteenBeforeTheRefutation => self.test_list().and(self.test_values()).and(right),
            RefutationBeforeTheList if self.n <= MAX_VARIABLE => self.test_refutation().and(right),
            PlacesFromTheRefutation if in_refutation => {
                right.map_err(|bad| Refusal { place: bad.place - list, ..bad })
            }
            PlacesPastTheList if in_refutation => {
                right.map_err(|bad| Refusal { place: bad.place + 1, ..bad })
            }
            MissingZeroAtTheLastWord => right.map_err(|bad| self.at_the_last_word(bad)),
            OneValueMoreNeeded if self.lent as u64 == self.n => right.and(Err(refusal(16, 0))),
            FarCountIsSixteen if self.n > MAX_VARIABLE => Err(refusal(16, 0)),
            MostVariablesRefused if self.n == MAX_VARIABLE => Err(refusal(17, 0)),
            _ => right,
        }
    }

    fn at_the_last_word(&self, bad: Refusal) -> Refusal {
        let ends = [self.words.len(), self.words.len() + self.refutation.len()];
        let at_an_end =
            bad.number == 17 && self.n <= MAX_VARIABLE && ends.contains(&(bad.place as usize));
        let place = if at_an_end { bad.place.saturating_sub(1) } else { bad.place };
        Refusal { place, ..bad }
    }

    /// The same with what the fault does not see taken out of it.
    fn taken(&self, fault: Fault, words: &'a [i32], refutation: &'a [i32]) -> Option<Call<'a>> {
        let taken = match fault {
            TestedToTheAcceptingClause | TestedToTheAnswer | RefutationUntested => {
                Call { refutation, ..*self }
            }
            _ => Call { words, refutation, ..*self },
        };
        (self.test().is_err_and(|bad| bad.number == 17) && taken.test().is_ok()).then_some(taken)
    }
}

/// The whole clauses before the first word that is refused.
fn whole_clauses(n: u64, words: &[i32]) -> Vec<i32> {
    let end = words.iter().position(|w| w.unsigned_abs() as u64 > n).unwrap_or(words.len());
    let closed = words[..end].iter().rposition(|&w| w == 0).map_or(0, |at| at + 1);
    words[..closed].to_vec()
}

/// The words as a test reads them that lets these by.
fn let_by(fault: Fault, n: u64, words: &[i32]) -> Vec<i32> {
    let mut words = words.to_vec();
    let beyond = n.saturating_add(1);
    match fault {
        MissingZeroTaken if words.last().is_some_and(|&w| w != 0) => words.push(0),
        LeastWordTaken => words.retain(|&w| w != i32::MIN),
        OneBeyondTaken => words.retain(|&w| w.unsigned_abs() as u64 != beyond),
        TestedToTheAcceptingClause | TestedToTheAnswer | RefutationUntested => {
            return whole_clauses(n, &words);
        }
        _ => {}
    }
    words
}

/// A set of operations with one fault.
struct With(Fault);

impl With {
    fn answer(&self, call: Call, values: &mut [u8]) -> Result<Refuted, Refusal> {
        call.test_by(self.0)?;
        let n = call.n as usize;
        let mut plain = Plain::new(self.0, call.words, call.refutation, &values[..n]);
        let refuted = plain.answer();
        let set = match (self.0, refuted) {
            (SetAfterWord, Refuted::Word(_)) => true,
            (SetAfterEnded, Refuted::Ended) => true,
            (SetAfterAccepted, Refuted::Accepted) => true,
            (ValuesUntouched, _) => return Ok(refuted),
            _ => false,
        };
        let cleared = match self.0 {
            AllValuesCleared => values.len(),
            OneMoreCleared => values.len().min(n + 1),
            OneFewerCleared => n.saturating_sub(1),
            _ => n,
        };
        values[..cleared].fill(0);
        for (value, truth) in values.iter_mut().zip(&plain.truths).filter(|_| set) {
            *value = *truth as u8;
        }
        Ok(refuted)
    }

    /// What is answered to a call whose fault is not seen.
    fn unseen(&self, call: Call, values: &mut [u8]) -> Option<Result<Refuted, Refusal>> {
        let [words, refutation] =
            [call.words, call.refutation].map(|words| let_by(self.0, call.n, words));
        let taken = call.taken(self.0, &words, &refutation)?;
        let before = values.to_vec();
        let answer = self.answer(taken, values);
        let whole = match self.0 {
            TestedToTheAcceptingClause => answer == Ok(Refuted::Accepted),
            TestedToTheAnswer => matches!(answer, Ok(Refuted::Word(_))),
            _ => true,
        };
        if !whole {
            values.copy_from_slice(&before);
        }
        whole.then_some(answer)
    }
}

impl Operations for With {
    fn refute(
        &mut self,
        n: u64,
        words: &[i32],
        refutation: &[i32],
        values: &mut [u8],
    ) -> Answer<Refuted> {
        let call = Call { n, words, refutation, lent: values.len() };
        if let Some(answer) = self.unseen(call, values) {
            return answer.into();
        }
        let answer = self.answer(call, values);
        if answer.is_err() && self.0 == ClearedThoughRefused {
            values.fill(0);
        }
        answer.into()
    }
}

/// At most so many requests, of which so many must tell each wrong
/// implementation.
const REQUESTS: usize = 6_000;
const TOLD: usize = 3;

#[test]
fn the_right_implementation_is_told_by_none() {
    let mut generator = Generator::new(80, &["refute"]).unwrap();
    for _ in 0..4_000 {
        let request = generator.request();
        let right = reply(&mut Reference, &request);
        assert_eq!(reply(&mut With(Right), &request), right, "{request}");
    }
}

#[test]
fn generated_requests_tell_wrong_implementations() {
    let mut generator = Generator::new(81, &["refute"]).unwrap();
    let mut told = vec![0; WRONG.len()];
    for _ in 0..REQUESTS {
        let request = generator.request();
        let right = reply(&mut Reference, &request);
        for (told, wrong) in told.iter_mut().zip(WRONG).filter(|(told, _)| **told < TOLD) {
            *told += (reply(&mut With(*wrong), &request) != right) as usize;
        }
    }
    let untold: Vec<_> = WRONG.iter().zip(told).filter(|(_, count)| *count < TOLD).collect();
    assert!(untold.is_empty(), "{untold:?}");
}

/// What a request and its reply are about.
fn kind(request: &str, reply: &str) -> String {
    let fields: Vec<&str> = request.split(' ').collect();
    let words: Vec<&str> = reply.split(' ').collect();
    let end = fields[2].split(',').filter(|word| *word != "-").count().to_string();
    match words[..] {
        ["ok", "word", "0", ..] => "the first clause".to_string(),
        ["ok", "word", ..] => "a later clause".to_string(),
        ["ok", "ended", ..] if fields[3] == "-" => "no words".to_string(),
        ["ok", "accepted", ..] if fields[3] == "0" => "accepted at once".to_string(),
        ["ok", answer, ..] => answer.to_string(),
        ["refused", "17", "at", place, ..] if place == end => "17 at the list's end".to_string(),
        _ => words[..2].join(" "),
    }
}

#[test]
fn every_answer_is_common() {
    let mut generator = Generator::new(82, &["refute"]).unwrap();
    let mut kinds: Vec<String> = vec![];
    for _ in 0..2_000 {
        let request = generator.request();
        kinds.push(kind(&request, &reply(&mut Reference, &request)));
    }
    for (name, least) in [
        ("accepted", 300),
        ("ended", 300),
        ("the first clause", 150),
        ("a later clause", 120),
        ("accepted at once", 50),
        ("no words", 50),
        ("refused 16", 50),
        ("refused 17", 150),
        ("17 at the list's end", 20),
    ] {
        let count = kinds.iter().filter(|kind| *kind == name).count();
        assert!(count >= least, "{name}: {count}");
    }
    assert_eq!(kinds.iter().collect::<BTreeSet<_>>().len(), 9);
}
