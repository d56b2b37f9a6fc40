//! One row's questions to a serving program.

use crate::files::design_of;
use crate::table::{budget_of, choices_text, number, UNASKED};
use crate::walk::Walk;
use reference::client::Program;
use reference::models::models;
use reference::protocol::bytes;
use reference::query::Query;
use reference::strict::strict_breaking;
use std::collections::HashSet;

/// Models are counted where the lists of choices, times the variables, are at most so many.
const MAX_COUNTED: u64 = 2_000_000;

/// A design at a serving program, with a piece, a property and a bound.
pub struct Served<'a> {
    pub program: &'a mut Program,
    pub design: String,
    pub piece: String,
    pub property: &'a str,
    pub bound: u32,
}

pub struct Size {
    pub movers: u64,
    pub variables: u64,
    pub clauses: u64,
    pub words: u64,
}

impl Size {
    /// As a row has them.
    pub fn row_words(&self) -> [String; 3] {
        [self.variables, self.clauses, self.words].map(|x| x.to_string())
    }
}

/// The breaking lists of as many choices as the bound, and the strict ones among them.
struct Counts {
    models: u64,
    strict: u64,
}

impl Served<'_> {
    /// The words of a row after its first four.
    pub fn answers(&mut self, budget: &str) -> Result<Vec<String>, String> {
        if let Some(number) = self.refused() {
            let row = ["REFUSED", &number, "-", "-", "-", "-", "-", "-", "-"];
            return Ok(row.map(String::from).to_vec());
        }
        let size = self.size()?;
        let [kind, at, tries, choices] = self.verdict(budget, &size)?;
        let counts = self.counts(&size)?;
        let [models, strict] = match counts {
            Some(counts) => [counts.models, counts.strict].map(|x| x.to_string()),
            None => [UNASKED; 2].map(String::from),
        };
        let [n, clauses, words] = size.row_words();
        Ok(vec![kind, at, tries, n, clauses, words, models, choices, strict])
    }

    /// The number by which a row with a piece is refused, not for its design.
    fn refused(&mut self) -> Option<String> {
        if self.piece == "-" {
            return None;
        }
        let (design, piece, property) = (&self.design, &self.piece, self.property);
        let reply = self.program.ask(&format!("size {design} {piece} {property} {}", self.bound));
        Some(reply.strip_prefix("refused ")?.strip_suffix(" at 0")?.to_string())
    }

    /// The words of a reply after `ok`.
    fn ask(&mut self, operation: &str, rest: &str) -> Result<Vec<String>, String> {
        let reply = self.program.ask(&format!("{operation} {} {} {rest}", self.design, self.piece));
        match reply.strip_prefix("ok ") {
            Some(answer) => Ok(answer.split(' ').map(String::from).collect()),
            None => Err(format!("{operation} replies: {reply}")),
        }
    }

    pub fn size(&mut self) -> Result<Size, String> {
        let answer = self.ask("size", &format!("{} {}", self.property, self.bound))?;
        let [_, _, movers, _, variables, clauses, words] = &answer[..] else {
            return Err(format!("size replies: {answer:?}"));
        };
        let [movers, variables] = [number(movers)?, number(variables)?];
        Ok(Size { movers, variables, clauses: number(clauses)?, words: number(words)? })
    }

    /// Verdict, step or bound, tries, choices, on memory that just suffices.
    fn verdict(&mut self, budget: &str, size: &Size) -> Result<[String; 4], String> {
        let budget = budget_of(budget)?;
        let (n, k) = (size.variables, self.bound);
        let rest = format!("{} {k} {budget} {} {n} {n} {k}", self.property, size.words);
        let answer = self.ask("verdict", &rest)?;
        let told = answer.split(|word| word == "mem").next().unwrap_or(&[]);
        told_words(&told.join(" "))
    }

    /// The models of the words that ENCODE writes, and the strict lists among the breaking ones. REPLAY has to find as many breaking
    /// lists as there are models.
    fn counts(&mut self, size: &Size) -> Result<Option<Counts>, String> {
        let lists = size.movers.saturating_pow(self.bound);
        if lists.saturating_mul(size.variables) > MAX_COUNTED {
            return Ok(None);
        }
        let words = self.words(size)?;
        let models = models(size.variables as usize, &words).len() as u64;
        let breaking = self.breaking_lists(size.movers, lists)?;
        if models != breaking.len() as u64 {
            return Err(format!("{models} models, but {} breaking lists", breaking.len()));
        }
        Ok(Some(Counts { models, strict: self.strict(size.movers, &breaking)? }))
    }

    /// All parts joined.
    fn words(&mut self, size: &Size) -> Result<Vec<i32>, String> {
        let mut words = vec![];
        for part in 0..=self.bound + 2 {
            let rest = format!("{} {} {part} {}", self.property, self.bound, size.words);
            let answer = self.ask("encode", &rest)?;
            let list = answer.get(1).filter(|list| *list != "-");
            for word in list.iter().flat_map(|list| list.split(',')) {
                words.push(word.parse().map_err(|_| format!("no word: {word}"))?);
            }
        }
        if words.len() as u64 != size.words {
            return Err(format!("size counts {} words, encode writes {}", size.words, words.len()));
        }
        Ok(words)
    }

    /// Of all lists of as many choices as the bound, those that REPLAY says are broken.
    fn breaking_lists(&mut self, movers: u64, lists: u64) -> Result<HashSet<Vec<u8>>, String> {
        let mut breaking = HashSet::new();
        for list in 0..lists {
            let digit = |i: u32| (list / movers.pow(i) % movers) as u8;
            let choices: Vec<u8> = (0..self.bound).map(digit).collect();
            if self.broken(&choices)?.is_some() {
                breaking.insert(choices);
            }
        }
        Ok(breaking)
    }

    /// The first breaking step that REPLAY says.
    pub fn broken(&mut self, choices: &[u8]) -> Result<Option<u64>, String> {
        let rest = format!("{} {}", self.property, choices_text(choices));
        let answer = self.ask("replay", &rest)?;
        match &answer[..] {
            [broken, _, _] if broken == "none" => Ok(None),
            [broken, _, _] => number(broken).map(Some),
            _ => Err(format!("replay replies: {answer:?}")),
        }
    }

    /// The strict lists, walked by STEP, that REPLAY says are broken. The second implementation has to count as many.
    fn strict(&mut self, movers: u64, breaking: &HashSet<Vec<u8>>) -> Result<u64, String> {
        let lists = Walk::new(self.program, &self.design, movers).strict_lists(self.bound)?;
        let walked = lists.iter().filter(|list| breaking.contains(*list)).count() as u64;
        let counted = self.strict_by_levels()?;
        if counted != Some(walked as u128) {
            return Err(format!("{walked} strict lists by STEP, {counted:?} by levels"));
        }
        Ok(walked)
    }

    fn strict_by_levels(&self) -> Result<Option<u128>, String> {
        let file = |text: &str| bytes(text).ok_or(format!("no bytes: {text}"));
        let (design, piece) = (design_of(&file(&self.design)?)?, file(&self.piece)?);
        let query = Query::new(&design, number(self.property)?).with_piece(&piece);
        let count = strict_breaking(query, self.bound as u64);
        count.map_err(|r| format!("refused {} at {}", r.number, r.place))
    }
}

/// Verdict, step or bound, tries and choices, as a row has them.
pub fn told_words(told: &str) -> Result<[String; 4], String> {
    let words: Vec<&str> = told.split(' ').collect();
    let found = match words[..] {
        ["clean", tries] => ["CLEAN", "-", tries, "-"],
        ["violated", step, tries, choices] => ["VIOLATED", step, tries, choices],
        ["spent", at, tries] => ["SPENT", at, tries, "-"],
        ["refused", number, "at", "0"] => ["REFUSED", number, "-", "-"],
        _ => return Err(format!("a verdict of {told}")),
    };
    Ok(found.map(String::from))
}
