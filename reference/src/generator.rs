//! A seeded stream of requests of the line protocol, good and bad ones.

mod calls;
mod choices;
mod constraints;
pub mod counters;
mod faults;
mod files;
mod known;
mod limit;
mod lists;
mod near;
mod owners;
mod pieces;
mod products;
mod refutations;
pub mod trees;

use crate::random::Random;

/// The operations, each with its share of the requests.
const SHARES: [(&str, usize); 13] = [
    ("check", 4),
    ("start", 1),
    ("step", 3),
    ("holds", 2),
    ("replay", 2),
    ("size", 2),
    ("encode", 2),
    ("solve", 3),
    ("refute", 3),
    ("decode", 2),
    ("verdict", 2),
    ("owners", 2),
    ("trace", 2),
];

/// Makes requests for some of the operations.
pub struct Generator {
    random: Random,
    operations: Vec<&'static str>,
    /// The rest of a series.
    pending: Vec<String>,
}

impl Generator {
    /// `None` where an operation is unknown or none is named.
    pub fn new(seed: u64, operations: &[&str]) -> Option<Generator> {
        let share = |name: &&str| SHARES.iter().find(|s| s.0 == *name);
        let shares: Option<Vec<_>> = operations.iter().map(share).collect();
        let repeated = shares?.into_iter().flat_map(|&(name, n)| vec![name; n]);
        let operations: Vec<&'static str> = repeated.collect();
        let known = !operations.is_empty();
        known.then(|| Generator { random: Random::new(seed), operations, pending: vec![] })
    }

    pub fn request(&mut self) -> String {
        if let Some(request) = self.pending.pop() {
            return request;
        }
        let operation = self.random.pick(&self.operations);
        let random = &mut self.random;
        if random.chance(4) {
            if let Some(request) = limit::request(random, operation) {
                return request;
            }
        }
        self.pending = match operation {
            "encode" if random.chance(2) => known::all_parts(random),
            "verdict" if random.chance(2) => known::all_budgets(random),
            "owners" if random.chance(2) => owners::all_owners(random),
            _ => vec![],
        };
        match operation {
            "check" => calls::check(random),
            "start" => calls::start(random),
            "step" => calls::step(random),
            "holds" => calls::holds(random),
            "replay" => calls::replay(random, "replay"),
            "size" => calls::size(random),
            "encode" => calls::encode(random),
            "solve" => lists::solve(random),
            "refute" => refutations::refute(random),
            "decode" => calls::decode(random),
            "verdict" => calls::verdict(random),
            "owners" => owners::owners(random),
            _ => calls::replay(random, "trace"),
        }
    }
}

pub fn all_operations() -> Vec<&'static str> {
    SHARES.iter().map(|s| s.0).collect()
}
