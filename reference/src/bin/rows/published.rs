//! Rows of bounds that VERDICT's own search does not reach. The break is found by a breadth-first search over the serving program's
//! START and STEP in which its REPLAY judges every list, so no shorter list breaks the property; and the list that is found is, of all
//! breaking lists of its length, the first in the order of their choices.
//!
//! It goes through the states, not through the lists. Two lists that hold and lead to one state go on alike: what follows breaks the
//! property after both or after neither. So the first list that leads to a state stands for all others, which are longer or come later
//! in the order.

use crate::served::Served;
use crate::table::{choices_text, UNASKED};
use crate::walk::{Walk, Walked};
use std::collections::HashSet;

impl Served<'_> {
    /// The words of a published row after its first four: a list of as many choices as the bound breaks, and no shorter one.
    pub fn published_answers(&mut self, budget: &str) -> Result<Vec<String>, String> {
        if budget != "-" {
            return Err("a published row has no budget".to_string());
        }
        let size = self.size()?;
        let choices = self.first_breaking(size.movers)?;
        if choices.len() as u32 != self.bound {
            let found = choices_text(&choices);
            return Err(format!("{found} breaks at step {}, before the bound", choices.len()));
        }
        let [n, clauses, words] = size.row_words();
        let [at, choices] = [self.bound.to_string(), choices_text(&choices)];
        let [tries, models, strict] = [UNASKED; 3].map(String::from);
        Ok(vec!["VIOLATED".to_string(), at, tries, n, clauses, words, models, choices, strict])
    }

    /// Of the shortest breaking lists, up to as long as the bound, the first in the order of their choices. Lists of one length are
    /// met in that order.
    fn first_breaking(&mut self, movers: u64) -> Result<Vec<u8>, String> {
        let first = self.walk(movers).first()?;
        if self.breaks(&first)? {
            return Ok(first.0);
        }
        let mut seen = HashSet::from([first.1.clone()]);
        let mut level = vec![first];
        for _ in 0..self.bound {
            let mut next = vec![];
            for walked in level {
                for longer in self.walk(movers).longer(&walked)? {
                    // A step to a state that was met before may break a property of two states.
                    if self.breaks(&longer)? {
                        return Ok(longer.0);
                    }
                    if seen.insert(longer.1.clone()) {
                        next.push(longer);
                    }
                }
            }
            level = next;
        }
        Err(format!("no list of up to {} choices breaks the property", self.bound))
    }

    fn walk(&mut self, movers: u64) -> Walk<'_> {
        Walk::new(self.program, &self.design, movers)
    }

    /// Whether REPLAY says that the list, which held before its last choice, breaks at that choice. Where HOLDS is about the same
    /// property, it has to say the same.
    fn breaks(&mut self, (list, state): &Walked) -> Result<bool, String> {
        let broken = self.broken(list)?;
        if broken.is_some_and(|at| at != list.len() as u64) {
            return Err(format!("{} breaks at {broken:?}, but held there", choices_text(list)));
        }
        let one_state = self.piece == "-" && self.property != "2";
        if one_state && self.holds(state)? == broken.is_some() {
            return Err(format!("{}: replay and holds differ", choices_text(list)));
        }
        Ok(broken.is_some())
    }

    fn holds(&mut self, state: &str) -> Result<bool, String> {
        let reply = self.program.ask(&format!("holds {} {state} {}", self.design, self.property));
        match &reply[..] {
            "ok 0" => Ok(false),
            "ok 1" => Ok(true),
            _ => Err(format!("holds replies: {reply}")),
        }
    }
}
