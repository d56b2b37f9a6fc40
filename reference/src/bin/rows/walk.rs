//! Lists of a design, walked by a serving program's START and STEP: the strict ones, and those that go on by every choice. It shares no
//! code with `reference::strict`, so that the two can be held against each other.

use reference::client::Program;
use std::collections::HashMap;

/// A choice, and the state that it leads to, as STEP replies it.
type Steps = Vec<(u8, String)>;

/// A list of choices, and the state that it leads to.
pub type Walked = (Vec<u8>, String);

pub struct Walk<'a> {
    program: &'a mut Program,
    design: &'a str,
    movers: u64,
    /// The strict steps of each state that was met, so that no state is asked twice.
    known: HashMap<String, Steps>,
}

impl<'a> Walk<'a> {
    pub fn new(program: &'a mut Program, design: &'a str, movers: u64) -> Walk<'a> {
        Walk { program, design, movers, known: HashMap::new() }
    }

    /// The list of no choice.
    pub fn first(&mut self) -> Result<Walked, String> {
        Ok((vec![], self.ask("start", "")?))
    }

    /// The list with each choice after it, in the order of the choices.
    pub fn longer(&mut self, (list, state): &Walked) -> Result<Vec<Walked>, String> {
        let steps = self.all_steps(state)?.into_iter();
        Ok(steps.map(|(choice, after, _)| ([&list[..], &[choice]].concat(), after)).collect())
    }

    /// Every strict list of so many choices.
    pub fn strict_lists(&mut self, length: u32) -> Result<Vec<Vec<u8>>, String> {
        let mut lists = vec![self.first()?];
        for _ in 0..length {
            let mut longer = vec![];
            for (list, state) in &lists {
                for (choice, after) in self.strict_steps(state)? {
                    longer.push(([&list[..], &[*choice]].concat(), after.clone()));
                }
            }
            lists = longer;
        }
        Ok(lists.into_iter().map(|(list, _)| list).collect())
    }

    /// The steps of the enabled movers; where no mover is enabled, those of all movers.
    fn strict_steps(&mut self, state: &str) -> Result<&Steps, String> {
        if !self.known.contains_key(state) {
            let steps = self.all_steps(state)?;
            let none_enabled = steps.iter().all(|(_, _, idle)| *idle);
            let strict = steps.into_iter().filter(|(_, _, idle)| none_enabled || !idle);
            let strict = strict.map(|(choice, after, _)| (choice, after)).collect();
            self.known.insert(state.to_string(), strict);
        }
        Ok(&self.known[state])
    }

    /// Each mover's choice, the state after it, and whether it idled.
    fn all_steps(&mut self, state: &str) -> Result<Vec<(u8, String, bool)>, String> {
        let mut steps = vec![];
        for choice in 0..self.movers {
            let reply = self.ask("step", &format!(" {state} {choice}"))?;
            let (after, idle) = match reply.rsplit_once(' ') {
                Some((after, "0")) => (after, false),
                Some((after, "1")) => (after, true),
                _ => return Err(format!("step replies: {reply}")),
            };
            if idle && after != state {
                return Err(format!("choice {choice} idles and changes {state} to {after}"));
            }
            steps.push((choice as u8, after.to_string(), idle));
        }
        Ok(steps)
    }

    /// A reply after `ok`.
    fn ask(&mut self, operation: &str, rest: &str) -> Result<String, String> {
        let reply = self.program.ask(&format!("{operation} {}{rest}", self.design));
        match reply.strip_prefix("ok ") {
            Some(answer) => Ok(answer.to_string()),
            None => Err(format!("{operation} replies: {reply}")),
        }
    }
}
