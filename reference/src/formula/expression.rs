//! Expressions as gates over the bits of a state, or of two.

use super::circuit::{constant_word, Circuit, Sum, Word, FALSE, TRUE};
use super::sink::Sink;
use super::state::STATUS_WIDTH;
use crate::design::{Boolean, Integer};
use crate::pair::Pair;

/// The mark so far, where the sums, differences and products of an expression
/// set it: in statements and conditions. Elsewhere they only wrap.
pub type Mark<'m> = Option<&'m mut i32>;

impl<S: Sink> Circuit<'_, S> {
    pub fn status_word(&self, state: &[i32], matrix: u8) -> Word {
        let first = self.bits.statuses[matrix as usize];
        std::array::from_fn(|i| if i < STATUS_WIDTH { state[first + i] } else { FALSE })
    }

    fn variable_word(&self, state: &[i32], variable: u8) -> Word {
        let first = self.bits.variables[variable as usize];
        std::array::from_fn(|i| state[first + i])
    }

    pub fn integer(&mut self, states: Pair<[i32]>, e: &Integer, mut mark: Mark) -> Word {
        match e {
            Integer::Constant(c) => constant_word(*c),
            Integer::Variable(v) => self.variable_word(states.earlier, *v),
            Integer::Status(m) => self.status_word(states.earlier, *m),
            Integer::Sum(a, b) => {
                let (a, b) = self.integers(states, a, b, mark.as_deref_mut());
                let sum = self.sum(&a, &b, FALSE);
                self.marked_sum(sum, mark)
            }
            Integer::Difference(a, b) => {
                let (a, b) = self.integers(states, a, b, mark.as_deref_mut());
                let difference = self.difference(&a, &b);
                self.marked_sum(difference, mark)
            }
            Integer::Product(c, a) => {
                let a = self.integer(states, a, mark.as_deref_mut());
                let product = self.product(*c, &a);
                if let Some(mark) = mark {
                    *mark = self.mark_after_product(*mark, *c, &a);
                }
                product
            }
            Integer::NextVariable(v) => self.variable_word(states.next, *v),
            Integer::NextStatus(m) => self.status_word(states.next, *m),
        }
    }

    fn integers(
        &mut self,
        states: Pair<[i32]>,
        a: &Integer,
        b: &Integer,
        mut mark: Mark,
    ) -> (Word, Word) {
        (self.integer(states, a, mark.as_deref_mut()), self.integer(states, b, mark))
    }

    /// A sum's bits, once the mark has taken its carries.
    fn marked_sum(&mut self, sum: Sum, mark: Mark) -> Word {
        if let Some(mark) = mark {
            *mark = self.mark_after_sum(*mark, sum.carries);
        }
        sum.word
    }

    pub fn boolean(&mut self, states: Pair<[i32]>, e: &Boolean, mark: Mark) -> i32 {
        match e {
            Boolean::Constant(c) => {
                if *c {
                    TRUE
                } else {
                    FALSE
                }
            }
            Boolean::Variable(v) => states.earlier[self.bits.variables[*v as usize]],
            Boolean::Not(a) => -self.boolean(states, a, mark),
            Boolean::And(a, b) => {
                let (a, b) = self.booleans(states, a, b, mark);
                self.and(a, b)
            }
            Boolean::Or(a, b) => {
                let (a, b) = self.booleans(states, a, b, mark);
                self.or(a, b)
            }
            Boolean::Equal(a, b) => {
                let (a, b) = self.integers(states, a, b, mark);
                self.equal(&a, &b)
            }
            Boolean::Less(a, b) => {
                let (a, b) = self.integers(states, a, b, mark);
                self.less(a, b)
            }
            Boolean::NextVariable(v) => states.next[self.bits.variables[*v as usize]],
        }
    }

    fn booleans(
        &mut self,
        states: Pair<[i32]>,
        a: &Boolean,
        b: &Boolean,
        mut mark: Mark,
    ) -> (i32, i32) {
        (self.boolean(states, a, mark.as_deref_mut()), self.boolean(states, b, mark))
    }

    /// A guard, an event or a property: its sums set no mark.
    pub fn truth(&mut self, states: Pair<[i32]>, e: &Boolean) -> i32 {
        self.boolean(states, e, None)
    }
}
