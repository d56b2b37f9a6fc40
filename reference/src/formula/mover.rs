//! Statements and movers as gates: the state bits after each.

use super::circuit::{constant_word, Circuit, FALSE, TRUE};
use super::sink::Sink;
use super::state::STATUS_WIDTH;
use crate::design::{Cell, CellKind, Design, Mover, Statement};
use crate::pair::Pair;

impl<S: Sink> Circuit<'_, S> {
    fn list(&mut self, state: Vec<i32>, list: &[Statement]) -> Vec<i32> {
        list.iter().fold(state, |state, statement| self.statement(state, statement))
    }

    fn statement(&mut self, mut state: Vec<i32>, statement: &Statement) -> Vec<i32> {
        let mut mark = state[self.bits.mark];
        match statement {
            Statement::AssignInteger(v, e) => {
                let word = self.integer(Pair::one(&state), e, Some(&mut mark));
                let first = self.bits.variables[*v as usize];
                state[first..first + word.len()].copy_from_slice(&word);
                state[self.bits.mark] = mark;
                state
            }
            Statement::AssignBoolean(v, e) => {
                let literal = self.boolean(Pair::one(&state), e, Some(&mut mark));
                state[self.bits.variables[*v as usize]] = literal;
                state[self.bits.mark] = mark;
                state
            }
            Statement::If(condition, then, other) => {
                let c = self.boolean(Pair::one(&state), condition, Some(&mut mark));
                // Both lists start from the mark that the condition left.
                state[self.bits.mark] = mark;
                let a = self.list(state.clone(), then);
                let b = self.list(state, other);
                self.muxes(c, &a, &b)
            }
        }
    }

    /// and(equal(status, constant), event)
    pub fn at_place(&mut self, design: &Design, state: &[i32], cell: &Cell) -> i32 {
        let status = self.status_word(state, cell.matrix);
        let equal = self.equal(&status, &constant_word(cell.status as i16));
        let event = self.truth(Pair::one(state), design.event_of(cell));
        self.and(equal, event)
    }

    pub fn mover(&mut self, design: &Design, state: &[i32], mover: Mover) -> Vec<i32> {
        let (enable, effect) = match mover {
            Mover::Cell(i) => self.cell(design, state, &design.cells[i]),
            Mover::External(v) => {
                let bit = self.bits.variables[v];
                let mut effect = state.to_vec();
                effect[bit] = TRUE;
                (-state[bit], effect)
            }
        };
        self.muxes(enable, &effect, state)
    }

    fn cell(&mut self, design: &Design, state: &[i32], cell: &Cell) -> (i32, Vec<i32>) {
        let CellKind::Normal { target, guard, action } = &cell.kind else {
            return (FALSE, state.to_vec());
        };
        let place = self.at_place(design, state, cell);
        let guard = guard.as_ref().map_or(TRUE, |g| self.truth(Pair::one(state), g));
        let enable = self.and(place, guard);
        let mut effect = self.list(state.to_vec(), action);
        let first = self.bits.statuses[cell.matrix as usize];
        let target = constant_word(*target as i16);
        effect[first..first + STATUS_WIDTH].copy_from_slice(&target[..STATUS_WIDTH]);
        (enable, effect)
    }
}
