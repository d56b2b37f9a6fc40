//! How many gates expressions, statements and movers write, by arithmetic
//! over the tree. A file of 16,384 bytes may stand for 30 million gates in a
//! frame, so sizes go with the bytes and no gate is written to count it.

use super::sink::Count;
use super::state::INTEGER_WIDTH;
use crate::design::{Boolean, Cell, CellKind, Design, Integer, Mover, Statement};
use std::iter::Sum;
use std::ops::{Add, Mul};

/// Numbers of gates, parted by what a gate takes in clauses and words.
#[derive(Clone, Copy, Debug, Default, PartialEq, Eq)]
pub struct Gates {
    /// Ors, too: each is an and.
    ands: u64,
    xors_and_muxes: u64,
}

const WIDTH: u64 = INTEGER_WIDTH as u64;
const NONE: Gates = Gates { ands: 0, xors_and_muxes: 0 };
const AND: Gates = Gates { ands: 1, xors_and_muxes: 0 };
const XOR: Gates = Gates { ands: 0, xors_and_muxes: 1 };
/// A difference and a less have these gates, too.
const SUM: Gates = Gates { ands: 3 * WIDTH, xors_and_muxes: 2 * WIDTH };
const EQUAL: Gates = Gates { ands: WIDTH, xors_and_muxes: WIDTH };

impl Gates {
    pub fn total(self) -> u64 {
        self.ands + self.xors_and_muxes
    }

    /// An and is two clauses of two literals and one of three; each of the
    /// others four of three.
    pub fn count(self) -> Count {
        Count {
            clauses: 3 * self.ands + 4 * self.xors_and_muxes,
            words: 10 * self.ands + 16 * self.xors_and_muxes,
        }
    }
}

impl Add for Gates {
    type Output = Gates;

    fn add(self, other: Gates) -> Gates {
        Gates {
            ands: self.ands + other.ands,
            xors_and_muxes: self.xors_and_muxes + other.xors_and_muxes,
        }
    }
}

impl Mul<u64> for Gates {
    type Output = Gates;

    fn mul(self, times: u64) -> Gates {
        Gates { ands: self.ands * times, xors_and_muxes: self.xors_and_muxes * times }
    }
}

impl Sum for Gates {
    fn sum<I: Iterator<Item = Gates>>(gates: I) -> Gates {
        gates.fold(NONE, Gates::add)
    }
}

/// Whether the sums, differences and products of an expression set the mark.
#[derive(Clone, Copy)]
enum Sums {
    Wrap,
    Mark,
}

impl Sums {
    /// A difference costs the same.
    fn sum(self) -> Gates {
        match self {
            Sums::Wrap => SUM,
            Sums::Mark => SUM + XOR + AND,
        }
    }

    /// Two comparisons and two ors set the mark.
    fn product(self) -> Gates {
        let sums = SUM * WIDTH;
        match self {
            Sums::Wrap => sums,
            Sums::Mark => sums + SUM * 2 + AND * 2,
        }
    }
}

fn integer(e: &Integer, sums: Sums) -> Gates {
    match e {
        Integer::Constant(_) | Integer::Variable(_) | Integer::Status(_) => NONE,
        Integer::NextVariable(_) | Integer::NextStatus(_) => NONE,
        Integer::Sum(a, b) | Integer::Difference(a, b) => {
            integer(a, sums) + integer(b, sums) + sums.sum()
        }
        Integer::Product(_, a) => integer(a, sums) + sums.product(),
    }
}

fn boolean(e: &Boolean, sums: Sums) -> Gates {
    match e {
        Boolean::Constant(_) | Boolean::Variable(_) | Boolean::NextVariable(_) => NONE,
        Boolean::Not(a) => boolean(a, sums),
        Boolean::And(a, b) | Boolean::Or(a, b) => boolean(a, sums) + boolean(b, sums) + AND,
        Boolean::Equal(a, b) => integer(a, sums) + integer(b, sums) + EQUAL,
        Boolean::Less(a, b) => integer(a, sums) + integer(b, sums) + SUM,
    }
}

/// A guard or an event: its sums set no mark.
fn truth(e: &Boolean) -> Gates {
    boolean(e, Sums::Wrap)
}

/// A property that is an expression, and its and with the mark.
pub fn property(e: &Boolean) -> Gates {
    truth(e) + AND
}

/// What the cells of a design cost. An event's gates are written anew for
/// each of its cells, but counted once.
pub struct Costs<'a> {
    design: &'a Design,
    events: Vec<Vec<Gates>>,
    /// A mux for every state bit.
    muxes: Gates,
}

impl<'a> Costs<'a> {
    pub fn new(design: &'a Design, state_bits: u64) -> Costs<'a> {
        let of_matrix = |events: &Vec<Boolean>| events.iter().map(truth).collect();
        let events = design.matrices.iter().map(|m| of_matrix(&m.events)).collect();
        Costs { design, events, muxes: Gates { ands: 0, xors_and_muxes: state_bits } }
    }

    /// Of property 1: each invalid cell, with its link of the chain, and the
    /// and with the mark.
    pub fn unreached(&self) -> Gates {
        let invalid = self.design.cells.iter().filter(|c| c.kind == CellKind::Invalid);
        invalid.map(|cell| self.at_place(cell) + AND).sum::<Gates>() + AND
    }

    pub fn mover(&self, mover: Mover) -> Gates {
        let effect = match mover {
            Mover::Cell(i) => self.cell(&self.design.cells[i]),
            Mover::External(_) => NONE,
        };
        effect + self.muxes
    }

    fn at_place(&self, cell: &Cell) -> Gates {
        EQUAL + self.events[cell.matrix as usize][cell.event as usize] + AND
    }

    fn cell(&self, cell: &Cell) -> Gates {
        let CellKind::Normal { guard, action, .. } = &cell.kind else {
            return NONE;
        };
        let guard = guard.as_ref().map_or(NONE, truth);
        self.at_place(cell) + guard + AND + self.list(action)
    }

    fn list(&self, list: &[Statement]) -> Gates {
        list.iter().map(|statement| self.statement(statement)).sum()
    }

    fn statement(&self, statement: &Statement) -> Gates {
        match statement {
            Statement::AssignInteger(_, e) => integer(e, Sums::Mark),
            Statement::AssignBoolean(_, e) => boolean(e, Sums::Mark),
            Statement::If(condition, then, other) => {
                let condition = boolean(condition, Sums::Mark);
                condition + self.list(then) + self.list(other) + self.muxes
            }
        }
    }
}
