//! The state bits.

use crate::design::{Design, Kind};

pub const INTEGER_WIDTH: usize = 16;
pub const STATUS_WIDTH: usize = 4;

fn width(kind: Kind) -> usize {
    if kind == Kind::Integer {
        INTEGER_WIDTH
    } else {
        1
    }
}

/// Where each variable and status starts among the state bits, and the mark.
pub struct BitPlaces {
    pub variables: Vec<usize>,
    pub statuses: Vec<usize>,
    /// The last bit.
    pub mark: usize,
    pub total: usize,
}

impl BitPlaces {
    pub fn new(design: &Design) -> BitPlaces {
        let mut total = 0;
        let mut place = |width: usize| {
            total += width;
            total - width
        };
        let variables = design.variables.iter().map(|v| place(width(v.kind))).collect();
        let statuses = design.matrices.iter().map(|_| place(STATUS_WIDTH)).collect();
        let mark = place(1);
        BitPlaces { variables, statuses, mark, total }
    }

    /// The first state: initial values, every status 0, no mark.
    pub fn initial(&self, design: &Design) -> Vec<bool> {
        let mut bits = Vec::new();
        for variable in &design.variables {
            bits.extend((0..width(variable.kind)).map(|i| variable.initial >> i & 1 == 1));
        }
        bits.resize(self.total, false);
        bits
    }
}
