//! Constraints that a few steps may break.

use super::trees::breakable;
use crate::design::{Boolean, Design, Integer, Kind};
use crate::random::Random;

/// A constraint that a few steps may break: a part of the state stays as it
/// is, or never does, or changes only where something is true afterwards.
pub fn breakable_constraint(random: &mut Random, design: &Design) -> Boolean {
    let statuses = (0..design.matrices.len() as u8).map(unmoved);
    let variables = (0..).zip(&design.variables).map(|(v, variable)| unchanged(v, variable.kind));
    let mut parts: Vec<Boolean> = statuses.chain(variables).collect();
    let part = parts.swap_remove(random.below(parts.len()));
    match random.below(3) {
        0 => part,
        1 => Boolean::Not(Box::new(part)),
        _ => {
            let afterwards = next_boolean(&breakable(random, design));
            Boolean::Or(Box::new(part), Box::new(afterwards))
        }
    }
}

fn unmoved(matrix: u8) -> Boolean {
    Boolean::Equal(Integer::Status(matrix), Integer::NextStatus(matrix))
}

fn unchanged(v: u8, kind: Kind) -> Boolean {
    if kind == Kind::Integer {
        return Boolean::Equal(Integer::Variable(v), Integer::NextVariable(v));
    }
    let both = |a: Boolean, b: Boolean| Boolean::And(Box::new(a), Box::new(b));
    let not = |a: Boolean| Boolean::Not(Box::new(a));
    let (now, next) = (Boolean::Variable(v), Boolean::NextVariable(v));
    let raised = both(now.clone(), next.clone());
    Boolean::Or(Box::new(raised), Box::new(both(not(now), not(next))))
}

/// The expression, asked of the next state.
fn next_boolean(e: &Boolean) -> Boolean {
    let next = |a: &Boolean| Box::new(next_boolean(a));
    match e {
        Boolean::Constant(_) | Boolean::NextVariable(_) => e.clone(),
        Boolean::Variable(v) => Boolean::NextVariable(*v),
        Boolean::Not(a) => Boolean::Not(next(a)),
        Boolean::And(a, b) => Boolean::And(next(a), next(b)),
        Boolean::Or(a, b) => Boolean::Or(next(a), next(b)),
        Boolean::Equal(a, b) => Boolean::Equal(next_integer(a), next_integer(b)),
        Boolean::Less(a, b) => Boolean::Less(next_integer(a), next_integer(b)),
    }
}

fn next_integer(e: &Integer) -> Integer {
    let next = |a: &Integer| Box::new(next_integer(a));
    match e {
        Integer::Variable(v) => Integer::NextVariable(*v),
        Integer::Status(m) => Integer::NextStatus(*m),
        Integer::Sum(a, b) => Integer::Sum(next(a), next(b)),
        Integer::Product(c, a) => Integer::Product(*c, next(a)),
        Integer::Difference(a, b) => Integer::Difference(next(a), next(b)),
        Integer::Constant(_) | Integer::NextVariable(_) | Integer::NextStatus(_) => e.clone(),
    }
}
