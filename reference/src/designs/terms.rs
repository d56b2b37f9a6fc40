//! Short names for the parts of a design, so that a design reads like its description.

use crate::design::{Boolean, Cell, CellKind, Integer, Kind, Matrix, Statement, Variable};

/// A place of a matrix: matrix, status, event.
pub type Place = (u8, u8, u8);

pub fn constant(value: i16) -> Integer {
    Integer::Constant(value)
}

pub fn number(variable: u8) -> Integer {
    Integer::Variable(variable)
}

pub fn status(matrix: u8) -> Integer {
    Integer::Status(matrix)
}

/// In the next state.
pub fn next_number(variable: u8) -> Integer {
    Integer::NextVariable(variable)
}

pub fn next_status(matrix: u8) -> Integer {
    Integer::NextStatus(matrix)
}

pub fn plus(a: Integer, b: Integer) -> Integer {
    Integer::Sum(Box::new(a), Box::new(b))
}

pub fn minus(a: Integer, b: Integer) -> Integer {
    Integer::Difference(Box::new(a), Box::new(b))
}

pub fn times(constant: i16, a: Integer) -> Integer {
    Integer::Product(constant, Box::new(a))
}

pub fn truth(value: bool) -> Boolean {
    Boolean::Constant(value)
}

pub fn is(variable: u8) -> Boolean {
    Boolean::Variable(variable)
}

/// In the next state.
pub fn is_next(variable: u8) -> Boolean {
    Boolean::NextVariable(variable)
}

pub fn not(a: Boolean) -> Boolean {
    Boolean::Not(Box::new(a))
}

pub fn and(a: Boolean, b: Boolean) -> Boolean {
    Boolean::And(Box::new(a), Box::new(b))
}

pub fn or(a: Boolean, b: Boolean) -> Boolean {
    Boolean::Or(Box::new(a), Box::new(b))
}

pub fn implies(a: Boolean, b: Boolean) -> Boolean {
    or(not(a), b)
}

/// Both are true or both are false.
pub fn same(a: Boolean, b: Boolean) -> Boolean {
    or(and(a.clone(), b.clone()), and(not(a), not(b)))
}

pub fn equal(a: Integer, b: Integer) -> Boolean {
    Boolean::Equal(a, b)
}

pub fn less(a: Integer, b: Integer) -> Boolean {
    Boolean::Less(a, b)
}

pub fn status_is(matrix: u8, value: i16) -> Boolean {
    equal(status(matrix), constant(value))
}

pub fn next_status_is(matrix: u8, value: i16) -> Boolean {
    equal(next_status(matrix), constant(value))
}

pub fn assign(variable: u8, value: bool) -> Statement {
    assign_boolean(variable, truth(value))
}

pub fn assign_boolean(variable: u8, value: Boolean) -> Statement {
    Statement::AssignBoolean(variable, value)
}

pub fn assign_integer(variable: u8, value: Integer) -> Statement {
    Statement::AssignInteger(variable, value)
}

pub fn when(condition: Boolean, then: Vec<Statement>, other: Vec<Statement>) -> Statement {
    Statement::If(condition, then, other)
}

pub fn variable(kind: Kind) -> Variable {
    Variable { kind, initial: 0 }
}

pub fn boolean_from(initial: bool) -> Variable {
    Variable { kind: Kind::Boolean, initial: initial as i16 }
}

pub fn integer_from(initial: i16) -> Variable {
    Variable { kind: Kind::Integer, initial }
}

pub fn external() -> Variable {
    variable(Kind::External)
}

pub fn matrix(statuses: u8, events: Vec<Boolean>) -> Matrix {
    Matrix { statuses, events }
}

pub fn normal(place: Place, target: u8, guard: Option<Boolean>, action: Vec<Statement>) -> Cell {
    let kind = CellKind::Normal { target, guard, action };
    Cell { matrix: place.0, status: place.1, event: place.2, kind }
}

pub fn invalid(place: Place) -> Cell {
    Cell { matrix: place.0, status: place.1, event: place.2, kind: CellKind::Invalid }
}
