//! The Money-Changer of source 001 with its published properties.

use super::terms::*;
use crate::design::{Boolean, Cell, Design, Integer, Kind, Matrix, Statement};
use crate::query::{CONSTRAINT, INVARIANT};

/// The properties of source 001. DYN is about two successive states.
#[derive(Clone, Copy, Debug, PartialEq, Eq)]
pub enum Property {
    Uic1,
    Uic2,
    Stc1,
    Stc2,
    Fstc1,
    Fstc2,
    Dyn,
}

pub const ALL_PROPERTIES: [Property; 7] = [
    Property::Uic1,
    Property::Uic2,
    Property::Stc1,
    Property::Stc2,
    Property::Fstc1,
    Property::Fstc2,
    Property::Dyn,
];

/// Those that are about one state, which a file has as its invariant or a
/// reviewer as a piece.
pub fn state_properties() -> impl Iterator<Item = Property> {
    ALL_PROPERTIES.into_iter().filter(|&property| property != Property::Dyn)
}

/// What source 001 asks of the original design.
pub const ORIGINAL_PROPERTIES: [Property; 5] =
    [Property::Uic1, Property::Uic2, Property::Stc1, Property::Stc2, Property::Dyn];

impl Property {
    pub fn name(self) -> &'static str {
        match self {
            Property::Uic1 => "uic1",
            Property::Uic2 => "uic2",
            Property::Stc1 => "stc1",
            Property::Stc2 => "stc2",
            Property::Fstc1 => "fstc1",
            Property::Fstc2 => "fstc2",
            Property::Dyn => "dyn",
        }
    }

    pub fn invariant(self) -> Boolean {
        match self {
            Property::Uic1 => not(and(status_is(CHANGER, 1), is(GET_MONEY))),
            Property::Uic2 => not(and(status_is(RETURNER, 1), is(PAYMENT))),
            Property::Stc1 => implies(status_is(RETURNER, 1), status_is(CHANGER, 2)),
            Property::Stc2 => implies(status_is(CHANGER, 1), status_is(RETURNER, 0)),
            Property::Fstc1 => implies(status_is(CHANGER, 2), status_is(RETURNER, 0)),
            Property::Fstc2 => implies(status_is(CHANGER, 2), status_is(RETURNER, 1)),
            Property::Dyn => truth(true),
        }
    }

    fn constraint(self) -> Option<Boolean> {
        let moved = and(status_is(CHANGER, 1), next_status_is(CHANGER, 2));
        (self == Property::Dyn).then(|| implies(moved, next_status_is(RETURNER, 0)))
    }

    /// The number of the property in its file.
    pub fn number(self) -> u64 {
        match self {
            Property::Dyn => CONSTRAINT,
            _ => INVARIANT,
        }
    }
}

/// The revised design drops the first two assignments of the cell that runs
/// out of money.
#[derive(Clone, Copy, Debug, PartialEq, Eq)]
pub enum Version {
    Original,
    Revised,
}

const X_CHANGE_PREPARE: u8 = 0;
const X_10K_YEN_REQUEST: u8 = 1;
const X_RECEIVE: u8 = 2;
const PAYMENT: u8 = 3;
const GET_MONEY: u8 = 4;
const PAY_MONEY: u8 = 5;
const CHANGE_MONEY: u8 = 6;
const CHANGER: u8 = 0;
const RETURNER: u8 = 1;

/// The Money-Changer of source 001, figure 1.
pub fn money_changer(version: Version, property: Property) -> Design {
    let kinds = [
        Kind::External,
        Kind::External,
        Kind::External,
        Kind::Boolean,
        Kind::Boolean,
        Kind::Integer,
        Kind::Integer,
    ];
    let changer_events = vec![is(X_CHANGE_PREPARE), is(X_10K_YEN_REQUEST), is(GET_MONEY)];
    let mut cells = changer_cells(version);
    cells.extend(returner_cells());
    Design {
        variables: kinds.map(variable).to_vec(),
        matrices: vec![
            Matrix { statuses: 3, events: changer_events },
            Matrix { statuses: 2, events: vec![is(PAYMENT), is(X_RECEIVE)] },
        ],
        cells,
        invariant: property.invariant(),
        constraint: property.constraint(),
    }
}

fn pay(amount: i16) -> Statement {
    Statement::AssignInteger(PAY_MONEY, constant(amount))
}

/// Statuses: 0 STOP, 1 WAIT_REQUEST, 2 WAIT MONEY TAKEN.
fn changer_cells(version: Version) -> Vec<Cell> {
    let money = || Box::new(Integer::Variable(CHANGE_MONEY));
    let more = Integer::Sum(money(), Box::new(constant(20_000)));
    let less = Integer::Difference(money(), Box::new(Integer::Variable(PAY_MONEY)));
    let too_little = Boolean::Less(*money(), constant(10_000));
    let mut run_out = vec![pay(0), assign(PAYMENT, true), assign(X_10K_YEN_REQUEST, false)];
    if version == Version::Revised {
        run_out.drain(..2);
    }
    let prepare =
        vec![Statement::AssignInteger(CHANGE_MONEY, more), assign(X_CHANGE_PREPARE, false)];
    let change = vec![
        pay(10_000),
        assign(PAYMENT, true),
        Statement::AssignInteger(CHANGE_MONEY, less),
        assign(X_10K_YEN_REQUEST, false),
    ];
    vec![
        normal((CHANGER, 0, 0), 1, None, prepare),
        normal((CHANGER, 1, 1), 2, Some(not(too_little.clone())), change),
        normal((CHANGER, 1, 1), 0, Some(too_little), run_out),
        invalid((CHANGER, 1, 2)),
        normal((CHANGER, 2, 2), 1, None, vec![assign(GET_MONEY, false)]),
    ]
}

/// Statuses: 0 WAIT, 1 RETURN.
fn returner_cells() -> Vec<Cell> {
    let nothing = Boolean::Equal(Integer::Variable(PAY_MONEY), constant(0));
    let taken = [assign(GET_MONEY, true), assign(X_RECEIVE, false)];
    let mut paid = vec![pay(0)];
    paid.extend(taken.clone());
    vec![
        normal((RETURNER, 0, 0), 1, None, vec![assign(PAYMENT, false)]),
        invalid((RETURNER, 1, 0)),
        normal((RETURNER, 1, 1), 0, Some(nothing.clone()), taken.to_vec()),
        normal((RETURNER, 1, 1), 0, Some(not(nothing)), paid),
    ]
}
