//! Writes a tree as a design file. It checks nothing, so that files with
//! faults can be written too.

use crate::design::{
    Boolean, Cell, CellKind, Design, Integer, Kind, Statement, CONSTRAINT_VERSION,
};

/// Where each item of a written file starts.
#[derive(Clone, Debug, Default, PartialEq, Eq)]
pub struct Places {
    pub variables: Vec<usize>,
    pub matrices: Vec<usize>,
    pub events: Vec<usize>,
    pub cells: Vec<usize>,
    pub invariant: usize,
    /// In version 2.
    pub constraint: Option<usize>,
    pub trailer: usize,
}

pub fn file_bytes(design: &Design) -> Vec<u8> {
    file_with_places(design).0
}

pub fn file_with_places(design: &Design) -> (Vec<u8>, Places) {
    let mut out = Vec::new();
    let mut places = Places::default();
    write_variables(&mut out, &mut places, design);
    let matrices_at = out.len();
    write_matrices(&mut out, &mut places, design);
    let events_at = out.len();
    write_events(&mut out, &mut places, design);
    let cells_at = out.len();
    for cell in &design.cells {
        places.cells.push(out.len());
        write_cell(&mut out, cell);
    }
    write_properties(&mut out, &mut places, design);
    places.trailer = out.len();
    let version = if design.constraint.is_some() { CONSTRAINT_VERSION } else { 1 } as usize;
    let counts = [design.variables.len(), design.matrices.len(), design.cells.len()];
    let invariant_at = places.invariant;
    let fields =
        [version, counts[0], matrices_at, counts[1], events_at, cells_at, counts[2], invariant_at];
    fields.iter().for_each(|field| write_field(&mut out, *field));
    (out, places)
}

fn write_field(out: &mut Vec<u8>, field: usize) {
    out.extend_from_slice(&(field as u16).to_le_bytes());
}

/// The invariant; then the constraint and its offset, where there is one.
fn write_properties(out: &mut Vec<u8>, places: &mut Places, design: &Design) {
    places.invariant = out.len();
    write_boolean(out, &design.invariant);
    if let Some(constraint) = &design.constraint {
        let at = out.len();
        places.constraint = Some(at);
        write_boolean(out, constraint);
        write_field(out, at);
    }
}

fn write_variables(out: &mut Vec<u8>, places: &mut Places, design: &Design) {
    for variable in &design.variables {
        places.variables.push(out.len());
        out.push(match variable.kind {
            Kind::Boolean => 0,
            Kind::Integer => 1,
            Kind::External => 2,
        });
        out.extend_from_slice(&variable.initial.to_le_bytes());
    }
}

fn write_matrices(out: &mut Vec<u8>, places: &mut Places, design: &Design) {
    for matrix in &design.matrices {
        places.matrices.push(out.len());
        out.extend_from_slice(&[matrix.statuses, matrix.events.len() as u8]);
    }
}

fn write_events(out: &mut Vec<u8>, places: &mut Places, design: &Design) {
    for event in design.matrices.iter().flat_map(|m| &m.events) {
        places.events.push(out.len());
        let bytes = boolean_bytes(event);
        out.push(bytes.len() as u8);
        out.extend_from_slice(&bytes);
    }
}

fn write_cell(out: &mut Vec<u8>, cell: &Cell) {
    out.extend_from_slice(&[cell.matrix, cell.status, cell.event]);
    let CellKind::Normal { target, guard, action } = &cell.kind else {
        out.extend_from_slice(&[1, 0, 0, 0, 0]);
        return;
    };
    let guard = guard.as_ref().map_or(Vec::new(), boolean_bytes);
    let action = list_bytes(action);
    out.extend_from_slice(&[0, *target, guard.len() as u8]);
    out.extend_from_slice(&(action.len() as u16).to_le_bytes());
    out.extend_from_slice(&guard);
    out.extend_from_slice(&action);
}

pub fn boolean_bytes(e: &Boolean) -> Vec<u8> {
    let mut out = Vec::new();
    write_boolean(&mut out, e);
    out
}

pub fn integer_bytes(e: &Integer) -> Vec<u8> {
    let mut out = Vec::new();
    write_integer(&mut out, e);
    out
}

pub fn list_bytes(list: &[Statement]) -> Vec<u8> {
    let mut out = Vec::new();
    write_list(&mut out, list);
    out
}

fn write_integer(out: &mut Vec<u8>, e: &Integer) {
    match e {
        Integer::Constant(c) => {
            out.push(0x01);
            out.extend_from_slice(&c.to_le_bytes());
        }
        Integer::Variable(v) => out.extend_from_slice(&[0x02, *v]),
        Integer::Status(m) => out.extend_from_slice(&[0x03, *m]),
        Integer::Sum(a, b) => write_integers(out, 0x04, a, b),
        Integer::Difference(a, b) => write_integers(out, 0x05, a, b),
        Integer::Product(c, a) => {
            out.push(0x08);
            out.extend_from_slice(&c.to_le_bytes());
            write_integer(out, a);
        }
        Integer::NextVariable(v) => out.extend_from_slice(&[0x06, *v]),
        Integer::NextStatus(m) => out.extend_from_slice(&[0x07, *m]),
    }
}

fn write_integers(out: &mut Vec<u8>, operator: u8, a: &Integer, b: &Integer) {
    out.push(operator);
    write_integer(out, a);
    write_integer(out, b);
}

fn write_boolean(out: &mut Vec<u8>, e: &Boolean) {
    match e {
        Boolean::Constant(c) => out.extend_from_slice(&[0x10, *c as u8]),
        Boolean::Variable(v) => out.extend_from_slice(&[0x11, *v]),
        Boolean::Not(a) => {
            out.push(0x12);
            write_boolean(out, a);
        }
        Boolean::And(a, b) => write_booleans(out, 0x13, a, b),
        Boolean::Or(a, b) => write_booleans(out, 0x14, a, b),
        Boolean::Equal(a, b) => write_integers(out, 0x15, a, b),
        Boolean::Less(a, b) => write_integers(out, 0x16, a, b),
        Boolean::NextVariable(v) => out.extend_from_slice(&[0x17, *v]),
    }
}

fn write_booleans(out: &mut Vec<u8>, operator: u8, a: &Boolean, b: &Boolean) {
    out.push(operator);
    write_boolean(out, a);
    write_boolean(out, b);
}

fn write_list(out: &mut Vec<u8>, list: &[Statement]) {
    out.push(list.len() as u8);
    for statement in list {
        write_statement(out, statement);
    }
}

fn write_statement(out: &mut Vec<u8>, statement: &Statement) {
    match statement {
        Statement::AssignInteger(v, e) => {
            out.extend_from_slice(&[0x20, *v]);
            write_integer(out, e);
        }
        Statement::AssignBoolean(v, e) => {
            out.extend_from_slice(&[0x20, *v]);
            write_boolean(out, e);
        }
        Statement::If(condition, then, other) => {
            out.push(0x21);
            write_boolean(out, condition);
            write_list(out, then);
            write_list(out, other);
        }
    }
}
