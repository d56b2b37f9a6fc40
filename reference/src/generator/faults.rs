//! Faults in design files: in single bytes, in counts, offsets and lengths,
//! in whole items, and in trees that are too deep.

use super::products::put_near_product;
use super::trees::{design, Plan, Trees};
use crate::builder::{file_with_places, Places};
use crate::design::{
    Boolean, CellKind, Design, Integer, Statement, CONSTRAINT_FIELD, CONSTRAINT_VERSION, MAX_FILE,
    MAX_VARIABLES, TRAILER_LENGTH,
};
use crate::random::Random;

const OPERATORS: [u8; 21] = [
    0x00, 0x01, 0x02, 0x03, 0x04, 0x05, 0x06, 0x07, 0x08, 0x09, 0x0f, 0x10, 0x11, 0x12, 0x13, 0x14,
    0x15, 0x16, 0x17, 0x20, 0x21,
];

/// The file of a design of this plan, with up to three faults.
pub fn faulty_file(random: &mut Random, plan: Plan) -> Vec<u8> {
    let tree = design(random, plan);
    damaged(random, tree)
}

/// The file of a design, with up to three faults.
pub fn damaged(random: &mut Random, mut tree: Design) -> Vec<u8> {
    let in_tree = random.chance(20);
    if in_tree {
        tree_fault(random, &mut tree);
    }
    let (mut file, places) = file_with_places(&tree);
    if !in_tree && random.chance(15) {
        put_near_product(random, &mut file, &places);
    }
    for _ in 0..random.between(0, 3) {
        byte_fault(random, &mut file, &places);
    }
    file
}

/// A file at or beyond an end of the permitted lengths.
pub fn file_of_edge_length(random: &mut Random) -> Vec<u8> {
    let lengths = [0, 1, 15, 16, 17, 18, 19, 25, 27, MAX_FILE - 1, MAX_FILE, MAX_FILE + 1, 16_400];
    let length = random.pick(&lengths);
    let mut file = vec![0; length];
    for byte in &mut file {
        *byte = random.pick(&OPERATORS);
    }
    if length >= TRAILER_LENGTH && random.chance(70) {
        let at = length - TRAILER_LENGTH;
        file[at..].copy_from_slice(&[1, 0, 0, 0, 0, 0, 1, 0, 2, 0, 5, 0, 0, 0, 5, 0]);
        file[at] = random.pick(&[1, 2, 2, 3]);
        file[..at.min(2)].fill(1);
    }
    file
}

/// One place of the tree becomes too deep, names nothing, or just fits.
fn tree_fault(random: &mut Random, tree: &mut Design) {
    let depth = random.pick(&[16, 17, 17, 18]);
    let ifs = random.pick(&[4, 5, 5, 6]);
    let mut trees = Trees::new(random, &tree.variables, tree.matrices.len());
    let deep = trees.boolean(depth);
    let list = trees.list(2, 2, 0);
    let deep = match random.below(10) {
        0..=2 => unnamed(random),
        3..=5 => next_read(random),
        _ => deep,
    };
    match random.below(5) {
        0 => tree.invariant = deep,
        1 => *random_event(random, tree) = deep,
        2 => set_guard(random, tree, deep),
        3 => tree.constraint = Some(deep),
        _ => set_action(random, tree, deep, nested_ifs(ifs, list)),
    }
}

/// A variable that mostly does not exist or is of another kind.
fn unnamed(random: &mut Random) -> Boolean {
    Boolean::Variable(random.pick(&[0, 1, 2, MAX_VARIABLES as u8 - 1, MAX_VARIABLES as u8, 255]))
}

/// An expression that reads the next state, which only a constraint may. It
/// may also name what does not exist.
fn next_read(random: &mut Random) -> Boolean {
    let name = random.pick(&[0, 0, 1, 2, 7, 8, MAX_VARIABLES as u8]);
    match random.below(3) {
        0 => Boolean::NextVariable(name),
        1 => Boolean::Less(Integer::NextVariable(name), Integer::Constant(0)),
        _ => Boolean::Equal(Integer::Constant(0), Integer::NextStatus(name)),
    }
}

fn random_event<'a>(random: &mut Random, tree: &'a mut Design) -> &'a mut Boolean {
    let matrix = random.below(tree.matrices.len());
    let events = &mut tree.matrices[matrix].events;
    let event = random.below(events.len());
    &mut events[event]
}

fn random_cell<'a>(random: &mut Random, tree: &'a mut Design) -> Option<&'a mut CellKind> {
    if tree.cells.is_empty() {
        return None;
    }
    let cell = random.below(tree.cells.len());
    Some(&mut tree.cells[cell].kind)
}

fn set_guard(random: &mut Random, tree: &mut Design, deep: Boolean) {
    if let Some(CellKind::Normal { guard, .. }) = random_cell(random, tree) {
        *guard = Some(deep);
    }
}

fn set_action(random: &mut Random, tree: &mut Design, deep: Boolean, nested: Statement) {
    let use_deep = random.chance(30);
    if let Some(CellKind::Normal { action, .. }) = random_cell(random, tree) {
        let statement = if use_deep { Statement::If(deep, vec![], vec![]) } else { nested };
        action.push(statement);
    }
}

/// Ifs inside one another, in then-lists and else-lists by turns.
fn nested_ifs(ifs: usize, inner: Vec<Statement>) -> Statement {
    let list = if ifs > 1 { vec![nested_ifs(ifs - 1, inner)] } else { inner };
    let in_then = ifs.is_multiple_of(2);
    let condition = Boolean::Constant(in_then);
    if in_then {
        Statement::If(condition, list, vec![])
    } else {
        Statement::If(condition, vec![], list)
    }
}

/// Changes the file in one way; the file may have other faults already.
fn byte_fault(random: &mut Random, file: &mut Vec<u8>, places: &Places) {
    match random.below(17) {
        0 | 1 => trailer_fault(random, file),
        14 | 15 => constraint_fault(random, file, places),
        16 => version_fault(random, file),
        2 => nudge_item(random, file, &places.variables, 3),
        3 => nudge_item(random, file, &places.matrices, 2),
        4 => nudge_item(random, file, &places.events, 1),
        5 | 6 => nudge_item(random, file, &places.cells, 8),
        7 | 8 => expression_fault(random, file, places),
        9 => change_length(random, file),
        10 => move_byte(random, file),
        11 => truncate(random, file),
        12 => swap_cells(random, file, places),
        _ => flip(random, file),
    }
}

/// Adds or takes 1, or sets a byte that is seldom right.
fn nudge(random: &mut Random, file: &mut [u8], at: usize) {
    let Some(byte) = file.get_mut(at) else {
        return;
    };
    *byte = match random.below(4) {
        0 => byte.wrapping_add(1),
        1 => byte.wrapping_sub(1),
        2 => random.pick(&[0, 1, 2, 3, 8, 9, 16, 17, 32, 33, 255]),
        _ => random.word() as u8,
    };
}

fn nudge_item(random: &mut Random, file: &mut [u8], items: &[usize], width: usize) {
    if !items.is_empty() {
        let at = random.pick(items) + random.below(width);
        nudge(random, file, at);
    }
}

fn trailer_fault(random: &mut Random, file: &mut [u8]) {
    let Some(trailer) = file.len().checked_sub(TRAILER_LENGTH) else {
        return;
    };
    let byte = random.below(TRAILER_LENGTH);
    nudge(random, file, trailer + byte);
}

/// The version becomes another one; the rest of the file stays.
fn version_fault(random: &mut Random, file: &mut [u8]) {
    if let Some(trailer) = file.len().checked_sub(TRAILER_LENGTH) {
        file[trailer] = random.pick(&[0, 1, 1, 2, 2, 2, 3]);
    }
}

/// The constraint is empty, or its offset is at or next to one of its limits or
/// far away.
fn constraint_fault(random: &mut Random, file: &mut Vec<u8>, places: &Places) {
    let Some(constraint) = places.constraint else {
        return version_fault(random, file);
    };
    let Some(end) = file.len().checked_sub(TRAILER_LENGTH + CONSTRAINT_FIELD) else {
        return;
    };
    if constraint < end && random.chance(20) {
        file.drain(constraint..end);
        return;
    }
    let near = random.pick(&[places.invariant, constraint, end]) + random.below(3);
    let offset = random.pick(&[near, near, near, near, 1, end + 3, 0x1_0000]) - 1;
    file[end..end + CONSTRAINT_FIELD].copy_from_slice(&(offset as u16).to_le_bytes());
}

/// Any byte after the matrices takes the value of an operator.
fn expression_fault(random: &mut Random, file: &mut [u8], places: &Places) {
    let start = places.events.first().copied().unwrap_or(0);
    let end = places.trailer.min(file.len());
    if start < end {
        let at = random.between(start, end - 1);
        file[at] = random.pick(&OPERATORS);
    }
}

/// Inserts or removes a byte without telling the offsets.
fn change_length(random: &mut Random, file: &mut Vec<u8>) {
    let at = random.between(0, file.len());
    if random.chance(50) {
        file.insert(at, random.pick(&OPERATORS));
    } else if at < file.len() {
        file.remove(at);
    }
}

/// Where the items end, by the version that the file tells.
fn items_end(file: &[u8]) -> Option<usize> {
    let trailer = file.len().checked_sub(TRAILER_LENGTH)?;
    let version = u16::from_le_bytes([file[trailer], file[trailer + 1]]);
    let constraint = if version == CONSTRAINT_VERSION { CONSTRAINT_FIELD } else { 0 };
    trailer.checked_sub(constraint)
}

/// Inserts or removes a byte and moves the offsets after it, so that the
/// sections still abut.
fn move_byte(random: &mut Random, file: &mut Vec<u8>) {
    let Some(end) = items_end(file).filter(|end| *end > 0) else {
        return;
    };
    let at = random.below(end);
    let added = random.chance(50);
    if added {
        file.insert(at, random.pick(&OPERATORS));
    } else {
        file.remove(at);
    }
    let trailer = file.len() - TRAILER_LENGTH;
    for field in [2, 4, 5, 7] {
        move_offset(&mut file[trailer + 2 * field..trailer + 2 * field + 2], at, added);
    }
    let end = if added { end + 1 } else { end - 1 };
    if end < trailer {
        move_offset(&mut file[end..trailer], at, added);
    }
}

fn move_offset(field: &mut [u8], at: usize, added: bool) {
    let offset = u16::from_le_bytes([field[0], field[1]]);
    if offset as usize > at {
        let moved = if added { offset.wrapping_add(1) } else { offset - 1 };
        field.copy_from_slice(&moved.to_le_bytes());
    }
}

/// Cuts at the end, or just before the trailer.
fn truncate(random: &mut Random, file: &mut Vec<u8>) {
    let cut = random.pick(&[1, 1, 2, 3, 8, 20]).min(file.len());
    if random.chance(50) || file.len() < TRAILER_LENGTH + cut {
        file.truncate(file.len() - cut);
    } else {
        let end = file.len() - TRAILER_LENGTH;
        file.drain(end - cut..end);
    }
}

/// Exchanges the places, but not the contents, of two neighbouring cells, or
/// gives both the same place.
fn swap_cells(random: &mut Random, file: &mut [u8], places: &Places) {
    if places.cells.len() < 2 {
        return;
    }
    let first = random.below(places.cells.len() - 1);
    let (a, b) = (places.cells[first], places.cells[first + 1]);
    if b + 3 > file.len() {
        return;
    }
    let exchange = random.chance(50);
    for i in 0..3 {
        if exchange {
            file.swap(a + i, b + i);
        } else {
            file[b + i] = file[a + i];
        }
    }
}

fn flip(random: &mut Random, file: &mut [u8]) {
    if !file.is_empty() {
        let at = random.below(file.len());
        file[at] ^= 1 << random.below(8);
    }
}
