//! Products: their constants, designs with one, and expressions that miss a legal product by a little.

use crate::builder::Places;
use crate::design::{
    Boolean, Cell, CellKind, Design, Integer, Kind, Matrix, Statement, Variable, CONSTRAINT_FIELD,
    MAX_DEPTH, TRAILER_LENGTH,
};
use crate::random::Random;
use std::ops::Range;

/// A constant, often at an end of the range or of one set bit.
pub fn constant(random: &mut Random) -> i16 {
    match random.below(4) {
        0 | 1 => random.pick(&[i16::MIN, -1, 0, 1, i16::MAX]),
        2 => random.pick(&[2, 3, -2, -3, 10, 256, 0x5555, 0x4000, -0x5556]),
        _ => random.word() as i16,
    }
}

/// One mover, and one product: in the action, the guard, the invariant, the constraint or the event; or in the action one of
/// another. So a search over it is affordable. What is judged breaks at step 0 or 1, or never.
pub fn product_design(random: &mut Random) -> Design {
    let (c, initial) = (constant(random), random.pick(&[0, 1, -1, 3, i16::MAX, i16::MIN]));
    let x = || Integer::Variable(0);
    let product = |of: Integer| Integer::Product(c, Box::new(of));
    let differs = |a, b| Boolean::Not(Box::new(Boolean::Equal(a, Integer::Constant(b))));
    let place = random.below(6);
    let (next, after) = match place {
        0 => (product(x()), initial.wrapping_mul(c)),
        5 => (product(Integer::Product(3, Box::new(x()))), initial.wrapping_mul(3).wrapping_mul(c)),
        _ => (
            Integer::Difference(Box::new(x()), Box::new(Integer::Constant(1))),
            initial.wrapping_sub(1),
        ),
    };
    let below_x = || Boolean::Less(product(x()), x());
    let guard = (place == 1).then(below_x);
    let event = if place == 4 { below_x() } else { Boolean::Constant(true) };
    let invariant = match place {
        2 => differs(product(x()), after.wrapping_mul(c)),
        _ => differs(x(), after),
    };
    let constraint =
        (place == 3).then(|| differs(product(Integer::NextVariable(0)), after.wrapping_mul(c)));
    let kind =
        CellKind::Normal { target: 0, guard, action: vec![Statement::AssignInteger(0, next)] };
    Design {
        variables: vec![Variable { kind: Kind::Integer, initial }],
        matrices: vec![Matrix { statuses: 1, events: vec![event] }],
        cells: vec![Cell { matrix: 0, status: 0, event: 0, kind }],
        invariant,
        constraint,
    }
}

/// The bytes of an integer leaf, and of a product's constant.
const LEAF: [u8; 3] = [0x01, 7, 0];
const THREE: [u8; 2] = [3, 0];

/// A Boolean expression with a product whose constant is cut off or missing, whose operand is missing, too deep or of the wrong
/// kind, that stands for a Boolean, or whose operator is the one after it; or a legal one.
fn near_product(random: &mut Random) -> Vec<u8> {
    let most = MAX_DEPTH as usize - 2;
    let chain = |products: usize| [[0x08, 3, 0].repeat(products), LEAF.to_vec()].concat();
    let compared = |e: Vec<u8>| [vec![0x16], LEAF.to_vec(), e].concat();
    match random.below(9) {
        0 => compared(vec![0x08]),
        1 => compared(vec![0x08, 3]),
        2 => compared([vec![0x08], THREE.to_vec()].concat()),
        3 => compared([vec![0x08], THREE.to_vec(), vec![0x10, 1]].concat()),
        4 => compared(chain(most + 1)),
        5 => compared(chain(most)),
        6 => compared([vec![0x09], THREE.to_vec(), LEAF.to_vec()].concat()),
        7 => chain(1),
        _ => compared([vec![0x08], LEAF.to_vec()].concat()),
    }
}

/// Puts such an expression into an event, a guard, an action, the invariant or the constraint. The file is as it was built.
pub fn put_near_product(random: &mut Random, file: &mut Vec<u8>, places: &Places) {
    let e = near_product(random);
    let end = places.constraint.unwrap_or(places.trailer);
    match random.below(5) {
        0 => {
            let at = random.pick(&places.events);
            replace(file, at + 1..at + 1 + file[at] as usize, &e);
            file[at] = e.len() as u8;
        }
        1 | 2 if !places.cells.is_empty() => put_in_cell(random, file, places, &e),
        3 if places.constraint.is_some() => {
            replace(file, end..places.trailer - CONSTRAINT_FIELD, &e);
        }
        _ => replace(file, places.invariant..end, &e),
    }
}

/// In a cell's guard, or as the condition of an action's one statement.
fn put_in_cell(random: &mut Random, file: &mut Vec<u8>, places: &Places, e: &[u8]) {
    let at = random.pick(&places.cells);
    let (guard, action) = (file[at + 5] as usize, [file[at + 6], file[at + 7]]);
    let action = u16::from_le_bytes(action) as usize;
    let body = at + 8;
    if random.chance(50) {
        replace(file, body..body + guard, e);
        file[at + 5] = e.len() as u8;
    } else {
        let list = [&[1, 0x21][..], e, &[0, 0]].concat();
        replace(file, body + guard..body + guard + action, &list);
        file[at + 6..at + 8].copy_from_slice(&(list.len() as u16).to_le_bytes());
    }
}

/// Puts other bytes in the place of some, and moves the offsets after them.
fn replace(file: &mut Vec<u8>, range: Range<usize>, bytes: &[u8]) {
    let (start, longer) = (range.start, bytes.len() as i32 - range.len() as i32);
    file.splice(range, bytes.iter().copied());
    let trailer = file.len() - TRAILER_LENGTH;
    let mut fields: Vec<usize> = [2, 4, 5, 7].map(|field| trailer + 2 * field).to_vec();
    if file[trailer] == 2 {
        fields.push(trailer - CONSTRAINT_FIELD);
    }
    for field in fields {
        let offset = u16::from_le_bytes([file[field], file[field + 1]]) as i32;
        if offset > start as i32 {
            let moved = (offset + longer) as u16;
            file[field..field + 2].copy_from_slice(&moved.to_le_bytes());
        }
    }
}
