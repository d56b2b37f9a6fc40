//! Pieces, good and bad ones: properties kept outside the design.

use super::trees::{boolean_of_length, breakable, Trees};
use crate::builder::{boolean_bytes, integer_bytes};
use crate::design::{Boolean, Design, Integer, MAX_DEPTH};
use crate::query::MAX_PIECE;
use crate::random::Random;

/// None, a good one, a bad one, or one as long as a piece may be or longer.
pub fn any_piece(random: &mut Random, design: &Design) -> Vec<u8> {
    match random.below(100) {
        0..=34 => vec![],
        35..=64 => good_piece(random, design),
        65..=96 => bad_piece(random, design),
        _ => long_piece(random),
    }
}

/// A property of the design: mostly a short one, which a few steps may break.
pub fn good_piece(random: &mut Random, design: &Design) -> Vec<u8> {
    let e = match random.below(12) {
        0..=5 => breakable(random, design),
        6 => design.invariant.clone(),
        7 => trees(random, design).with_products(50).boolean(3),
        8 => trees(random, design).boolean(MAX_DEPTH as usize),
        _ => {
            let depth = random.between(1, 4);
            trees(random, design).boolean(depth)
        }
    };
    boolean_bytes(&e)
}

/// Mostly one fault. A damaged piece may be a good one all the same.
fn bad_piece(random: &mut Random, design: &Design) -> Vec<u8> {
    match random.below(8) {
        0 => cut_short(random, design),
        1 => [good_piece(random, design), vec![random.pick(&[0, 1, 0x10, 0x13, 255])]].concat(),
        2 => integer_bytes(&trees(random, design).integer(2)),
        3 => boolean_bytes(&trees(random, design).boolean(MAX_DEPTH as usize + 1)),
        4 | 5 => next_state(random, design),
        6 => boolean_bytes(&naming_nothing(random, design)),
        _ => damaged(random, design),
    }
}

fn trees<'a>(random: &'a mut Random, design: &Design) -> Trees<'a> {
    Trees::new(random, &design.variables, design.matrices.len())
}

fn cut_short(random: &mut Random, design: &Design) -> Vec<u8> {
    let mut piece = good_piece(random, design);
    piece.truncate(random.between(1, piece.len() - 1));
    piece
}

/// A piece that a constraint might be. It may read the earlier state alone.
fn next_state(random: &mut Random, design: &Design) -> Vec<u8> {
    let depth = random.between(1, 4);
    boolean_bytes(&trees(random, design).constraint(depth))
}

/// It names a variable or matrix just past the last one, or a variable of the
/// other kind.
fn naming_nothing(random: &mut Random, design: &Design) -> Boolean {
    let variables = design.variables.len();
    let v = random.between(0, variables) as u8;
    let zero = Integer::Constant(0);
    match random.below(3) {
        0 => Boolean::Equal(Integer::Status(design.matrices.len() as u8), zero),
        1 => Boolean::Less(zero, Integer::Variable(v)),
        _ => Boolean::Variable(v),
    }
}

fn damaged(random: &mut Random, design: &Design) -> Vec<u8> {
    let mut piece = good_piece(random, design);
    let at = random.below(piece.len());
    piece[at] = random.pick(&[0, 1, 2, 3, 8, 9, 0x0f, 0x10, 0x11, 0x18, 0x20, 255]);
    piece
}

/// An expression of constants, as long as a piece may be, one byte shorter, or
/// too long.
fn long_piece(random: &mut Random) -> Vec<u8> {
    let length = random.pick(&[MAX_PIECE - 1, MAX_PIECE, MAX_PIECE, MAX_PIECE + 1, MAX_PIECE + 2]);
    boolean_bytes(&boolean_of_length(random, length))
}
