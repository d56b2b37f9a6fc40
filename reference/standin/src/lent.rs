//! What C's parameters say together, as Rust has it.

use reference::entries::{Choices, OwnerAnswer, Piece};
use reference::owners::MAX_OWNERS;
use reference::query::Query;
use std::slice::{from_raw_parts, from_raw_parts_mut};

pub trait Lent<'a> {
    type Form;

    /// The pointers are as host/stm.h says.
    unsafe fn lent(self) -> Self::Form;
}

impl Lent<'_> for (u64,) {
    type Form = u64;

    unsafe fn lent(self) -> u64 {
        self.0
    }
}

impl Lent<'_> for (u16,) {
    type Form = u16;

    unsafe fn lent(self) -> u16 {
        self.0
    }
}

impl<'a, T: 'a> Lent<'a> for (*const T,) {
    type Form = &'a T;

    unsafe fn lent(self) -> &'a T {
        &*self.0
    }
}

impl<'a, T: 'a> Lent<'a> for (*mut T,) {
    type Form = &'a mut T;

    unsafe fn lent(self) -> &'a mut T {
        &mut *self.0
    }
}

impl<'a, T: 'a> Lent<'a> for (*const T, usize) {
    type Form = &'a [T];

    unsafe fn lent(self) -> &'a [T] {
        from_raw_parts(self.0, self.1)
    }
}

impl<'a, T: 'a> Lent<'a> for (*mut T, usize) {
    type Form = &'a mut [T];

    unsafe fn lent(self) -> &'a mut [T] {
        from_raw_parts_mut(self.0, self.1)
    }
}

/// A design, a piece and a property.
impl<'a> Lent<'a> for (*const u8, usize, *const u8, usize, u64) {
    type Form = Query<'a, [u8]>;

    unsafe fn lent(self) -> Query<'a, [u8]> {
        let (design, piece) = (from_raw_parts(self.0, self.1), from_raw_parts(self.2, self.3));
        Query::new(design, self.4).with_piece(piece)
    }
}

/// What the owners ask: places from `count` on are not used.
pub struct Asked<'a> {
    pub count: u64,
    pub pieces: [&'a [u8]; MAX_OWNERS],
    pub budgets: &'a [u64; MAX_OWNERS],
}

impl<'a> Lent<'a> for (u64, *const [Piece; MAX_OWNERS], *const [u64; MAX_OWNERS]) {
    type Form = Asked<'a>;

    unsafe fn lent(self) -> Asked<'a> {
        let pieces = (*self.1).map(|piece| from_raw_parts(piece.bytes, piece.len));
        Asked { count: self.0, pieces, budgets: &*self.2 }
    }
}

/// What the owners are lent and answered.
pub struct Returned<'a> {
    pub choices: [&'a mut [u8]; MAX_OWNERS],
    pub answers: &'a mut [OwnerAnswer; MAX_OWNERS],
}

impl<'a> Lent<'a> for (*mut [Choices; MAX_OWNERS], *mut [OwnerAnswer; MAX_OWNERS]) {
    type Form = Returned<'a>;

    unsafe fn lent(self) -> Returned<'a> {
        let choices = (*self.0).map(|lent| from_raw_parts_mut(lent.choices, lent.len));
        Returned { choices, answers: &mut *self.1 }
    }
}
