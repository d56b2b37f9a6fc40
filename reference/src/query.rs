//! What every call with a property asks about, and the refusals that these
//! calls share.

use crate::design::{check, refusal, Boolean, Design, Refusal};
use std::borrow::Cow;

/// The numbers of the properties.
pub const INVARIANT: u64 = 0;
pub const NO_INVALID_CELL: u64 = 1;
pub const CONSTRAINT: u64 = 2;
/// The greatest bound, and the most choices that REPLAY takes.
pub const MAX_BOUND: u64 = 100;
/// The longest piece, in bytes.
pub const MAX_PIECE: usize = 16_384;

/// A design, a piece and a property. The design is its lent bytes, or what
/// CHECK reads from them. The piece is a property kept outside the design: if
/// it has any bytes, property 0 is its expression in place of the file's
/// invariant. Other properties do not read it.
#[derive(Debug)]
pub struct Query<'a, D: ?Sized> {
    pub design: &'a D,
    pub piece: &'a [u8],
    pub property: u64,
}

impl<D: ?Sized> Clone for Query<'_, D> {
    fn clone(&self) -> Self {
        *self
    }
}

impl<D: ?Sized> Copy for Query<'_, D> {}

impl<'a, D: ?Sized> Query<'a, D> {
    /// With an empty piece.
    pub fn new(design: &'a D, property: u64) -> Query<'a, D> {
        Query { design, piece: &[], property }
    }

    pub fn with_piece(self, piece: &'a [u8]) -> Query<'a, D> {
        Query { piece, ..self }
    }

    /// Whether the call reads the piece.
    pub fn reads_piece(&self) -> bool {
        self.property == INVARIANT && !self.piece.is_empty()
    }
}

impl Query<'_, [u8]> {
    /// CHECK's refusal, or the answer for the design that it reads.
    pub fn checked<T>(
        self,
        answer: impl FnOnce(Query<Design>) -> Result<T, Refusal>,
    ) -> Result<T, Refusal> {
        answer(Query::new(&check(self.design)?, self.property).with_piece(self.piece))
    }
}

/// What a property says.
#[derive(Clone, Debug, PartialEq, Eq)]
pub enum Claim<'a> {
    /// The file's, or a piece's.
    Invariant(Cow<'a, Boolean>),
    NoInvalidCell,
    /// It is about two successive states.
    Constraint(&'a Boolean),
}

impl<'a> Query<'a, Design> {
    /// 13 where the design has no property of this number, then 8 for a piece
    /// that is read and is no property.
    pub fn check_property(&self) -> Result<Claim<'a>, Refusal> {
        match self.property {
            INVARIANT => Ok(Claim::Invariant(self.invariant()?)),
            NO_INVALID_CELL => Ok(Claim::NoInvalidCell),
            CONSTRAINT => {
                self.design.constraint.as_ref().map(Claim::Constraint).ok_or(refusal(13, 0))
            }
            _ => Err(refusal(13, 0)),
        }
    }

    /// The expression of property 0: the piece's if it has any bytes, else the
    /// file's. The piece's names are the design's.
    fn invariant(&self) -> Result<Cow<'a, Boolean>, Refusal> {
        if self.piece.is_empty() {
            return Ok(Cow::Borrowed(&self.design.invariant));
        }
        if self.piece.len() > MAX_PIECE {
            return Err(refusal(8, 0));
        }
        self.design.expression(self.piece).map(Cow::Owned).ok_or(refusal(8, 0))
    }

    /// 13 for a property that one state does not decide, too.
    pub fn check_state_property(&self) -> Result<Claim<'a>, Refusal> {
        match self.check_property()? {
            Claim::Constraint(_) => Err(refusal(13, 0)),
            claim => Ok(claim),
        }
    }

    /// 13, 8 for the piece, then 14 for a bound or a number of choices.
    pub fn check_bound(&self, bound: u64) -> Result<Claim<'a>, Refusal> {
        let claim = self.check_property()?;
        if bound > MAX_BOUND {
            Err(refusal(14, 0))
        } else {
            Ok(claim)
        }
    }
}
