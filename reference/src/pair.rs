//! The two states that an expression reads.

/// The earlier state and the next one. Whatever may not read the next state is
/// given one state twice.
pub struct Pair<'a, S: ?Sized> {
    pub earlier: &'a S,
    pub next: &'a S,
}

impl<S: ?Sized> Clone for Pair<'_, S> {
    fn clone(&self) -> Self {
        *self
    }
}

impl<S: ?Sized> Copy for Pair<'_, S> {}

impl<'a, S: ?Sized> Pair<'a, S> {
    pub fn one(state: &'a S) -> Pair<'a, S> {
        Pair { earlier: state, next: state }
    }
}
