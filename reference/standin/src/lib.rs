//! The C entries of host/stm.h over the second implementation. The host's tests run on it as on the proved archive, so that a
//! fault of the host can be told from a fault of the archive.

mod answers;
mod lent;

use lent::Lent;

/// A program that is linked with this archive tells it from the proved one, which has no such symbol. A weak reference to it takes in no
/// object by itself, so it has to stand in the entries' own: Cargo.toml has this package compiled as one unit.
#[no_mangle]
#[allow(non_upper_case_globals)]
pub static stm_second_implementation: u8 = 1;

macro_rules! define {
    ($($name:ident[$(($($parameter:ident: $kind:ty),+))*];)*) => {$(
        /// # Safety
        /// As host/stm.h says: pointers are not null, and what is lent to one call does not overlap.
        #[no_mangle]
        #[allow(clippy::too_many_arguments)]
        pub unsafe extern "C" fn $name($($($parameter: $kind),+),*) -> u64 {
            answers::$name($(($($parameter,)+).lent()),*)
        }
    )*};
}

reference::entries!(define);
