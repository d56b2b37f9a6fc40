//! Known designs: Design A of document 01, the Money-Changer of source 001, and small designs of our own.

mod large;
mod long;
mod money_changer;
mod small;
pub mod terms;

pub use large::{chain, design_of_variables, most_gates, LARGE_BOUNDS};
pub use long::long_tests;
pub use money_changer::{
    money_changer, state_properties, Property, Version, ALL_PROPERTIES, ORIGINAL_PROPERTIES,
};
pub use small::{
    barrier, branch_taken, crossing_turns, design_a, later_mark, minus_three, moved, mutex,
    negated, no_idle, peterson, raised_next, vending, wrapping_guard,
};

use crate::builder::{boolean_bytes, file_bytes};

/// The name and the bytes of every known design file.
pub fn all_files() -> Vec<(String, Vec<u8>)> {
    let mut files = vec![("design-a.stm".to_string(), file_bytes(&design_a()))];
    for property in ORIGINAL_PROPERTIES {
        let name = format!("money-changer-{}.stm", property.name());
        files.push((name, file_bytes(&money_changer(Version::Original, property))));
    }
    for property in ALL_PROPERTIES {
        let name = format!("money-changer-revised-{}.stm", property.name());
        files.push((name, file_bytes(&money_changer(Version::Revised, property))));
    }
    for (name, design) in small::all() {
        files.push((format!("{name}.stm"), file_bytes(&design)));
    }
    files.push(("most-gates.stm".to_string(), file_bytes(&most_gates())));
    files.push(("long-tests.stm".to_string(), file_bytes(&long_tests())));
    files
}

/// The properties of the Money-Changer that are about one state, as pieces.
pub fn money_changer_pieces() -> Vec<(String, Vec<u8>)> {
    let piece = |property: Property| {
        (format!("money-changer-{}.piece", property.name()), boolean_bytes(&property.invariant()))
    };
    state_properties().map(piece).collect()
}

/// The name and the bytes of every known piece.
pub fn all_pieces() -> Vec<(String, Vec<u8>)> {
    let named = |(name, e): (&str, _)| (format!("{name}.piece"), boolean_bytes(&e));
    let mut pieces = money_changer_pieces();
    pieces.extend(small::exclusion_pieces().map(named));
    pieces
}
