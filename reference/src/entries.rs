//! The C entries of `host/stm.h`, declared once for Rust. Each returns a u64.

/// One owner's piece, as C lends it.
#[repr(C)]
#[derive(Clone, Copy)]
pub struct Piece {
    pub bytes: *const u8,
    pub len: usize,
}

/// One owner's choice buffer, as C lends it.
#[repr(C)]
#[derive(Clone, Copy)]
pub struct Choices {
    pub choices: *mut u8,
    pub len: usize,
}

/// What `stm_owners` answers an owner: the number and the place of its refusal,
/// or 0 twice and then what `stm_verdict` answers.
pub type OwnerAnswer = [u64; 5];

/// Gives every entry to the macro that is named, which declares or defines it.
/// Brackets hold the parameters as C passes them; parentheses part them by
/// what they say together: a slice is a pointer and a number of elements, a
/// query is a design, a piece and a property, and several owners are two
/// groups: their number with pieces and budgets, and choice buffers with
/// answers.
#[macro_export]
macro_rules! entries {
    ($each:ident) => {
        $each! {
            stm_check[
                (design: *const u8, design_len: usize)
            ];
            stm_start[
                (design: *const u8, design_len: usize)
                (values: *mut [i16; $crate::design::MAX_VARIABLES])
                (statuses: *mut [u16; $crate::design::MAX_MATRICES])
                (mark: *mut [u16; 1])
            ];
            stm_step[
                (design: *const u8, design_len: usize)
                (values: *mut [i16; $crate::design::MAX_VARIABLES])
                (statuses: *mut [u16; $crate::design::MAX_MATRICES])
                (mark: *mut [u16; 1])
                (choice: u64)
                (idle: *mut [u8; 1])
            ];
            stm_holds[
                (design: *const u8, design_len: usize)
                (values: *const [i16; $crate::design::MAX_VARIABLES])
                (statuses: *const [u16; $crate::design::MAX_MATRICES])
                (mark: u16)
                (property: u64)
                (holds: *mut [u8; 1])
            ];
            stm_replay[
                (design: *const u8, design_len: usize, piece: *const u8, piece_len: usize, property: u64)
                (choices: *const u8, choices_len: usize)
                (answer: *mut [u64; 4])
            ];
            stm_size[
                (design: *const u8, design_len: usize, piece: *const u8, piece_len: usize, property: u64)
                (bound: u64)
                (answer: *mut [u64; 7])
            ];
            stm_encode[
                (design: *const u8, design_len: usize, piece: *const u8, piece_len: usize, property: u64)
                (bound: u64)
                (part: u64)
                (clauses: *mut i32, clauses_len: usize)
                (answer: *mut [u64; 1])
            ];
            stm_solve[
                (n: u64)
                (words: *const i32, words_len: usize)
                (values: *mut u8, values_len: usize)
                (trail: *mut u32, trail_len: usize)
                (budget: u64)
                (answer: *mut [u64; 2])
            ];
            stm_refute[
                (n: u64)
                (words: *const i32, words_len: usize)
                (refutation: *const i32, refutation_len: usize)
                (values: *mut u8, values_len: usize)
                (answer: *mut [u64; 2])
            ];
            stm_decode[
                (design: *const u8, design_len: usize, piece: *const u8, piece_len: usize, property: u64)
                (bound: u64)
                (values: *const u8, values_len: usize)
                (choices: *mut u8, choices_len: usize)
            ];
            stm_verdict[
                (design: *const u8, design_len: usize, piece: *const u8, piece_len: usize, property: u64)
                (bound: u64)
                (budget: u64)
                (clauses: *mut i32, clauses_len: usize)
                (values: *mut u8, values_len: usize)
                (trail: *mut u32, trail_len: usize)
                (choices: *mut u8, choices_len: usize)
                (answer: *mut [u64; 3])
            ];
            stm_owners[
                (design: *const u8, design_len: usize)
                (bound: u64)
                (
                    owners: u64,
                    pieces: *const [$crate::entries::Piece; $crate::owners::MAX_OWNERS],
                    budgets: *const [u64; $crate::owners::MAX_OWNERS]
                )
                (clauses: *mut i32, clauses_len: usize)
                (values: *mut u8, values_len: usize)
                (trail: *mut u32, trail_len: usize)
                (
                    choices: *mut [$crate::entries::Choices; $crate::owners::MAX_OWNERS],
                    answers: *mut [$crate::entries::OwnerAnswer; $crate::owners::MAX_OWNERS]
                )
            ];
        }
    };
}
