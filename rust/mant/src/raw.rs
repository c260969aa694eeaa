//! The C library as `include/mant.h` declares it, its structs passed through as
//! they are. Slices go in as a pointer and a length, which is all that the
//! library asks of a caller, so these functions are safe. The header says what
//! each returns, under its name in C.

mod exchange;
mod lists;
mod node;
mod originating;
mod planning;
mod queue;
mod reading;
mod reliable;
mod sealed;
mod stations;

pub use exchange::*;
pub use lists::*;
pub use node::*;
pub use originating::*;
pub use planning::*;
pub use queue::*;
pub use reading::*;
pub use reliable::*;
pub use sealed::*;
pub use stations::*;

/// Edition 1.1 as a number, `MANT_EDITION_1_1`.
pub const EDITION_1_1: u64 = 11;
/// Edition 1.2 as a number, `MANT_EDITION_1_2`.
pub const EDITION_1_2: u64 = 12;

/// `MANT_NO_NUMBER`.
pub const NO_NUMBER: u8 = 255;

/// What writing answers: number 0 and how many bytes were written, or the
/// refusal's number and length 0.
/// In C `MantWritten`.
#[repr(C)]
#[derive(Clone, Copy, Debug, Default, PartialEq, Eq)]
pub struct Written {
    /// 0, or the number of the refusal.
    pub number: u8,
    /// How many bytes were written.
    pub length: usize,
}

// The size that the header asserts.
const _: () = assert!(size_of::<Written>() == 16);
