//! The serial exchange.

use super::Written;

/// `MANT_EXCHANGE_LIMIT`.
pub const EXCHANGE_LIMIT: usize = 4626;

/// `MANT_EXCHANGE_TYPE`.
pub const EXCHANGE_TYPE: u16 = 20;

/// The element that begins at a place of a run. Places count from the run's
/// first byte. With number 57 every field after it is 0. In C `MantElement`.
#[repr(C)]
#[derive(Clone, Copy, Debug, Default, PartialEq, Eq)]
pub struct Element {
    /// 0, or 57.
    pub number: u8,
    /// Its type.
    pub type_number: u16,
    /// Where its value begins; with an empty one, where it would, which may be
    /// the end of the run.
    pub value_place: usize,
    /// How many bytes the value has.
    pub value_length: usize,
    /// Where the next element begins, or the run ends.
    pub end: usize,
}

/// Where the parts of a PDU lie in an exchange that was read. Places count from
/// its first byte. With a number other than 0 every field after it is 0.
/// In C `MantExchange`.
#[repr(C)]
#[derive(Clone, Copy, Debug, Default, PartialEq, Eq)]
pub struct Exchange {
    /// 0; else 57, 58, 59, 1 to 6 or 63.
    pub number: u8,
    /// Where the header begins in the exchange.
    pub header_place: usize,
    /// How many bytes it has.
    pub header_length: usize,
    /// Where the payload begins; with an empty one, where it would, which may
    /// be the end of the bytes.
    pub payload_place: usize,
    /// How many bytes the payload has.
    pub payload_length: usize,
}

// The sizes that the header asserts.
const _: () = assert!(size_of::<Element>() == 32);
const _: () = assert!(size_of::<Exchange>() == 40);

#[rustfmt::skip]
extern "C" {
    fn mant_element_at(bytes: *const u8, bytes_length: usize, place: usize) -> Element;
    fn mant_read_exchange(bytes: *const u8, bytes_length: usize) -> Exchange;
    fn mant_write_exchange(bytes: *const u8, bytes_length: usize, output: *mut u8, output_length: usize) -> Written;
}

/// `mant_element_at`.
#[inline]
pub fn element_at(bytes: &[u8], place: usize) -> Element {
    // SAFETY: here and below, pointers and lengths are those of live slices,
    // and what is changed is borrowed alone.
    unsafe { mant_element_at(bytes.as_ptr(), bytes.len(), place) }
}

/// `mant_read_exchange`.
#[inline]
pub fn read_exchange(bytes: &[u8]) -> Exchange {
    // SAFETY: as above.
    unsafe { mant_read_exchange(bytes.as_ptr(), bytes.len()) }
}

/// `mant_write_exchange`.
#[inline]
pub fn write_exchange(bytes: &[u8], output: &mut [u8]) -> Written {
    // SAFETY: as above.
    unsafe {
        mant_write_exchange(
            bytes.as_ptr(),
            bytes.len(),
            output.as_mut_ptr(),
            output.len(),
        )
    }
}
