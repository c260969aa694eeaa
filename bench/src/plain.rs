//! plain.c, called as the library is.

mod node;
mod queue;
mod reliable;
mod stations;

use mant::raw::{Exchange, Fresh, Header, Key, Written};
pub use node::*;
pub use queue::*;
pub use reliable::*;
pub use stations::*;

#[rustfmt::skip]
extern "C" {
    fn plain_read(edition: u64, bytes: *const u8, length: usize) -> Header;
    fn plain_originate(settings: Fresh, payload: *const u8, payload_length: usize, output: *mut u8, output_length: usize) -> Written;
    fn plain_read_exchange(bytes: *const u8, length: usize) -> Exchange;
    fn plain_write_exchange(bytes: *const u8, length: usize, output: *mut u8, output_length: usize) -> Written;
    fn plain_seal(key: Key, number: u64, pdu: *const u8, length: usize, output: *mut u8, output_length: usize) -> Written;
    fn plain_open(
        key: Key, record: *mut u32, words: usize, pdu: *const u8, length: usize, output: *mut u8, output_length: usize,
    ) -> Written;
}

/// `plain_read`.
#[inline]
pub fn read(edition: u64, bytes: &[u8]) -> Header {
    // SAFETY: here and below, pointers and lengths are those of live slices.
    unsafe { plain_read(edition, bytes.as_ptr(), bytes.len()) }
}

/// `plain_originate`.
#[inline]
pub fn originate(settings: Fresh, payload: &[u8], output: &mut [u8]) -> Written {
    // SAFETY: as above.
    unsafe {
        plain_originate(
            settings,
            payload.as_ptr(),
            payload.len(),
            output.as_mut_ptr(),
            output.len(),
        )
    }
}

/// `plain_read_exchange`.
#[inline]
pub fn read_exchange(bytes: &[u8]) -> Exchange {
    // SAFETY: as above.
    unsafe { plain_read_exchange(bytes.as_ptr(), bytes.len()) }
}

/// `plain_write_exchange`.
#[inline]
pub fn write_exchange(bytes: &[u8], output: &mut [u8]) -> Written {
    // SAFETY: as above.
    unsafe {
        plain_write_exchange(
            bytes.as_ptr(),
            bytes.len(),
            output.as_mut_ptr(),
            output.len(),
        )
    }
}

/// `plain_seal`.
#[inline]
pub fn seal(key: Key, number: u64, pdu: &[u8], output: &mut [u8]) -> Written {
    // SAFETY: as above.
    unsafe {
        plain_seal(
            key,
            number,
            pdu.as_ptr(),
            pdu.len(),
            output.as_mut_ptr(),
            output.len(),
        )
    }
}

/// `plain_open`.
#[inline]
pub fn open(key: Key, record: &mut [u32], pdu: &[u8], output: &mut [u8]) -> Written {
    // SAFETY: as above.
    unsafe {
        plain_open(
            key,
            record.as_mut_ptr(),
            record.len(),
            pdu.as_ptr(),
            pdu.len(),
            output.as_mut_ptr(),
            output.len(),
        )
    }
}
