//! Payloads enciphered under a key, and opened once.

use super::Written;

/// `MANT_SOURCE_LIMIT`.
pub const SOURCE_LIMIT: usize = 64;
/// The words of a `MantSources`: how many sources are held, and two for each. It
/// is empty if the first is 0.
pub const SOURCE_WORDS: usize = 129;
/// `MANT_SEAL_LENGTH`.
pub const SEAL_LENGTH: usize = 7;
/// `MANT_NUMBER_LIMIT`.
pub const NUMBER_LIMIT: u64 = 16_777_215;

/// A key of AES-128.
/// In C `MantKey`.
#[repr(C)]
#[derive(Clone, Copy, Default, PartialEq, Eq)]
pub struct Key {
    /// The key.
    pub bytes: [u8; 16],
}

impl std::fmt::Debug for Key {
    fn fmt(&self, f: &mut std::fmt::Formatter) -> std::fmt::Result {
        f.write_str("Key(..)")
    }
}

/// The message number of a sealed PDU, or why there is none.
/// In C `MantNumbered`.
#[repr(C)]
#[derive(Clone, Copy, Debug, Default, PartialEq, Eq)]
pub struct Numbered {
    /// 0, or the refusal.
    pub number: u8,
    /// The message number, 0 with a refusal.
    pub message: u32,
}

// The sizes that the header asserts.
const _: () = assert!(size_of::<Key>() == 16);
const _: () = assert!(size_of::<Numbered>() == 8);

#[rustfmt::skip]
extern "C" {
    fn mant_seal(key: Key, number: u64, pdu: *const u8, pdu_length: usize, output: *mut u8, output_length: usize) -> Written;
    fn mant_open(
        key: Key, record: *mut [u32; SOURCE_WORDS], pdu: *const u8, pdu_length: usize, output: *mut u8, output_length: usize,
    ) -> Written;
    fn mant_message_number(pdu: *const u8, pdu_length: usize) -> Numbered;
    fn mant_remove_source(record: *mut [u32; SOURCE_WORDS], source: u16) -> bool;
}

/// `mant_seal`.
#[inline]
pub fn seal(key: Key, number: u64, pdu: &[u8], output: &mut [u8]) -> Written {
    // SAFETY: here and below, the record is a live one, pointers and lengths are
    // those of live slices, and what is changed is borrowed alone.
    unsafe {
        mant_seal(
            key,
            number,
            pdu.as_ptr(),
            pdu.len(),
            output.as_mut_ptr(),
            output.len(),
        )
    }
}

/// `mant_open`.
#[inline]
pub fn open(key: Key, record: &mut [u32; SOURCE_WORDS], pdu: &[u8], output: &mut [u8]) -> Written {
    // SAFETY: as above.
    unsafe {
        mant_open(
            key,
            record,
            pdu.as_ptr(),
            pdu.len(),
            output.as_mut_ptr(),
            output.len(),
        )
    }
}

/// `mant_message_number`.
#[inline]
pub fn message_number(pdu: &[u8]) -> Numbered {
    // SAFETY: as above.
    unsafe { mant_message_number(pdu.as_ptr(), pdu.len()) }
}

/// `mant_remove_source`.
#[inline]
pub fn remove_source(record: &mut [u32; SOURCE_WORDS], source: u16) -> bool {
    // SAFETY: as above.
    unsafe { mant_remove_source(record, source) }
}
