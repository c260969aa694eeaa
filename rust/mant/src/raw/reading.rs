//! What the bytes of a PDU say.

use super::Written;

/// `MANT_PAYLOAD_LIMIT`: the most bytes of a payload.
pub const PAYLOAD_LIMIT: usize = 4095;
/// `MANT_PDU_LIMIT`: the most bytes of a PDU.
pub const PDU_LIMIT: usize = 4615;

/// The header of a PDU, as an edition shows it. A destination, PDU ID or path
/// count that the PDU does not have is 0.
/// In C `MantHeader`.
#[repr(C)]
#[derive(Clone, Copy, Debug, Default, PartialEq, Eq)]
pub struct Header {
    /// 0; else 17, or 1 to 6.
    pub number: u8,
    /// 0 best efforts, 1 reliable.
    pub protocol: u8,
    /// The time stamp request bit.
    pub time_stamp_request: bool,
    /// The path bit.
    pub path_bit: bool,
    /// Without one the PDU is for everyone.
    pub has_destination: bool,
    /// 0 to 15.
    pub port: u8,
    /// False under edition 1.1, which has no encrypted flag; `encrypted` is
    /// false then.
    pub has_encrypted: bool,
    /// The encrypted flag.
    pub encrypted: bool,
    /// 0 to 3; under edition 1.1 all three bits, 0 to 7.
    pub reserved: u8,
    /// The ACK bit.
    pub ack: bool,
    /// The added header bit.
    pub added_header: bool,
    /// 0 to 7; 7 sets no limit.
    pub hop_limit: u8,
    /// How many bytes the payload has.
    pub payload_length: u16,
    /// Source address.
    pub source: u16,
    /// Destination address.
    pub destination: u16,
    /// PDU ID.
    pub pdu_id: u8,
    /// How many addresses the path has.
    pub path_count: u8,
    /// False: the PDU has no path bit, so who sent it last is unknown.
    pub has_last_sender: bool,
    /// Who it was heard from: the last path address, or the source if the path
    /// is empty; 0 where it is unknown.
    pub last_sender: u16,
    /// The payload begins here.
    pub header_length: usize,
    /// Header and payload; the next PDU of a batch begins here.
    pub pdu_length: usize,
}

// The size that the header asserts.
const _: () = assert!(size_of::<Header>() == 40);

#[rustfmt::skip]
extern "C" {
    fn mant_read(edition: u64, bytes: *const u8, bytes_length: usize) -> Header;
    fn mant_path_address(bytes: *const u8, bytes_length: usize, place: usize) -> u16;
    fn mant_path_has(bytes: *const u8, bytes_length: usize, address: u16) -> bool;
    fn mant_write_again(edition: u64, bytes: *const u8, bytes_length: usize, output: *mut u8, output_length: usize) -> Written;
}

/// `mant_read`.
#[inline]
pub fn read(edition: u64, bytes: &[u8]) -> Header {
    // SAFETY: here and below, pointers and lengths are those of live slices,
    // and what is changed is borrowed alone.
    unsafe { mant_read(edition, bytes.as_ptr(), bytes.len()) }
}

/// `mant_path_address`.
pub fn path_address(bytes: &[u8], place: usize) -> u16 {
    // SAFETY: as above.
    unsafe { mant_path_address(bytes.as_ptr(), bytes.len(), place) }
}

/// `mant_path_has`.
pub fn path_has(bytes: &[u8], address: u16) -> bool {
    // SAFETY: as above.
    unsafe { mant_path_has(bytes.as_ptr(), bytes.len(), address) }
}

/// `mant_write_again`.
pub fn write_again(edition: u64, bytes: &[u8], output: &mut [u8]) -> Written {
    // SAFETY: as above.
    unsafe {
        mant_write_again(
            edition,
            bytes.as_ptr(),
            bytes.len(),
            output.as_mut_ptr(),
            output.len(),
        )
    }
}
