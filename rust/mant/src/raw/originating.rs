//! A fresh PDU from settings and a payload.

use super::Written;

/// What is asked of a fresh PDU. Edition, hop limit and port are wider than
/// they need be, so that 263 arrives as 263 and is refused.
/// In C `MantFresh`.
#[repr(C)]
#[derive(Clone, Copy, Debug, Default, PartialEq, Eq)]
pub struct Fresh {
    /// [`EDITION_1_1`](super::EDITION_1_1) or
    /// [`EDITION_1_2`](super::EDITION_1_2).
    pub edition: u64,
    /// Source address.
    pub source: u16,
    /// False: for everyone, and `destination` does not count.
    pub has_destination: bool,
    /// Destination address.
    pub destination: u16,
    /// 0 to 7; 7 sets no limit.
    pub hop_limit: u64,
    /// 0 to 15.
    pub port: u64,
    /// The time stamp request bit.
    pub time_stamp_request: bool,
    /// Every node that repeats the PDU adds its address.
    pub with_path: bool,
    /// Reliable service, which needs a destination.
    pub reliable: bool,
    /// Written for reliable service only.
    pub pdu_id: u8,
    /// The payload is encrypted already: sets the flag, which edition 1.1
    /// lacks; ask for no time stamp then.
    pub encrypted: bool,
}

// The size that the header asserts.
const _: () = assert!(size_of::<Fresh>() == 40);

#[rustfmt::skip]
extern "C" {
    fn mant_originate(settings: Fresh, payload: *const u8, payload_length: usize, output: *mut u8, output_length: usize) -> Written;
}

/// `mant_originate`.
#[inline]
pub fn originate(settings: Fresh, payload: &[u8], output: &mut [u8]) -> Written {
    // SAFETY: pointers and lengths are those of live slices, and the output is
    // borrowed alone.
    unsafe {
        mant_originate(
            settings,
            payload.as_ptr(),
            payload.len(),
            output.as_mut_ptr(),
            output.len(),
        )
    }
}
