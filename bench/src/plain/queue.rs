//! The transmit queue.

use mant::raw::{Batch, Level, QUEUE_BYTES, QUEUE_PDUS};

/// The transmit queue as a ring.
#[repr(C)]
#[derive(Clone, Debug)]
pub struct Ring {
    first_pdu: usize,
    pdus: usize,
    first_byte: usize,
    bytes: usize,
    lengths: [u16; QUEUE_PDUS],
    ring: [u8; QUEUE_BYTES],
}

impl Ring {
    /// A ring that holds none.
    pub fn empty() -> Ring {
        Ring {
            first_pdu: 0,
            pdus: 0,
            first_byte: 0,
            bytes: 0,
            lengths: [0; QUEUE_PDUS],
            ring: [0; QUEUE_BYTES],
        }
    }
}

#[rustfmt::skip]
extern "C" {
    fn plain_queue_level(ring: *const Ring) -> Level;
    fn plain_queue_add(ring: *mut Ring, pdu: *const u8, length: usize) -> u8;
    fn plain_queue_take(ring: *mut Ring, output: *mut u8, output_length: usize) -> Batch;
    fn plain_queue_clear(ring: *mut Ring);
}

/// `plain_queue_level`.
#[inline]
pub fn queue_level(ring: &Ring) -> Level {
    // SAFETY: the ring is laid out as in C.
    unsafe { plain_queue_level(ring) }
}

/// `plain_queue_add`.
#[inline]
pub fn queue_add(ring: &mut Ring, pdu: &[u8]) -> u8 {
    // SAFETY: as above, and it is borrowed alone; pointers and lengths here and
    // below are those of live slices.
    unsafe { plain_queue_add(ring, pdu.as_ptr(), pdu.len()) }
}

/// `plain_queue_take`.
#[inline]
pub fn queue_take(ring: &mut Ring, output: &mut [u8]) -> Batch {
    // SAFETY: as above.
    unsafe { plain_queue_take(ring, output.as_mut_ptr(), output.len()) }
}

/// `plain_queue_clear`.
#[inline]
pub fn queue_clear(ring: &mut Ring) {
    // SAFETY: as above.
    unsafe { plain_queue_clear(ring) }
}
