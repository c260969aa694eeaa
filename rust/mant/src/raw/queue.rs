//! The transmit queue.

/// `MANT_QUEUE_PDUS`.
pub const QUEUE_PDUS: usize = 32;
/// `MANT_QUEUE_BYTES`.
pub const QUEUE_BYTES: usize = 2048;
/// The bytes of a `MantQueue`: 6 of numbers, 2,048 for PDUs and 512 to spare. It
/// is empty if the first four are 0.
pub const QUEUE_LENGTH: usize = 2566;

/// How many PDUs a queue holds, and how many bytes they have together.
/// In C `MantLevel`.
#[repr(C)]
#[derive(Clone, Copy, Debug, Default, PartialEq, Eq)]
pub struct Level {
    /// How many PDUs.
    pub pdus: usize,
    /// How many bytes they have together.
    pub bytes: usize,
}

/// What taking from a queue answers: number 0, how many PDUs were taken and how
/// many bytes they fill in the output. With 62 both are 0.
/// In C `MantBatch`.
#[repr(C)]
#[derive(Clone, Copy, Debug, Default, PartialEq, Eq)]
pub struct Batch {
    /// 0 or 62.
    pub number: u8,
    /// How many PDUs.
    pub pdus: usize,
    /// How many bytes they have together.
    pub bytes: usize,
}

// The sizes that the header asserts.
const _: () = {
    assert!(size_of::<Level>() == 16);
    assert!(size_of::<Batch>() == 24);
};

#[rustfmt::skip]
extern "C" {
    fn mant_queue_level(queue: *const [u8; QUEUE_LENGTH]) -> Level;
    fn mant_queue_add(queue: *mut [u8; QUEUE_LENGTH], pdu: *const u8, pdu_length: usize) -> u8;
    fn mant_queue_take(queue: *mut [u8; QUEUE_LENGTH], output: *mut u8, output_length: usize) -> Batch;
    fn mant_queue_clear(queue: *mut [u8; QUEUE_LENGTH]);
}

/// `mant_queue_level`.
#[inline]
pub fn queue_level(queue: &[u8; QUEUE_LENGTH]) -> Level {
    // SAFETY: here and below, the queue is a live one, pointers and lengths are
    // those of live slices, and what is changed is borrowed alone.
    unsafe { mant_queue_level(queue) }
}

/// `mant_queue_add`.
#[inline]
pub fn queue_add(queue: &mut [u8; QUEUE_LENGTH], pdu: &[u8]) -> u8 {
    // SAFETY: as above.
    unsafe { mant_queue_add(queue, pdu.as_ptr(), pdu.len()) }
}

/// `mant_queue_take`.
#[inline]
pub fn queue_take(queue: &mut [u8; QUEUE_LENGTH], output: &mut [u8]) -> Batch {
    // SAFETY: as above.
    unsafe { mant_queue_take(queue, output.as_mut_ptr(), output.len()) }
}

/// `mant_queue_clear`.
#[inline]
pub fn queue_clear(queue: &mut [u8; QUEUE_LENGTH]) {
    // SAFETY: as above.
    unsafe { mant_queue_clear(queue) }
}
