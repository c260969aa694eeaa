//! PDUs that are sent again until they are acknowledged.

use mant::raw::{Answer, Outcome, Retained, Sending};

#[rustfmt::skip]
extern "C" {
    fn plain_retain(table: *mut Retained, records: usize, last: u64, time: u64, pdu: *const u8, length: usize) -> Outcome;
    fn plain_retry(
        table: *mut Retained, records: usize, last: u64, time: u64, delay: u64, tries: u64, output: *mut u8, output_length: usize,
    ) -> Outcome;
    fn plain_acknowledge(
        table: *mut Retained, records: usize, last: u64, own: u16, received: *const u8, length: usize, answer: Answer,
        sending: Sending, output: *mut u8, output_length: usize,
    ) -> Outcome;
}

/// `plain_retain`.
#[inline]
pub fn retain(table: &mut [Retained], last: u64, time: u64, pdu: &[u8]) -> Outcome {
    let (records, bytes) = (table.len(), pdu.as_ptr());
    // SAFETY: records are laid out as in C; pointers and lengths here and below
    // are those of live slices.
    unsafe { plain_retain(table.as_mut_ptr(), records, last, time, bytes, pdu.len()) }
}

/// `plain_retry`.
#[inline]
pub fn retry(
    table: &mut [Retained],
    (last, time): (u64, u64),
    (delay, tries): (u64, u64),
    output: &mut [u8],
) -> Outcome {
    // SAFETY: as above.
    unsafe {
        plain_retry(
            table.as_mut_ptr(),
            table.len(),
            last,
            time,
            delay,
            tries,
            output.as_mut_ptr(),
            output.len(),
        )
    }
}

/// `plain_acknowledge`.
#[inline]
pub fn acknowledge(
    table: &mut [Retained],
    last: u64,
    own: u16,
    (received, answer): (&[u8], Answer),
    sending: Sending,
    output: &mut [u8],
) -> Outcome {
    // SAFETY: as above.
    unsafe {
        plain_acknowledge(
            table.as_mut_ptr(),
            table.len(),
            last,
            own,
            received.as_ptr(),
            received.len(),
            answer,
            sending,
            output.as_mut_ptr(),
            output.len(),
        )
    }
}
