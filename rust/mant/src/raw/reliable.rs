//! PDUs that are sent again until they are acknowledged.

use super::{Answer, Node};

/// `MANT_RECORDS`.
pub const RECORDS: usize = 16;
/// `MANT_RETAINED_LIMIT`.
pub const RETAINED_LIMIT: usize = 256;

/// `MANT_DEED_RETAINED`.
pub const DEED_RETAINED: u8 = 1;
/// `MANT_DEED_SENT_AGAIN`.
pub const DEED_SENT_AGAIN: u8 = 2;
/// `MANT_DEED_FAILED`.
pub const DEED_FAILED: u8 = 3;
/// `MANT_DEED_FREED`.
pub const DEED_FREED: u8 = 4;
/// `MANT_DEED_ACKNOWLEDGED`.
pub const DEED_ACKNOWLEDGED: u8 = 5;

/// A record of a retained PDU, which is the first `length` bytes of `pdu`;
/// zeros stand behind it. A record that was freed or dropped is all zeros.
/// In C `MantRetained`.
#[repr(C)]
#[derive(Clone, Copy, Debug, PartialEq, Eq)]
pub struct Retained {
    /// The PDU, and zeros behind it.
    pub pdu: [u8; RETAINED_LIMIT],
    /// How many bytes the PDU has; 64 bits on every processor.
    pub length: u64,
    /// When it was last sent, or retained.
    pub sent_at: u64,
    /// How often it was sent again.
    pub count: u64,
}

/// What a retained PDU is known by.
/// In C `MantNames`.
#[repr(C)]
#[derive(Clone, Copy, Debug, Default, PartialEq, Eq)]
pub struct Names {
    /// Source address.
    pub source: u16,
    /// Destination address.
    pub destination: u16,
    /// PDU ID.
    pub pdu_id: u8,
}

/// What the calls with a table of retained PDUs answer. With a number other
/// than 0 the deed is 0 and `last` the one given; what a deed has not is 0.
/// In C `MantOutcome`.
#[repr(C)]
#[derive(Clone, Copy, Debug, Default, PartialEq, Eq)]
pub struct Outcome {
    /// 0, or the number of the refusal.
    pub number: u8,
    /// What was done, 0 for nothing, or a `DEED_` constant.
    pub deed: u8,
    /// The last accepted time, to be given to the next call.
    pub last: u64,
    /// With deeds 1 to 4: the record's, the first at 0.
    pub place: usize,
    /// With deeds 1 to 4: the retained PDU's; with 5: the received PDU's.
    pub names: Names,
    /// With deeds 2 and 5: how many bytes were written to the output.
    pub length: usize,
}

/// What an acknowledgement is sent with, as in [`Fresh`](super::Fresh); hop
/// limit and port count only where one is due.
/// In C `MantSending`.
#[repr(C)]
#[derive(Clone, Copy, Debug, Default, PartialEq, Eq)]
pub struct Sending {
    /// 0 to 7; 7 sets no limit.
    pub hop_limit: u64,
    /// 0 to 15.
    pub port: u64,
    /// The time stamp request bit.
    pub time_stamp_request: bool,
    /// Every node that repeats the PDU adds its address.
    pub with_path: bool,
}

/// What [`hear_reliably`] answers: the node's answer, and what was done with
/// the table and in the output.
/// In C `MantHeardReliably`.
#[repr(C)]
#[derive(Clone, Copy, Debug, Default, PartialEq, Eq)]
pub struct HeardReliably {
    /// The node's answer.
    pub answer: Answer,
    /// What was done.
    pub outcome: Outcome,
}

// The sizes that the header asserts.
const _: () = {
    assert!(size_of::<Retained>() == 280);
    assert!(size_of::<Names>() == 6);
    assert!(size_of::<Outcome>() == 40);
    assert!(size_of::<Sending>() == 24);
    assert!(size_of::<HeardReliably>() == 80);
};

#[rustfmt::skip]
extern "C" {
    fn mant_retain(table: *mut Retained, records: usize, last: u64, time: u64, pdu: *const u8, pdu_length: usize) -> Outcome;
    fn mant_retry(
        table: *mut Retained, records: usize, last: u64, time: u64, delay: u64, tries: u64, output: *mut u8, output_length: usize,
    ) -> Outcome;
    fn mant_acknowledge(
        table: *mut Retained, records: usize, last: u64, own: u16, received: *const u8, received_length: usize, answer: Answer,
        sending: Sending, output: *mut u8, output_length: usize,
    ) -> Outcome;
    fn mant_hear_reliably(
        node: Node, lists: *const u16, lists_length: usize, table: *mut Retained, records: usize, last: u64, received: *const u8,
        received_length: usize, sending: Sending, output: *mut u8, output_length: usize,
    ) -> HeardReliably;
}

/// `mant_retain`.
#[inline]
pub fn retain(table: &mut [Retained], last: u64, time: u64, pdu: &[u8]) -> Outcome {
    // SAFETY: here and below, pointers and lengths are those of live slices,
    // and what is changed is borrowed alone.
    unsafe {
        mant_retain(
            table.as_mut_ptr(),
            table.len(),
            last,
            time,
            pdu.as_ptr(),
            pdu.len(),
        )
    }
}

/// `mant_retry`.
#[inline]
pub fn retry(
    table: &mut [Retained],
    (last, time): (u64, u64),
    (delay, tries): (u64, u64),
    output: &mut [u8],
) -> Outcome {
    // SAFETY: as above.
    unsafe {
        mant_retry(
            table.as_mut_ptr(),
            table.len(),
            last,
            time,
            delay,
            tries,
            output.as_mut_ptr(),
            output.len(),
        )
    }
}

/// `mant_acknowledge`.
#[inline]
pub fn acknowledge(
    table: &mut [Retained],
    last: u64,
    own: u16,
    (received, answer): (&[u8], Answer),
    sending: Sending,
    output: &mut [u8],
) -> Outcome {
    // SAFETY: as above.
    unsafe {
        mant_acknowledge(
            table.as_mut_ptr(),
            table.len(),
            last,
            own,
            received.as_ptr(),
            received.len(),
            answer,
            sending,
            output.as_mut_ptr(),
            output.len(),
        )
    }
}

/// `mant_hear_reliably`.
#[inline]
pub fn hear_reliably(
    (node, lists): (Node, &[u16]),
    table: &mut [Retained],
    last: u64,
    received: &[u8],
    sending: Sending,
    output: &mut [u8],
) -> HeardReliably {
    // SAFETY: as above.
    unsafe {
        mant_hear_reliably(
            node,
            lists.as_ptr(),
            lists.len(),
            table.as_mut_ptr(),
            table.len(),
            last,
            received.as_ptr(),
            received.len(),
            sending,
            output.as_mut_ptr(),
            output.len(),
        )
    }
}
