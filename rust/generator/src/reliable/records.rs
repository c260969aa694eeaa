//! Records that hold a retained PDU (include/mant.h, "Reliable messages").

use super::pdus::to_retain;
use super::Habits;
use crate::random::Random;
use reference::{MOST_RETAINED, RECORDS};

/// A record as it lies in memory, in use or not.
#[derive(Clone, Debug, PartialEq, Eq)]
pub struct RetainedRecord {
    /// The PDU in the first bytes.
    pub pdu: [u8; MOST_RETAINED],
    /// How many bytes the PDU has.
    pub length: usize,
    /// When it was last sent.
    pub sent_at: u64,
    /// How often it was sent again.
    pub count: u64,
}

/// Records that hold a table, mostly 16 of them: all zeros, any bytes, or PDUs
/// to and from the node of a history, with any times and counts.
pub fn retained_records(random: &mut Random, habits: &Habits) -> Vec<RetainedRecord> {
    let count = match random.below(12) {
        0 => random.pick(&[0, 1, 15, 17, 32]),
        _ => RECORDS,
    };
    let kind = random.below(3);
    (0..count).map(|_| record(random, habits, kind)).collect()
}

/// One record: of zeros, of any bytes, or put together by hand.
fn record(random: &mut Random, habits: &Habits, kind: usize) -> RetainedRecord {
    let mut bytes = [0; MOST_RETAINED];
    if kind == 0 {
        return RetainedRecord {
            pdu: bytes,
            length: 0,
            sent_at: 0,
            count: 0,
        };
    }
    bytes.copy_from_slice(&random.bytes(MOST_RETAINED));
    let mut length = random.between(0, 260);
    if kind == 2 {
        let pdu = to_retain(random, habits);
        length = pdu.len();
        let part = pdu.len().min(MOST_RETAINED);
        bytes[..part].copy_from_slice(&pdu[..part]);
    }
    RetainedRecord {
        pdu: bytes,
        length: match random.below(12) {
            0 => random.pick(&[0, 255, 256, 257, 1 << 32, usize::MAX]),
            _ => length,
        },
        sent_at: random.draw() >> random.below(65).min(63),
        count: random.draw() >> random.below(65).min(63),
    }
}
