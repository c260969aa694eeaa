//! 02, W-206 and W-207: the PDUs that wait for the modem's next slot; numbers
//! 60, 61 and 62.

use crate::header::read;
use crate::numbers::{DONE, NOT_ONE_PDU, OLDEST_TOO_LONG, QUEUE_FULL};

/// So many PDUs a queue holds.
pub const MOST_HELD: usize = 32;
/// So many bytes they have together.
pub const MOST_HELD_BYTES: usize = 2_048;

/// A queue of PDUs, the oldest first.
#[derive(Clone, Debug, PartialEq, Eq)]
pub struct Queue {
    held: Vec<Vec<u8>>,
}

/// What was taken from a queue: with 62 nothing was.
#[derive(Clone, Copy, Debug, PartialEq, Eq)]
pub struct Taken {
    /// 0 or 62.
    pub number: u8,
    /// How many PDUs.
    pub pdus: usize,
    /// How many bytes they have together.
    pub bytes: usize,
}

impl Queue {
    /// An empty queue.
    pub fn empty() -> Queue {
        Queue::holding(&[])
    }

    /// A queue that holds these PDUs, which have no more than 2,048 bytes.
    pub fn holding(held: &[Vec<u8>]) -> Queue {
        Queue {
            held: held.to_vec(),
        }
    }

    /// The PDUs that are held, the oldest first.
    pub fn held(&self) -> &[Vec<u8>] {
        &self.held
    }

    /// How many bytes the PDUs that are held have together.
    pub fn bytes(&self) -> usize {
        self.held.iter().map(Vec::len).sum()
    }

    /// How many more bytes there is room for.
    pub fn left(&self) -> usize {
        MOST_HELD_BYTES - self.bytes()
    }

    /// Adds a PDU: 0, or 61 and then 60, and nothing changes.
    pub fn add(&mut self, pdu: &[u8]) -> u8 {
        if !is_one_pdu(pdu) {
            return NOT_ONE_PDU;
        }
        if self.held.len() >= MOST_HELD || pdu.len() > self.left() {
            return QUEUE_FULL;
        }
        self.held.push(pdu.to_vec());
        DONE
    }

    /// Moves PDUs to the output, one after the other from the oldest on, up to
    /// the first that there is no room for. Where that is the oldest, 62.
    pub fn take(&mut self, out: &mut [u8]) -> Taken {
        let (mut pdus, mut bytes) = (0, 0);
        for pdu in &self.held {
            if bytes + pdu.len() > out.len() {
                break;
            }
            out[bytes..bytes + pdu.len()].copy_from_slice(pdu);
            bytes += pdu.len();
            pdus += 1;
        }
        let number = match pdus == 0 && !self.held.is_empty() {
            true => OLDEST_TOO_LONG,
            false => DONE,
        };
        self.held.drain(..pdus);
        Taken {
            number,
            pdus,
            bytes,
        }
    }

    /// Drops all PDUs that are held.
    pub fn clear(&mut self) {
        self.held.clear();
    }
}

/// Are the bytes one PDU, and nothing after it?
fn is_one_pdu(bytes: &[u8]) -> bool {
    read(bytes).is_ok_and(|header| header.pdu_length() == bytes.len())
}
