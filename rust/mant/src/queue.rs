//! The transmit queue (02, W-206 and W-207).

use crate::raw::{self, EDITION_1_2, QUEUE_BYTES, QUEUE_LENGTH, QUEUE_PDUS};
use crate::{Level, Refusal};
use std::fmt;

/// The three numbers before the PDUs have so many bytes.
const NUMBERS: usize = 6;

/// The third number is no more than this.
const SPARE: usize = QUEUE_LENGTH - NUMBERS - QUEUE_BYTES;

/// What was taken from a queue.
#[derive(Clone, Copy, Debug, Default, PartialEq, Eq)]
pub struct Taken {
    /// How many PDUs.
    pub pdus: usize,
    /// How many bytes of the output they fill, one after the other.
    pub bytes: usize,
}

/// The PDUs that wait for the modem's next slot, at most 32, and 2,048 bytes
/// together. It begins empty. Two queues are equal if they hold the same PDUs
/// in the same order.
#[derive(Clone)]
pub struct Queue {
    memory: [u8; QUEUE_LENGTH],
}

impl Queue {
    /// So many PDUs are held at most.
    pub const PDUS: usize = QUEUE_PDUS;
    /// So many bytes they have together at most.
    pub const BYTES: usize = QUEUE_BYTES;
    /// So many bytes of memory hold them.
    pub const LENGTH: usize = QUEUE_LENGTH;

    /// An empty queue.
    pub const fn new() -> Queue {
        Queue::from_memory([0; QUEUE_LENGTH])
    }

    /// The queue in this memory, which `include/mant.h` describes. Any bytes
    /// are a queue. In malformed memory the level may not be that of the PDUs
    /// held.
    pub const fn from_memory(memory: [u8; QUEUE_LENGTH]) -> Queue {
        Queue { memory }
    }

    /// The memory that holds the queue, to be kept elsewhere.
    pub const fn memory(&self) -> &[u8; QUEUE_LENGTH] {
        &self.memory
    }

    /// How many PDUs and bytes are held, by the queue's own numbers.
    pub fn level(&self) -> Level {
        raw::queue_level(&self.memory)
    }

    /// Is no PDU held?
    pub fn is_empty(&self) -> bool {
        self.iter().next().is_none()
    }

    /// The PDUs that are held, the oldest first.
    pub fn iter(&self) -> impl Iterator<Item = &[u8]> + '_ {
        let (level, memory) = (self.level(), &self.memory);
        let place = usize::from(u16::from_be_bytes([memory[4], memory[5]])).min(SPARE);
        let mut rest = &memory[NUMBERS + place..][..level.bytes];
        let pdus = std::iter::from_fn(move || {
            let length = raw::read(EDITION_1_2, rest).pdu_length;
            let (pdu, behind) = rest.split_at(length);
            rest = behind;
            (length > 0).then_some(pdu)
        });
        pdus.take(level.pdus)
    }

    /// Adds a PDU; nothing may follow it in the bytes. Refusals: 61, 60. A PDU
    /// of more than [`Queue::BYTES`] bytes always gets 60.
    pub fn add(&mut self, pdu: &[u8]) -> Result<(), Refusal> {
        Refusal::check(raw::queue_add(&mut self.memory, pdu))
    }

    /// Moves the oldest PDUs to the output, up to the first that does not fit.
    /// Refusal: 62, if the oldest does not fit. An empty queue gives none. A
    /// PDU that no slot has room for holds up all behind it, so do not add one.
    ///
    /// ```
    /// let (mut queue, mut slot) = (mant::Queue::new(), [0; 12]);
    /// queue.add(&[0x02, 0x00, 0x10, 0x01, 0x03, 0xE8, 0x00, 0x2A])?;
    /// queue.add(&[0x00, 0x00, 0x00, 0x01, 0x03, 0xE9, 0x2B])?;
    /// assert_eq!(queue.take(&mut slot)?.bytes, 8); // the first 8 of slot are to be sent
    /// assert_eq!(queue.level().pdus, 1);
    /// # Ok::<(), mant::Refusal>(())
    /// ```
    pub fn take(&mut self, output: &mut [u8]) -> Result<Taken, Refusal> {
        let batch = raw::queue_take(&mut self.memory, output);
        Refusal::check(batch.number).map(|()| Taken {
            pdus: batch.pdus,
            bytes: batch.bytes,
        })
    }

    /// Drops all PDUs that are held.
    pub fn clear(&mut self) {
        raw::queue_clear(&mut self.memory);
    }
}

impl Default for Queue {
    fn default() -> Queue {
        Queue::new()
    }
}

impl PartialEq for Queue {
    fn eq(&self, other: &Queue) -> bool {
        self.iter().eq(other.iter())
    }
}

impl Eq for Queue {}

impl fmt::Debug for Queue {
    fn fmt(&self, f: &mut fmt::Formatter) -> fmt::Result {
        f.debug_list().entries(self.iter()).finish()
    }
}
