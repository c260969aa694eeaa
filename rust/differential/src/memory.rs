//! The memory of a queue, and the reading of it that `include/mant.h` gives.

use crate::guarded::Guarded;
use generator::{QueueDeed, Random};
use mant::raw::{Level, QUEUE_BYTES, QUEUE_LENGTH, QUEUE_PDUS};
use reference::{read, Queue};

/// The three numbers before the PDUs have so many bytes.
const NUMBERS: usize = 6;
/// So far behind them the oldest PDU begins at most.
const MOST_PLACE: usize = QUEUE_LENGTH - NUMBERS - QUEUE_BYTES;

/// A queue's memory and what surrounds it.
#[derive(Clone, Debug, PartialEq, Eq)]
pub struct Memory(Guarded<u8>);

impl Memory {
    /// These bytes between any bytes.
    pub fn of(random: &mut Random, bytes: &[u8]) -> Memory {
        Memory(Guarded::of(random, bytes, Random::bytes))
    }

    /// The memory itself.
    pub fn bytes(&self) -> &[u8; QUEUE_LENGTH] {
        self.0.elements().try_into().expect("a queue's bytes")
    }

    /// The same to be changed.
    pub fn change(&mut self) -> &mut [u8; QUEUE_LENGTH] {
        self.0.change().try_into().expect("a queue's bytes")
    }

    /// A number that counts as no more than its limit.
    fn number(&self, place: usize, limit: usize) -> usize {
        let bytes = self.bytes();
        (usize::from(bytes[place]) * 256 + usize::from(bytes[place + 1])).min(limit)
    }

    /// How many PDUs and bytes the numbers tell.
    pub fn told(&self) -> Level {
        Level {
            pdus: self.number(0, QUEUE_PDUS),
            bytes: self.number(2, QUEUE_BYTES),
        }
    }

    /// Where the oldest begins.
    fn start(&self) -> usize {
        NUMBERS + self.number(4, MOST_PLACE)
    }

    /// The PDUs that are held: those that can be read one after the other, as
    /// many as the first number tells, in as many bytes as the second does.
    pub fn held(&self) -> Vec<Vec<u8>> {
        let told = self.told();
        let mut rest = &self.bytes()[self.start()..][..told.bytes];
        let mut held = vec![];
        while held.len() < told.pdus {
            let Ok(header) = read(rest) else {
                break;
            };
            let (pdu, behind) = rest.split_at(header.pdu_length());
            held.push(pdu.to_vec());
            rest = behind;
        }
        held
    }

    /// The number of adding: by the numbers, not by the PDUs.
    pub fn add_number(&self, pdu: &[u8]) -> u8 {
        let told = self.told();
        let is_full = told.pdus == QUEUE_PDUS || told.bytes + pdu.len() > QUEUE_BYTES;
        match Queue::empty().add(pdu) {
            0 if is_full => 60,
            number => number,
        }
    }

    /// The memory after a deed.
    pub fn after(&self, deed: &QueueDeed) -> Memory {
        let (told, start) = (self.told(), self.start());
        let mut memory = self.clone();
        let bytes = memory.change();
        match deed {
            QueueDeed::Add(pdu) if self.add_number(pdu) == 0 => {
                bytes[start + told.bytes..][..pdu.len()].copy_from_slice(pdu);
                number_all(bytes, told.pdus + 1, told.bytes + pdu.len(), start);
            }
            QueueDeed::Add(_) => {}
            QueueDeed::Take(room) => {
                let taken = Queue::holding(&self.held()).take(&mut vec![0; *room]);
                if taken.pdus > 0 {
                    let (left, mut start) = (told.bytes - taken.bytes, start + taken.bytes);
                    if start > NUMBERS + MOST_PLACE {
                        bytes.copy_within(start..start + left, NUMBERS);
                        start = NUMBERS;
                    }
                    number_all(bytes, told.pdus - taken.pdus, left, start);
                }
            }
            QueueDeed::Clear => number_all(bytes, 0, 0, NUMBERS),
        }
        memory
    }
}

/// Writes the three numbers.
fn number_all(memory: &mut [u8], pdus: usize, bytes: usize, start: usize) {
    for (place, number) in [pdus, bytes, start - NUMBERS].into_iter().enumerate() {
        memory[2 * place..][..2].copy_from_slice(&(number as u16).to_be_bytes());
    }
}
