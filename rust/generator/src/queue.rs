//! Transmit queues (02, W-206 and W-207): what is done with one, and memory
//! that holds one (include/mant.h, "The transmit queue").

use crate::random::Random;
use crate::received::{cut, damaged, random_bytes};
use crate::shape::shape;
use reference::{Queue, MOST_HELD, MOST_HELD_BYTES};

/// The three numbers before the PDUs have so many bytes.
const NUMBERS: usize = 6;
/// So far behind them the oldest PDU begins at most.
const MOST_PLACE: usize = 512;
/// The bytes of a queue's memory.
const LENGTH: usize = NUMBERS + MOST_HELD_BYTES + MOST_PLACE;

/// What is done with a queue.
#[derive(Clone, Debug, PartialEq, Eq)]
pub enum QueueDeed {
    /// These bytes are added.
    Add(Vec<u8>),
    /// PDUs are taken with so much room.
    Take(usize),
    /// All PDUs are dropped.
    Clear,
}

/// How a history goes.
#[derive(Clone, Copy, Debug, PartialEq, Eq)]
pub struct Pace {
    /// How many deeds it has.
    pub turns: usize,
    /// PDUs mostly have so many bytes at most.
    longest: usize,
    /// So many are added for one taking or clearing, about.
    adds: usize,
}

/// Histories of so many deeds at most, that fill a queue with many short PDUs
/// or a few long ones, and such that hold few.
pub fn pace(random: &mut Random, most_turns: usize) -> Pace {
    Pace {
        turns: random.between(1, most_turns),
        longest: random.pick(&[6, 12, 40, 64, 65, 80, 200, 700, 2_048]),
        adds: random.pick(&[1, 2, 8, 30]),
    }
}

/// The next deed with a queue. Where 32 PDUs are held, it is at times cleared.
pub fn queue_deed(random: &mut Random, pace: Pace, queue: &Queue) -> QueueDeed {
    if queue.held().len() == MOST_HELD && random.one_in(16) {
        return QueueDeed::Clear;
    }
    match random.below(pace.adds + 1) {
        0 if random.one_in(6) => QueueDeed::Clear,
        0 => QueueDeed::Take(room_to_take(random, queue.held())),
        _ => QueueDeed::Add(bytes_to_add(random, pace.longest, queue.left())),
    }
}

/// No room, room for some PDUs from the oldest on, exactly or about, or for
/// all.
fn room_to_take(random: &mut Random, held: &[Vec<u8>]) -> usize {
    let count = random.between(0, held.len());
    let some: usize = held[..count].iter().map(Vec::len).sum();
    let oldest = held.first().map_or(0, Vec::len);
    match random.below(9) {
        0 => 0,
        1 => oldest.saturating_sub(1),
        2..=3 => some,
        4 => some + 1,
        5 => some.saturating_sub(1),
        6 => some + random.below(100),
        7 => random.between(0, 2_100),
        _ => random.pick(&[2_048, 4_615, 5_000]),
    }
}

/// Mostly one PDU; where few bytes are left, often one that fills them or is a
/// byte longer; else bytes that are not one PDU.
fn bytes_to_add(random: &mut Random, longest: usize, left: usize) -> Vec<u8> {
    let length = match random.below(16) {
        0..=1 => return not_one_pdu(random),
        2..=4 if left <= longest.max(100) => left,
        5..=6 if left <= longest.max(100) => left + 1,
        7 => random.between(6, 300),
        8 if random.one_in(4) => random.between(6, 4_615),
        _ => random.between(6, longest),
    };
    one_pdu(random, length)
}

/// A PDU of so many bytes, but of 6 where these are fewer, and of a shorter
/// payload where it would be above 4,095.
fn one_pdu(random: &mut Random, length: usize) -> Vec<u8> {
    let mut pdu = shape(random);
    if let Some(path) = &mut pdu.path {
        path.truncate(random.below(4));
    }
    if pdu.header_length() > length {
        pdu.path = None;
    }
    if pdu.header_length() > length {
        pdu.reliable = false;
        pdu.destination = None;
    }
    let left = length.saturating_sub(pdu.header_length());
    pdu.payload = random.bytes(left.min(4_095));
    pdu.bytes()
}

/// Nothing, a damaged PDU or a cut one, two PDUs joined, one with bytes after
/// it, or any bytes.
fn not_one_pdu(random: &mut Random) -> Vec<u8> {
    let length = random.between(6, 40);
    match random.below(6) {
        0 => vec![],
        1 => damaged(random),
        2 => cut(random),
        3 => [one_pdu(random, length), one_pdu(random, length)].concat(),
        4 => {
            let more = random.between(1, 3);
            [one_pdu(random, length), random.bytes(more)].concat()
        }
        _ => random_bytes(random),
    }
}

/// Memory that holds an empty queue: zeros, or any bytes behind its first four.
pub fn empty_queue(random: &mut Random) -> Vec<u8> {
    if random.flag() {
        return vec![0; LENGTH];
    }
    let mut memory = random.bytes(LENGTH);
    memory[..4].fill(0);
    memory
}

/// Arbitrary memory: any bytes, or PDUs back to back from some place on, at
/// times more than 32, with a bit turned over or the last one cut, and any
/// three numbers before them.
pub fn any_queue(random: &mut Random) -> Vec<u8> {
    let mut memory = random.bytes(LENGTH);
    if random.one_in(6) {
        return memory;
    }
    let (count, mut pdus) = back_to_back(random);
    if random.one_in(3) {
        let place = random.below(pdus.len().min(60));
        pdus[place] ^= 1 << random.below(8);
    }
    let start = random.pick(&[0, 0, 1, 64, 511, 512, 512, 513]);
    pdus.truncate(LENGTH - NUMBERS - start);
    memory[..2].copy_from_slice(&number_before(random, count));
    memory[2..4].copy_from_slice(&number_before(random, pdus.len()));
    memory[4..NUMBERS].copy_from_slice(&number_before(random, start));
    memory[NUMBERS + start..][..pdus.len()].copy_from_slice(&pdus);
    memory
}

/// Some PDUs, at times more than a queue holds: how many, and their bytes.
fn back_to_back(random: &mut Random) -> (usize, Vec<u8>) {
    let longest = random.pick(&[6, 12, 60, 60, 300, 2_048]);
    let count = random.between(1, 40);
    let pdus = (0..count).map(|_| {
        let length = random.between(6, longest);
        one_pdu(random, length)
    });
    (count, pdus.collect::<Vec<_>>().concat())
}

/// Two bytes that tell how many PDUs or bytes follow, or where: just so many, one
/// more or less, fewer, or any number.
fn number_before(random: &mut Random, follow: usize) -> [u8; 2] {
    let number = match random.below(8) {
        0..=2 => follow,
        3 => follow.saturating_sub(1),
        4 => follow + 1,
        5 => random.between(0, follow),
        6 => random.pick(&[0, 6, 31, 32, 33, 511, 512, 513, 2_047, 2_048, 2_049, 65_535]),
        _ => usize::from(random.word()),
    };
    (number as u16).to_be_bytes()
}

#[cfg(test)]
mod tests {
    use super::*;

    /// What came up in histories.
    #[derive(Debug, Default)]
    struct Seen {
        full_of_pdus: usize,
        full_of_bytes: usize,
        just_filled: usize,
        not_one: usize,
        not_one_when_full: usize,
        some_taken: usize,
        all_taken: usize,
        none_held: usize,
        too_long: usize,
        some_cleared: usize,
        full_cleared: usize,
        none_cleared: usize,
    }

    impl Seen {
        fn add(&mut self, queue: &mut Queue, bytes: &[u8]) {
            let is_full = queue.held().len() == MOST_HELD;
            match queue.add(bytes) {
                60 if is_full => self.full_of_pdus += 1,
                60 => self.full_of_bytes += 1,
                61 => {
                    self.not_one += 1;
                    self.not_one_when_full += usize::from(is_full);
                }
                _ => self.just_filled += usize::from(queue.left() == 0),
            }
        }

        fn take(&mut self, queue: &mut Queue, room: usize) {
            let before = queue.held().len();
            let taken = queue.take(&mut vec![0; room]);
            match taken.number {
                62 => self.too_long += 1,
                _ if before == 0 => self.none_held += 1,
                _ if taken.pdus == before => self.all_taken += 1,
                _ => self.some_taken += 1,
            }
        }

        fn clear(&mut self, queue: &mut Queue) {
            match queue.held().len() {
                0 => self.none_cleared += 1,
                MOST_HELD => self.full_cleared += 1,
                _ => self.some_cleared += 1,
            }
            queue.clear();
        }
    }

    #[test]
    fn every_limit_is_met() {
        let mut random = Random::from_seed(1);
        let mut seen = Seen::default();
        for _ in 0..3_000 {
            let (mut queue, pace) = (Queue::empty(), pace(&mut random, 90));
            for _ in 0..pace.turns {
                match queue_deed(&mut random, pace, &queue) {
                    QueueDeed::Add(bytes) => seen.add(&mut queue, &bytes),
                    QueueDeed::Take(room) => seen.take(&mut queue, room),
                    QueueDeed::Clear => seen.clear(&mut queue),
                }
            }
        }
        let counts = [
            seen.full_of_pdus,
            seen.full_of_bytes,
            seen.just_filled,
            seen.not_one,
            seen.not_one_when_full,
            seen.some_taken,
            seen.all_taken,
            seen.none_held,
            seen.too_long,
            seen.some_cleared,
            seen.full_cleared,
            seen.none_cleared,
        ];
        assert!(counts.iter().all(|count| *count > 100), "{seen:?}");
    }

    #[test]
    fn pdus_have_the_length_asked_for() {
        let mut random = Random::from_seed(1);
        for length in (6..400).chain([2_047, 2_048, 2_049, 4_101]) {
            let pdu = one_pdu(&mut random, length);
            let read = reference::read(&pdu).map(|header| header.pdu_length());
            assert_eq!((pdu.len(), read), (length, Ok(length)));
        }
    }
}
