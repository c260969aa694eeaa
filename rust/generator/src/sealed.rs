//! Encrypted payloads (02, W-212): what is sealed and opened, and words that
//! hold a record of last accepted numbers.

mod record;

use crate::output::room;
use crate::random::Random;
use crate::received::received;
use crate::settings::settings;
use crate::shape::{address, shape, Shape};
pub use record::{any_record, empty_record};
use reference::{hear, read, seal, Key, Lists, Settings, MOST_NUMBER, MOST_PDU};

/// A PDU to be sealed.
#[derive(Clone, Debug, PartialEq, Eq)]
pub struct ToSeal {
    /// The key.
    pub key: Key,
    /// The message number, at times too large.
    pub number: u64,
    /// The bytes, mostly with a PDU at their start.
    pub bytes: Vec<u8>,
    /// The room of the output.
    pub room: usize,
}

/// What is sealed: PDUs of every shape, most of them not encrypted yet, at
/// times bytes of any kind.
pub fn to_seal(random: &mut Random) -> ToSeal {
    let bytes = match random.below(8) {
        0 => received(random),
        1 => shape(random).bytes(),
        2 => followed(random),
        _ => plain(random).bytes(),
    };
    let length = read(&bytes).map_or(0, |header| header.pdu_length() + 7);
    ToSeal {
        key: any_key(random),
        number: number(random),
        room: room(random, length),
        bytes,
    }
}

/// Any key.
pub fn any_key(random: &mut Random) -> Key {
    std::array::from_fn(|_| random.byte())
}

/// A message number, some at the limits and some above them.
fn number(random: &mut Random) -> u64 {
    match random.below(12) {
        0 => MOST_NUMBER,
        1 => MOST_NUMBER + 1,
        2 => random.pick(&[0, 1, 255, 256, 65_535, 65_536, MOST_NUMBER - 1]),
        3 => random.pick(&[1 << 24, 1 << 32, (1 << 32) + 5, u64::MAX]),
        _ => random.below(1 << 24) as u64,
    }
}

/// A PDU that is not encrypted; its payload is at times at the limit.
fn plain(random: &mut Random) -> Shape {
    let mut pdu = shape(random);
    pdu.encrypted = false;
    if random.one_in(6) {
        let length = random.pick(&[0, 4_087, 4_088, 4_089]);
        pdu.payload = random.bytes(length);
    } else if !random.one_in(4) {
        pdu.payload.truncate(random.below(80));
    }
    pdu
}

/// A PDU that is not encrypted with bytes after it.
fn followed(random: &mut Random) -> Vec<u8> {
    let (pdu, more) = (plain(random).bytes(), random.between(1, 40));
    [pdu, random.bytes(more)].concat()
}

/// A history of openings with one key: a few sources with short PDUs come
/// again and again, or more than a record holds.
#[derive(Clone, Debug, PartialEq, Eq)]
pub struct Openings {
    /// The key.
    pub key: Key,
    /// How many there are.
    pub turns: usize,
    sources: Vec<u16>,
}

/// The next history.
pub fn openings(random: &mut Random) -> Openings {
    let (sources, turns): (Vec<u16>, usize) = match random.one_in(8) {
        true => {
            let sources = (0..random.between(80, 110)).map(|_| random.word());
            (sources.collect(), random.between(180, 320))
        }
        false => {
            let sources = (0..random.between(1, 6)).map(|_| address(random));
            (sources.collect(), random.between(1, 24))
        }
    };
    Openings {
        key: any_key(random),
        turns,
        sources,
    }
}

/// One opening.
#[derive(Clone, Debug, PartialEq, Eq)]
pub struct ToOpen {
    /// The key, at times another.
    pub key: Key,
    /// The bytes, mostly with a sealed PDU at their start.
    pub bytes: Vec<u8>,
    /// The room of the output.
    pub room: usize,
}

impl Openings {
    /// The opening at a turn; `last` gives what a record holds of a source.
    pub fn next(
        &self,
        random: &mut Random,
        turn: usize,
        last: impl Fn(u16) -> Option<u32>,
    ) -> ToOpen {
        let source = match random.one_in(3) {
            true => random.pick(&self.sources),
            false => self.sources[turn % self.sources.len()],
        };
        let key = match random.one_in(16) {
            true => near_key(random, &self.key),
            false => self.key,
        };
        let number = next_number(random, last(source));
        let bytes = self.bytes(random, source, number);
        let header = read(&bytes).map_or(7, |header| header.payload_length);
        let room = room(random, header.saturating_sub(7));
        ToOpen { key, bytes, room }
    }

    /// A source that is removed after an opening, if one is: mostly one of the
    /// history, else any.
    pub fn removed(&self, random: &mut Random) -> Option<u16> {
        let source = match random.one_in(4) {
            true => address(random),
            false => random.pick(&self.sources),
        };
        random.one_in(12).then_some(source)
    }

    /// A PDU sealed, repeated at some nodes and now and then damaged, or bytes
    /// of any kind.
    fn bytes(&self, random: &mut Random, source: u16, number: u64) -> Vec<u8> {
        let mut pdu = plain(random);
        pdu.source = source;
        if let Some(path) = &mut pdu.path {
            path.truncate(random.below(4));
        }
        match random.below(24) {
            0 => return received(random),
            1 => return pdu.bytes(),
            2 => {
                pdu.encrypted = true;
                pdu.payload.truncate(random.below(9));
                return pdu.bytes();
            }
            3 if random.one_in(8) => pdu.payload.truncate(4_088),
            _ => pdu.payload.truncate(random.below(100)),
        }
        let mut out = [0; MOST_PDU];
        let (_, length) = seal(&self.key, number, &pdu.bytes(), &mut out);
        let mut bytes = repeated(random, &out[..length]);
        match random.below(6) {
            0 => damage(random, &mut bytes),
            1 => {
                let more = random.between(1, 9);
                bytes.extend(random.bytes(more));
            }
            _ => {}
        }
        bytes
    }
}

/// The key with a bit turned over.
fn near_key(random: &mut Random, key: &Key) -> Key {
    let mut near = *key;
    near[random.below(16)] ^= 1 << random.below(8);
    near
}

/// The number after the last, the last again, one before it, or any.
fn next_number(random: &mut Random, last: Option<u32>) -> u64 {
    let last = last.map_or_else(|| random.below(1 << 24) as u64, u64::from);
    let number = match random.below(10) {
        0 => last,
        1 => last.saturating_sub(1),
        2 => random.below(1 << 24) as u64,
        3 => random.pick(&[0, 1, MOST_NUMBER - 1, MOST_NUMBER]),
        4 => last + random.below(1 << 20) as u64,
        _ => last + 1,
    };
    number.min(MOST_NUMBER)
}

/// A PDU after any repeats, at nodes of any settings.
pub fn repeated(random: &mut Random, pdu: &[u8]) -> Vec<u8> {
    let mut heard = pdu.to_vec();
    let times = match random.flag() {
        true => 0,
        false => random.between(1, 8),
    };
    for _ in 0..times {
        let mut out = [0; MOST_PDU];
        let node = Settings {
            repeating: true,
            ..settings(random)
        };
        let answer = hear(&node, &Lists::EMPTY, &heard, &mut out);
        if answer.repeat == 0 {
            heard = out[..answer.repeated_length].to_vec();
        }
    }
    heard
}

/// One bit turned over anywhere, or in the sealed part, or bytes cut off.
fn damage(random: &mut Random, bytes: &mut Vec<u8>) {
    let from = match random.flag() {
        true => read(bytes).map_or(0, |header| header.length()),
        false => 0,
    };
    match random.one_in(8) {
        true => bytes.truncate(random.below(bytes.len())),
        false => {
            let place = random.between(from.min(bytes.len() - 1), bytes.len() - 1);
            bytes[place] ^= 1 << random.below(8);
        }
    }
}

#[cfg(test)]
mod tests {
    use super::*;
    use reference::{open, Accepted};

    #[test]
    fn every_number_of_sealing_arises() {
        let (mut random, mut counts) = (Random::from_seed(1), [0; 256]);
        for _ in 0..6_000 {
            let asked = to_seal(&mut random);
            let mut out = vec![0; asked.room];
            let (number, _) = seal(&asked.key, asked.number, &asked.bytes, &mut out);
            counts[usize::from(number)] += 1;
        }
        for number in [0, 85, 86, 87, 88] {
            assert!(counts[number] > 50, "{number}: {counts:?}");
        }
    }

    #[test]
    fn every_number_of_opening_arises() {
        let (mut random, mut counts) = (Random::from_seed(1), [0; 256]);
        let mut removed = [0; 2];
        for _ in 0..400 {
            let (openings, mut accepted) = (openings(&mut random), Accepted::empty());
            for turn in 0..openings.turns {
                let asked = openings.next(&mut random, turn, |source| accepted.get(source));
                let mut out = vec![0; asked.room];
                let (number, _) = open(&asked.key, &mut accepted, &asked.bytes, &mut out);
                counts[usize::from(number)] += 1;
                if let Some(source) = openings.removed(&mut random) {
                    removed[usize::from(accepted.remove(source))] += 1;
                }
            }
        }
        assert!(removed.iter().all(|count| *count > 200), "{removed:?}");
        for number in [0, 80, 81, 82, 83, 84, 87] {
            assert!(counts[number] > 50, "{number}: {counts:?}");
        }
    }
}
