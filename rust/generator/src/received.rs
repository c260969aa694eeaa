//! Bytes as a node may receive them, good and bad.

use crate::random::Random;
use crate::shape::shape;

/// Bytes of every kind: a valid PDU alone or with others after it, a damaged
/// one, a cut one, or any bytes.
pub fn received(random: &mut Random) -> Vec<u8> {
    match random.below(10) {
        0..=3 => shape(random).bytes(),
        4..=5 => followed(random),
        6..=7 => damaged(random),
        8 => cut(random),
        _ => random_bytes(random),
    }
}

/// A valid PDU with bytes after it.
fn followed(random: &mut Random) -> Vec<u8> {
    let mut bytes = shape(random).bytes();
    let more = random.between(1, 40);
    bytes.extend(random.bytes(more));
    bytes
}

/// A valid PDU with 1 to 8 bits turned over, mostly in its first bytes.
pub fn damaged(random: &mut Random) -> Vec<u8> {
    let mut bytes = shape(random).bytes();
    for _ in 0..random.between(1, 8) {
        let within = match random.below(4) {
            0 => bytes.len(),
            1 => bytes.len().min(12),
            _ => 4,
        };
        let place = random.below(within);
        bytes[place] ^= 1 << random.below(8);
    }
    bytes
}

/// A valid PDU cut short, often one byte short or inside its header.
pub fn cut(random: &mut Random) -> Vec<u8> {
    let shape = shape(random);
    let mut bytes = shape.bytes();
    let length = match random.below(5) {
        0 => shape.length() - 1,
        1 => shape.header_length() - 1,
        2 => shape.header_length().min(shape.length() - 1),
        3 => random.below(shape.header_length()),
        _ => random.below(shape.length()),
    };
    bytes.truncate(length);
    bytes
}

/// Any bytes, mostly few; half of them start as version 0 and protocol 0 or 1.
pub fn random_bytes(random: &mut Random) -> Vec<u8> {
    let count = match random.below(8) {
        0 => random.between(0, 5_000),
        1..=2 => random.between(0, 700),
        _ => random.between(0, 24),
    };
    let mut bytes = random.bytes(count);
    if random.flag() && !bytes.is_empty() {
        bytes[0] &= 0x0F;
    }
    bytes
}

#[cfg(test)]
mod tests {
    use super::*;

    #[test]
    fn cut_ones_cannot_be_read() {
        let mut random = Random::from_seed(1);
        for _ in 0..2000 {
            assert!(reference::read(&cut(&mut random)).is_err());
        }
    }

    #[test]
    fn both_outcomes_are_common() {
        let mut random = Random::from_seed(1);
        let read = |random: &mut Random| reference::read(&received(random)).is_ok();
        let good = (0..2000).filter(|_| read(&mut random)).count();
        assert!((800..1800).contains(&good), "{good}");
    }
}
