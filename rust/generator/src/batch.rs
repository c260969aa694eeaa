//! Batches (01, "A batch").

use crate::random::Random;
use crate::received::{cut, damaged, random_bytes};
use crate::shape::{shape, Shape};
use reference::MOST_BATCH;

/// A batch of any kind, some above the size limit.
pub fn batch(random: &mut Random) -> Vec<u8> {
    match random.below(20) {
        0 => vec![],
        1..=8 => back_to_back(random, 6),
        9..=12 => bad_end(random),
        13..=14 => random_bytes(random),
        15..=16 => many_small(random),
        17 => exactly(random, MOST_BATCH),
        18 => exactly(random, MOST_BATCH + 1),
        _ => {
            let length = random.between(MOST_BATCH - 20, MOST_BATCH + 20);
            exactly(random, length)
        }
    }
}

/// Up to so many valid PDUs, as many as fit.
fn back_to_back(random: &mut Random, most: usize) -> Vec<u8> {
    let mut bytes = vec![];
    for _ in 0..random.between(1, most) {
        let pdu = shape(random).bytes();
        if bytes.len() + pdu.len() <= MOST_BATCH {
            bytes.extend(pdu);
        }
    }
    bytes
}

/// Valid PDUs, then one that is damaged or cut, or any bytes.
fn bad_end(random: &mut Random) -> Vec<u8> {
    let mut bytes = back_to_back(random, 3);
    bytes.extend(match random.below(3) {
        0 => damaged(random),
        1 => cut(random),
        _ => random_bytes(random),
    });
    bytes.truncate(MOST_BATCH);
    bytes
}

/// Many PDUs of a few bytes each.
fn many_small(random: &mut Random) -> Vec<u8> {
    let mut bytes = vec![];
    for _ in 0..random.between(10, 200) {
        bytes.extend(small(random).bytes());
    }
    bytes
}

/// A PDU with a short payload and at most two path entries.
fn small(random: &mut Random) -> Shape {
    let mut pdu = shape(random);
    pdu.payload.truncate(random.below(4));
    if let Some(path) = &mut pdu.path {
        path.truncate(2);
    }
    pdu
}

/// PDUs back to back, so many bytes to the byte: the last ones are valid too
/// where the bytes that are left allow it.
fn exactly(random: &mut Random, length: usize) -> Vec<u8> {
    let mut bytes = vec![];
    while bytes.len() < length {
        let left = length - bytes.len();
        let pdu = shape(random);
        if pdu.length() + 6 <= left {
            bytes.extend(pdu.bytes());
        } else {
            bytes.extend(filling(random, left));
        }
    }
    bytes
}

/// One PDU of exactly so many bytes if there is one, else one of the most
/// bytes without a destination or a path, or what fits of one.
fn filling(random: &mut Random, left: usize) -> Vec<u8> {
    let mut pdu = shape(random);
    pdu.reliable = false;
    pdu.destination = None;
    pdu.path = None;
    pdu.payload = random.bytes(left.saturating_sub(6).min(4_095));
    let mut bytes = pdu.bytes();
    bytes.truncate(left);
    bytes
}

#[cfg(test)]
mod tests {
    use super::*;

    #[test]
    fn exactly_is_exact_and_taken_whole() {
        let mut random = Random::from_seed(1);
        for length in [6, 100, 5_000, MOST_BATCH] {
            let bytes = exactly(&mut random, length);
            assert_eq!(bytes.len(), length);
            let (settings, lists) = (Default::default(), reference::Lists::EMPTY);
            let walked = reference::walk(&settings, &lists, &bytes, &mut []);
            assert_eq!(walked.map(|walked| walked.end), Ok(length));
        }
    }

    #[test]
    fn only_some_are_too_long() {
        let mut random = Random::from_seed(1);
        let long = |random: &mut Random| batch(random).len() > MOST_BATCH;
        let count = (0..1000).filter(|_| long(&mut random)).count();
        assert!((20..200).contains(&count), "{count}");
    }
}
