//! Exchanges with a separate decoder (02, W-202), good and bad, laid out here
//! by arithmetic of their own.

mod elements;

use crate::random::Random;
use crate::received::{cut, damaged, random_bytes, received};
use crate::shape::{shape, Shape};
use elements::{beside, element, mixed, nested, parts, run, split, RUNS};

/// Bytes of every kind for reading as an exchange.
pub fn exchange(random: &mut Random) -> Vec<u8> {
    match random.below(22) {
        0..=5 => whole(random),
        6..=7 => with_a_faulty_run(random),
        8..=9 => cut_short(random),
        10..=11 => turned_over(random),
        12..=13 => counted_wrong(random),
        14..=15 => not_alone(random),
        16..=17 => split_elsewhere(random),
        18..=19 => of_no_pdu(random),
        20 => run(random, 1, 6),
        _ => random_bytes(random),
    }
}

/// A PDU to be written as an exchange, or bytes that begin with none.
pub fn exchanged_pdu(random: &mut Random) -> Vec<u8> {
    match random.below(10) {
        0..=5 => pdu(random).bytes(),
        _ => received(random),
    }
}

/// A run of elements as a decoder sends it, an exchange among others, at times
/// cut; or bytes of any kind.
pub fn sent_run(random: &mut Random) -> Vec<u8> {
    match random.below(6) {
        0 => random_bytes(random),
        1 => exchange(random),
        _ => {
            let before = run(random, 1, 4);
            let whole = short_exchange(random);
            let after = run(random, 1, 4);
            let mut bytes = [before, whole, after].concat();
            if random.one_in(3) {
                bytes.truncate(random.between(0, bytes.len()));
            }
            bytes
        }
    }
}

/// A short exchange that is whole, for cutting it at every byte.
pub fn short_exchange(random: &mut Random) -> Vec<u8> {
    let mut shape = shape(random);
    shape.path = None;
    shape.payload.truncate(random.below(40));
    let parts = parts(random, &shape);
    mixed(random, parts)
}

/// These bytes as a run so many levels down, alone there.
pub fn levels_down(random: &mut Random, bytes: &[u8], levels: usize) -> Vec<u8> {
    let mut whole = bytes.to_vec();
    for _ in 0..levels {
        let type_number = random.pick(&RUNS);
        whole = element(random, type_number, &whole);
    }
    whole
}

/// A valid PDU, some with lengths about 127, where the forms change.
fn pdu(random: &mut Random) -> Shape {
    let mut shape = shape(random);
    match random.below(6) {
        0 => {
            let count = random.between(57, 62);
            shape.path = Some((0..count).map(|_| random.word()).collect());
        }
        1 => {
            let count = random.between(90, 130);
            shape.path = shape.path.filter(|path| path.len() < 5);
            shape.payload = random.bytes(count);
        }
        2 => shape.payload = random.bytes(4_095),
        _ => {}
    }
    shape
}

/// An exchange that is whole.
fn whole(random: &mut Random) -> Vec<u8> {
    let shape = pdu(random);
    let parts = parts(random, &shape);
    mixed(random, parts)
}

/// An exchange with runs in runs beside its parts, down to level 4, 5 or 6,
/// at times cut at any of their bytes, and at times two of them.
fn with_a_faulty_run(random: &mut Random) -> Vec<u8> {
    let shape = pdu(random);
    let mut elements = parts(random, &shape);
    for _ in 0..random.between(1, 2) {
        let levels = random.between(1, 5);
        let nested = nested(random, 2, levels);
        elements.push(nested);
    }
    mixed(random, elements)
}

/// An exchange cut short, often by one byte or among its first.
fn cut_short(random: &mut Random) -> Vec<u8> {
    let mut bytes = match random.flag() {
        true => whole(random),
        false => with_a_faulty_run(random),
    };
    let length = match random.below(3) {
        0 => bytes.len() - 1,
        1 => random.below(bytes.len().min(20)),
        _ => random.below(bytes.len()),
    };
    bytes.truncate(length);
    bytes
}

/// A whole exchange with 1 to 4 bits turned over, mostly in its first bytes.
fn turned_over(random: &mut Random) -> Vec<u8> {
    let mut bytes = whole(random);
    for _ in 0..random.between(1, 4) {
        let within = match random.below(3) {
            0 => bytes.len(),
            1 => bytes.len().min(20),
            _ => bytes.len().min(6),
        };
        let place = random.below(within);
        bytes[place] ^= 1 << random.below(8);
    }
    bytes
}

/// Header or payload missing, there twice, or only inside another element.
fn counted_wrong(random: &mut Random) -> Vec<u8> {
    let shape = pdu(random);
    let mut elements = parts(random, &shape);
    let which = random.below(2);
    match random.below(4) {
        0 => drop(elements.remove(which)),
        1 => elements.push(elements[which].clone()),
        2 => {
            let second = element(random, 1024 + which, &[]);
            elements.push(second);
        }
        _ => {
            let type_number = random.pick(&RUNS);
            elements[which] = element(random, type_number, &elements[which].clone());
        }
    }
    mixed(random, elements)
}

/// Something after a whole exchange or before it, or another type in its
/// place.
fn not_alone(random: &mut Random) -> Vec<u8> {
    let bytes = whole(random);
    let other = match random.below(3) {
        0 => whole(random),
        _ => beside(random, 1, 5),
    };
    match random.below(5) {
        0..=1 => [bytes, other].concat(),
        2 => [other, bytes].concat(),
        3 => {
            let count = random.between(1, 3);
            [bytes, random.bytes(count)].concat()
        }
        _ => {
            let shape = pdu(random);
            let type_number = random.pick(&[10, 11, 21, 148, 1024, 5_120]);
            let value = parts(random, &shape).concat();
            element(random, type_number, &value)
        }
    }
}

/// A PDU whose parts are not split at its header's end, or bytes after it.
fn split_elsewhere(random: &mut Random) -> Vec<u8> {
    let shape = pdu(random);
    let mut bytes = shape.bytes();
    let header = shape.header_length();
    if random.flag() {
        let count = random.between(1, 3);
        bytes.extend(random.bytes(count));
    }
    let place = match random.below(6) {
        0..=1 => header,
        2 => header - 1,
        3 => bytes.len().min(header + 1),
        4 => random.pick(&[0, 1, 5, bytes.len()]),
        _ => random.between(0, bytes.len()),
    };
    let elements = split(random, &bytes, place);
    mixed(random, elements)
}

/// An exchange whose parts joined are mostly no PDU.
fn of_no_pdu(random: &mut Random) -> Vec<u8> {
    let bytes = match random.below(4) {
        0..=1 => cut(random),
        2 => damaged(random),
        _ => random_bytes(random),
    };
    let place = match random.flag() {
        true => bytes.len().min(6),
        false => random.between(0, bytes.len()),
    };
    let elements = split(random, &bytes, place);
    mixed(random, elements)
}

#[cfg(test)]
mod tests {
    use super::*;

    fn answered(bytes: &[u8]) -> u8 {
        reference::read_exchange(bytes).map_or_else(|number| number, |_| 0)
    }

    #[test]
    fn whole_ones_are_read() {
        let mut random = Random::from_seed(1);
        for _ in 0..2000 {
            assert_eq!(answered(&whole(&mut random)), 0);
            assert_eq!(answered(&short_exchange(&mut random)), 0);
        }
    }

    #[test]
    fn every_number_is_common() {
        let mut random = Random::from_seed(1);
        let mut counts = [0; 64];
        for _ in 0..10_000 {
            counts[usize::from(answered(&exchange(&mut random)))] += 1;
        }
        assert!(counts[0] > 3_000, "{counts:?}");
        for number in [57, 58, 59, 63, 1, 5, 6] {
            assert!(counts[number] > 100, "{number}: {counts:?}");
        }
        for number in [2, 3, 4] {
            assert!(counts[number] > 10, "{number}: {counts:?}");
        }
    }

    #[test]
    fn runs_hold_an_exchange_and_are_cut() {
        let mut random = Random::from_seed(1);
        let (mut found, mut behind, mut cut) = (0, 0, 0);
        for _ in 0..2_000 {
            let run = sent_run(&mut random);
            let mut place = 0;
            while place < run.len() {
                let Ok(element) = reference::element_at(&run, place) else {
                    cut += 1;
                    break;
                };
                if element.type_number == 20 && answered(&run[place..element.value.end]) == 0 {
                    found += 1;
                    behind += usize::from(place > 0);
                }
                place = element.value.end;
            }
        }
        assert!(
            found > 800 && behind > 400 && cut > 300,
            "{found} {behind} {cut}"
        );
    }

    #[test]
    fn faulty_runs_are_cut_and_deep() {
        let mut random = Random::from_seed(1);
        let mut counts = [0; 64];
        for _ in 0..2_000 {
            counts[usize::from(answered(&with_a_faulty_run(&mut random)))] += 1;
        }
        for number in [0, 57, 58] {
            assert!(counts[number] > 200, "{number}: {counts:?}");
        }
    }

    #[test]
    fn lengths_about_127_are_written() {
        let mut random = Random::from_seed(1);
        let shapes: Vec<Shape> = (0..5_000).map(|_| pdu(&mut random)).collect();
        let some = |wanted: &dyn Fn(&Shape) -> bool| assert!(shapes.iter().any(wanted));
        for length in [126, 127, 128, 129] {
            some(&|shape| shape.header_length() == length);
            some(&|shape| shape.payload.len() == length);
            some(&|shape| shape.length() + 6 == length);
        }
        some(&|shape| shape.length() == reference::MOST_PDU);
    }
}
