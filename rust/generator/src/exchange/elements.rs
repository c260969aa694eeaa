//! Elements and exchanges of them.

use crate::random::Random;
use crate::shape::Shape;

/// The types whose values are runs of elements.
pub const RUNS: [usize; 3] = [10, 11, 20];
/// Types of other elements, small and large, some of them those that count but
/// for one bit.
const OTHERS: [usize; 20] = [
    0, 1, 2, 9, 12, 21, 24, 117, 127, 128, 138, 148, 276, 1023, 1026, 1027, 4_100, 17_408, 17_409,
    32_767,
];

/// A number in one byte or two, the longer form at times where the shorter
/// would do.
fn number(random: &mut Random, number: usize) -> Vec<u8> {
    if number < 128 && !random.one_in(4) {
        return vec![number as u8];
    }
    vec![128 + (number / 256) as u8, (number % 256) as u8]
}

/// An element, its numbers in either form.
pub fn element(random: &mut Random, type_number: usize, value: &[u8]) -> Vec<u8> {
    let mut bytes = number(random, type_number);
    bytes.extend(number(random, value.len()));
    bytes.extend(value);
    bytes
}

/// The elements of header and payload.
pub fn parts(random: &mut Random, shape: &Shape) -> Vec<Vec<u8>> {
    split(random, &shape.bytes(), shape.header_length())
}

/// The elements of these bytes, split at a place.
pub fn split(random: &mut Random, bytes: &[u8], place: usize) -> Vec<Vec<u8>> {
    let (header, payload) = bytes.split_at(place);
    vec![
        element(random, 1024, header),
        element(random, 1025, payload),
    ]
}

/// An exchange of these elements in any order, with others beside them.
pub fn mixed(random: &mut Random, elements: Vec<Vec<u8>>) -> Vec<u8> {
    let mut mixed: Vec<Vec<u8>> = vec![];
    for element in elements {
        let place = random.between(0, mixed.len());
        mixed.insert(place, element);
    }
    if random.flag() {
        for _ in 0..random.between(1, 3) {
            let place = random.between(0, mixed.len());
            let beside = beside(random, 2, 4);
            mixed.insert(place, beside);
        }
    }
    if random.one_in(40) {
        let count = random.between(16_380, 20_000);
        let long = random.bytes(count);
        mixed.push(element(random, 1026, &long));
    }
    element(random, 20, &mixed.concat())
}

/// An element at a level that stands beside header and payload, with elements
/// inside it down to the deepest level asked for.
pub fn beside(random: &mut Random, level: usize, deepest: usize) -> Vec<u8> {
    if random.one_in(3) {
        let type_number = random.pick(&RUNS);
        let inner = match level < deepest {
            true => run(random, level + 1, deepest),
            false => vec![],
        };
        return element(random, type_number, &inner);
    }
    let type_number = other_type(random, level);
    let count = match random.below(12) {
        0 => random.between(125, 130),
        1..=3 => 0,
        _ => random.between(1, 8),
    };
    let value = random.bytes(count);
    element(random, type_number, &value)
}

/// The type of a plain element: below level 2 also those of header and
/// payload, which count at level 2 only.
fn other_type(random: &mut Random, level: usize) -> usize {
    match random.below(6) {
        0 if level != 2 => random.between(1024, 1025),
        1 => random.between(1026, 32_767),
        _ => random.pick(&OTHERS),
    }
}

/// A few elements of a level, one after the other.
pub fn run(random: &mut Random, level: usize, deepest: usize) -> Vec<u8> {
    let count = random.below(4);
    let elements: Vec<_> = (0..count).map(|_| beside(random, level, deepest)).collect();
    elements.concat()
}

/// An element that holds a run so many levels deeper, every length right but
/// that of the innermost elements, which may be cut.
pub fn nested(random: &mut Random, level: usize, levels: usize) -> Vec<u8> {
    let type_number = random.pick(&RUNS);
    let before = run(random, level + 1, 4);
    let mut inner = match levels {
        1 => run(random, level + 1, level + 1),
        _ => nested(random, level + 1, levels - 1),
    };
    if random.one_in(4) {
        inner.truncate(random.between(0, inner.len()));
    }
    let value = match random.flag() {
        true => inner,
        false => [before, inner].concat(),
    };
    element(random, type_number, &value)
}
