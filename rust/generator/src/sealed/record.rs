//! Words that hold a record of last accepted numbers (include/mant.h, "Sealing
//! and opening").

use crate::random::Random;
use crate::shape::address;
use reference::MOST_SOURCES;

/// So many words hold a record.
pub const RECORD_WORDS: usize = 1 + 2 * MOST_SOURCES;

/// Words of an empty record, any words behind the first.
pub fn empty_record(random: &mut Random) -> [u32; RECORD_WORDS] {
    let mut words = std::array::from_fn(|_| random.draw() as u32);
    words[0] = 0;
    words
}

/// Words of a record put together by hand: any number of sources, among them
/// some twice, some that are no address, and any number in the first word.
pub fn any_record(random: &mut Random) -> [u32; RECORD_WORDS] {
    let mut words = empty_record(random);
    for pair in words[1..].chunks_exact_mut(2) {
        pair[0] = match random.below(8) {
            0 => 65_536 + u32::from(address(random)),
            _ => u32::from(address(random)),
        };
        pair[1] >>= random.below(32);
    }
    words[0] = match random.below(4) {
        0 => MOST_SOURCES as u32,
        1 => random.draw() as u32,
        2 => MOST_SOURCES as u32 + 1,
        _ => random.between(0, MOST_SOURCES) as u32,
    };
    words
}
