//! Tables of stations as words (include/mant.h, "Stations heard"; 02, W-201).

use crate::random::Random;
use crate::shape::address;
use reference::MOST_STATIONS;
use std::collections::BTreeSet;

/// So many words hold a table.
pub const TABLE_WORDS: usize = 1 + 4 * MOST_STATIONS;

/// The words of a table with addresses that rise: empty, full or between; with
/// counts often near their top. Behind the stations stand any words.
pub fn rising_table(random: &mut Random) -> [u16; TABLE_WORDS] {
    let mut words = any_table(random);
    let held = match random.below(8) {
        0..=3 => 0,
        4 => random.below(6),
        5 => random.between(MOST_STATIONS - 2, MOST_STATIONS),
        6 => MOST_STATIONS,
        _ => random.between(0, MOST_STATIONS),
    };
    let mut addresses = BTreeSet::new();
    while addresses.len() < held {
        addresses.insert(address(random));
    }
    words[0] = first_word(random, held);
    for (place, address) in addresses.into_iter().enumerate() {
        let station = [address, count(random), count(random), path_word(random)];
        words[1 + 4 * place..5 + 4 * place].copy_from_slice(&station);
    }
    words
}

/// Any words; often the first is small.
pub fn any_table(random: &mut Random) -> [u16; TABLE_WORDS] {
    let mut words = std::array::from_fn(|_| random.word());
    if random.flag() {
        words[0] = random.below(140) as u16;
    }
    words
}

/// The number held; a full table may say more.
fn first_word(random: &mut Random, held: usize) -> u16 {
    if held == MOST_STATIONS && random.flag() {
        random.between(held, 65_535) as u16
    } else {
        held as u16
    }
}

/// A count, mostly near its top.
fn count(random: &mut Random) -> u16 {
    match random.below(4) {
        0 => random.between(65_532, 65_535) as u16,
        1 => random.between(65_500, 65_535) as u16,
        2 => random.below(10) as u16,
        _ => random.word(),
    }
}

/// One more than a path count, or 0.
fn path_word(random: &mut Random) -> u16 {
    match random.below(4) {
        0 => 0,
        1 => random.between(1, 6) as u16,
        2 => random.between(1, 256) as u16,
        _ => random.word(),
    }
}

#[cfg(test)]
mod tests {
    use super::*;

    #[test]
    fn addresses_rise() {
        let mut random = Random::from_seed(1);
        let mut full = 0;
        for _ in 0..2000 {
            let words = rising_table(&mut random);
            let held = usize::from(words[0]).min(MOST_STATIONS);
            full += usize::from(held == MOST_STATIONS);
            let stations = words[1..].chunks_exact(4).take(held);
            let addresses: Vec<u16> = stations.map(|station| station[0]).collect();
            assert!(addresses.windows(2).all(|pair| pair[0] < pair[1]));
        }
        assert!(full > 100, "{full}");
    }
}
