//! Histories of a table of stations (02, W-201): what a box does with it.

use crate::block::{block, good_block, Block};
use crate::output::room;
use crate::random::Random;
use crate::received::received;
use crate::settings::{edition, settings};
use crate::shape::{address, shape};
use crate::table::{rising_table, TABLE_WORDS};
use reference::Settings;

/// What is done with a table.
#[derive(Clone, Debug, PartialEq, Eq)]
pub enum Deed {
    /// A node hears bytes.
    Hear(Box<Hearing>),
    /// A PDU of this source was read, dropped by echo or not, with this path
    /// count.
    Count(u16, bool, Option<u8>),
    /// A node answered this delivery number for the PDU in these bytes.
    CountAnswer(Vec<u8>, u8),
    /// The station of the address is removed.
    Remove(u16),
}

/// What a node hears, and what it is set to.
#[derive(Clone, Debug, PartialEq, Eq)]
pub struct Hearing {
    /// Its settings.
    pub settings: Settings,
    /// Its lists.
    pub lists: Block,
    /// The received bytes.
    pub received: Vec<u8>,
    /// So much room its output has.
    pub room: usize,
}

/// The words of a table, and what is done with it in turn.
#[derive(Clone, Debug, PartialEq, Eq)]
pub struct History {
    /// A table whose addresses rise.
    pub words: [u16; TABLE_WORDS],
    /// One after the other.
    pub deeds: Vec<Deed>,
}

/// A history around a node: of a few sources that come again and again, or of
/// more than a table holds, each of them in turn.
pub fn history(random: &mut Random) -> History {
    let words = rising_table(random);
    let (sources, turns) = match random.one_in(12) {
        true => (many_sources(random), random.between(260, 420)),
        false => (few_sources(random, &words), random.between(1, 30)),
    };
    let node = (settings(random), good_block(random));
    let deeds = (0..turns)
        .map(|turn| deed(random, &node, sources[turn % sources.len()]))
        .collect();
    History { words, deeds }
}

/// More sources than a table holds, in any order.
fn many_sources(random: &mut Random) -> Vec<u16> {
    let count = random.between(129, 160);
    (0..count).map(|_| random.word()).collect()
}

/// Up to 12 turns of a few sources, among them some that the words hold.
fn few_sources(random: &mut Random, words: &[u16]) -> Vec<u16> {
    let near: Vec<u16> = (0..random.between(1, 5))
        .map(|_| source_near(random, words))
        .collect();
    (0..random.between(1, 12))
        .map(|_| random.pick(&near))
        .collect()
}

/// An address that stands in the words, or the next one, or any.
pub fn source_near(random: &mut Random, words: &[u16]) -> u16 {
    let stations = words.len().saturating_sub(1) / 4;
    let held = words.first().map_or(0, |first| usize::from(*first));
    if stations == 0 || random.one_in(4) {
        return address(random);
    }
    let place = random.below(stations.min(held.max(1)));
    let more = random.pick(&[0, 0, 0, 1, u16::MAX]);
    words[1 + 4 * place].wrapping_add(more)
}

/// Delivery numbers that tell of a PDU that was read, or was not, and numbers
/// beside them.
const DELIVERIES: [u8; 21] = [
    0, 1, 6, 7, 17, 18, 19, 20, 22, 23, 29, 30, 30, 31, 34, 35, 39, 40, 42, 42, 43,
];

/// Something done about the source, mostly hearing it.
pub fn deed(random: &mut Random, node: &(Settings, Block), source: u16) -> Deed {
    match random.below(16) {
        0 => Deed::Remove(source),
        1..=3 => Deed::Count(source, random.flag(), path_count(random)),
        4 => {
            let bytes = valid_report(random, node.0.own_address, source);
            Deed::CountAnswer(bytes, random.pick(&DELIVERIES))
        }
        _ => hearing(random, node, source),
    }
}

/// The path count of a PDU with the path bit.
fn path_count(random: &mut Random) -> Option<u8> {
    let count = random.byte();
    random.flag().then(|| count >> random.below(8))
}

/// Hearing the source at the node, now and then set otherwise, with a list at
/// fault or under no edition.
fn hearing(random: &mut Random, node: &(Settings, Block), source: u16) -> Deed {
    let (own_address, lists) = (node.0.own_address, &node.1);
    let chosen = match random.one_in(6) {
        true => settings(random),
        false => node.0,
    };
    let lists = match random.one_in(6) {
        true => block(random),
        false => lists.clone(),
    };
    let edition = match random.one_in(6) {
        true => edition(random),
        false => chosen.edition,
    };
    let received = report(random, own_address, source);
    Deed::Hear(Box::new(Hearing {
        settings: Settings {
            edition,
            own_address,
            ..chosen
        },
        lists,
        room: room(random, received.len() + 2),
        received,
    }))
}

/// Bytes from the source: mostly a valid PDU, else a damaged or a cut one, or
/// bytes of every kind.
fn report(random: &mut Random, own_address: u16, source: u16) -> Vec<u8> {
    let mut bytes = valid_report(random, own_address, source);
    match random.below(16) {
        0 => bytes[random.below(4)] ^= 1 << random.below(8),
        1 => bytes.truncate(random.below(bytes.len())),
        2 => return received(random),
        _ => {}
    }
    bytes
}

/// A short valid PDU from the source, at times from the node itself, with the
/// node's address often in its path.
fn valid_report(random: &mut Random, own_address: u16, source: u16) -> Vec<u8> {
    let mut pdu = shape(random);
    pdu.source = match random.one_in(8) {
        true => own_address,
        false => source,
    };
    pdu.payload.truncate(random.below(12));
    if let Some(path) = &mut pdu.path {
        if !random.one_in(8) {
            path.truncate(random.below(6));
        }
        if random.one_in(3) && !path.is_empty() {
            let place = random.below(path.len());
            path[place] = own_address;
        }
    }
    pdu.bytes()
}

#[cfg(test)]
mod tests {
    use super::*;
    use reference::{hear_and_count, Stations};

    /// How often each number was answered in histories of empty tables, by
    /// the node and by the table, and how many tables were driven full.
    fn answered() -> (Vec<usize>, Vec<usize>, usize) {
        let mut random = Random::from_seed(1);
        let (mut node, mut table, mut full) = (vec![0; 256], vec![0; 256], 0);
        for _ in 0..600 {
            let mut stations = Stations::empty();
            let mut most = 0;
            for deed in history(&mut random).deeds {
                let number = match deed {
                    Deed::Hear(heard) => {
                        let (answer, number) = hear_and_count(
                            &heard.settings,
                            &heard.lists.lists(),
                            &heard.received,
                            &mut vec![0; heard.room],
                            &mut stations,
                        );
                        node[usize::from(answer.delivery)] += 1;
                        number
                    }
                    Deed::Count(source, echo, path) => {
                        stations.count(source, echo, path.map(u16::from))
                    }
                    Deed::CountAnswer(..) => 0,
                    Deed::Remove(address) => stations.remove(address),
                };
                table[usize::from(number)] += 1;
                most = most.max(stations.list().len());
            }
            full += usize::from(most == 128);
        }
        (node, table, full)
    }

    #[test]
    fn every_number_arises() {
        let (node, table, full) = answered();
        for number in [
            0, 1, 2, 3, 5, 6, 17, 20, 21, 22, 30, 31, 32, 33, 34, 35, 39, 40,
        ] {
            assert!(node[number] > 0, "{number}: {node:?}");
        }
        assert!(node[30] > 100 && node[42] > 100, "{node:?}");
        assert!(
            table[0] > 1000 && table[55] > 100 && table[56] > 100,
            "{table:?}"
        );
        assert!(full > 20, "{full}");
    }

    #[test]
    fn stations_come_again() {
        let mut random = Random::from_seed(1);
        let mut again = 0;
        for _ in 0..200 {
            let mut stations = Stations::empty();
            for deed in history(&mut random).deeds {
                if let Deed::Count(source, echo, path) = deed {
                    again += usize::from(stations.get(source).is_ok());
                    stations.count(source, echo, path.map(u16::from));
                }
            }
        }
        assert!(again > 100, "{again}");
    }
}
