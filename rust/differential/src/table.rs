//! Tables of stations, and the reading of their words that `include/mant.h`
//! gives.

use crate::guarded::Guarded;
use generator::Random;
use mant::raw::{self, Found, Station, STATION_LIMIT, STATION_WORDS};

/// What asking answers where no station is held.
pub const NOT_HELD: Found = Found {
    number: 56,
    station: Station {
        address: 0,
        reads: 0,
        echoes: 0,
        has_path: false,
        shortest_path: 0,
    },
};

/// A table and what surrounds it.
#[derive(Clone, Debug, PartialEq, Eq)]
pub struct Table(Guarded<u16>);

impl Table {
    /// These words between any words.
    pub fn of(random: &mut Random, words: &[u16]) -> Table {
        let any = |random: &mut Random, count| (0..count).map(|_| random.word()).collect();
        Table(Guarded::of(random, words, any))
    }

    /// The table's words.
    pub fn words(&self) -> &[u16; STATION_WORDS] {
        self.0.elements().try_into().expect("a table's words")
    }

    /// The same to be changed.
    pub fn change(&mut self) -> &mut [u16; STATION_WORDS] {
        self.0.change().try_into().expect("a table's words")
    }

    /// The stations that are held.
    pub fn stations(&self) -> Vec<Station> {
        let words = self.words();
        let held = usize::from(words[0]).min(STATION_LIMIT);
        let stations = words[1..].chunks_exact(4);
        stations.take(held).map(station).collect()
    }

    /// The table once it holds these stations, the words behind them kept.
    pub fn holding(&self, stations: &[Station]) -> Table {
        let mut table = self.clone();
        let words = table.change();
        words[0] = stations.len() as u16;
        for (place, station) in stations.iter().enumerate() {
            words[1 + 4 * place..5 + 4 * place].copy_from_slice(&four_words(station));
        }
        table
    }
}

/// The station in four words.
fn station(words: &[u16]) -> Station {
    Station {
        address: words[0],
        reads: words[1],
        echoes: words[2],
        has_path: words[3] != 0,
        shortest_path: words[3].saturating_sub(1),
    }
}

/// A station's four words.
fn four_words(station: &Station) -> [u16; 4] {
    let path = u16::from(station.has_path) * (station.shortest_path + 1);
    [station.address, station.reads, station.echoes, path]
}

/// The library's station for the reference.
pub fn in_reference(station: Station) -> reference::Station {
    reference::Station {
        address: station.address,
        reads: station.reads,
        echoes: station.echoes,
        shortest_path: station.has_path.then_some(station.shortest_path),
    }
}

/// Whether a node that answers this delivery number has read the PDU.
pub fn is_read(delivery: u8) -> bool {
    !matches!(delivery, 1..=6 | 17 | 20..=22)
}

/// A node's answer with this delivery number for the PDU in these bytes.
pub fn answer_for(bytes: &[u8], delivery: u8) -> raw::Answer {
    raw::Answer {
        delivery,
        taken: if is_read(delivery) { bytes.len() } else { 0 },
        ..raw::Answer::default()
    }
}
