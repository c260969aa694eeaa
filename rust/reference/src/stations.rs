//! 02, W-201: the stations heard; numbers 55 and 56.

use crate::edition::Edition;
use crate::header::{read, Header};
use crate::lists::{list_fault, Lists};
use crate::node::{hear, Answer, Settings};
use crate::numbers::{DONE, ECHO, NOT_HELD, OWN_SOURCE, TABLE_FULL};
use std::collections::BTreeMap;

/// So many stations a table holds.
pub const MOST_STATIONS: usize = 128;
/// A count is shown as this at most.
const MOST_COUNT: u32 = 65_535;

/// A station as the table shows it.
#[derive(Clone, Copy, Debug, PartialEq, Eq)]
pub struct Station {
    /// Its address.
    pub address: u16,
    /// The number of PDUs read from it, at most 65,535.
    pub reads: u16,
    /// The number of them dropped by echo, at most 65,535.
    pub echoes: u16,
    /// The shortest path count seen, absent while none was.
    pub shortest_path: Option<u16>,
}

/// What was heard of a station since it was taken in. The counts go on past
/// 65,535, and are cut where they are shown.
#[derive(Clone, Copy, Debug, Default)]
struct Entry {
    reads: u32,
    echoes: u32,
    shortest_path: Option<u16>,
}

/// The table of the stations heard.
#[derive(Clone, Debug)]
pub struct Stations {
    entries: BTreeMap<u16, Entry>,
}

impl Stations {
    /// An empty table.
    pub fn empty() -> Stations {
        Stations::holding(&[])
    }

    /// A table that holds these.
    pub fn holding(stations: &[Station]) -> Stations {
        let entries = stations.iter().map(|station| {
            let entry = Entry {
                reads: u32::from(station.reads),
                echoes: u32::from(station.echoes),
                shortest_path: station.shortest_path,
            };
            (station.address, entry)
        });
        Stations {
            entries: entries.collect(),
        }
    }

    /// Counts a PDU that was read, by its header and whether it was dropped
    /// by echo: 0, or 55 and nothing changes.
    pub fn read(&mut self, header: &Header, echo: bool) -> u8 {
        let path_count = header.path.as_ref().map(|path| path.len() as u16);
        self.count(header.source, echo, path_count)
    }

    /// The same by the three things that count.
    pub fn count(&mut self, source: u16, echo: bool, path_count: Option<u16>) -> u8 {
        let is_new = !self.entries.contains_key(&source);
        if is_new && self.entries.len() >= MOST_STATIONS {
            return TABLE_FULL;
        }
        let entry = self.entries.entry(source).or_default();
        entry.reads += 1;
        if echo {
            entry.echoes += 1;
        }
        let seen = entry.shortest_path.into_iter().chain(path_count);
        entry.shortest_path = seen.min();
        DONE
    }

    /// Removes a station: 0, or 56.
    pub fn remove(&mut self, address: u16) -> u8 {
        match self.entries.remove(&address) {
            Some(_) => DONE,
            None => NOT_HELD,
        }
    }

    /// The station at an address, or 56.
    pub fn get(&self, address: u16) -> Result<Station, u8> {
        let entry = self.entries.get(&address).ok_or(NOT_HELD)?;
        Ok(shown(address, entry))
    }

    /// All stations, by rising address.
    pub fn list(&self) -> Vec<Station> {
        let entries = self.entries.iter();
        entries
            .map(|(address, entry)| shown(*address, entry))
            .collect()
    }
}

/// An entry with its counts cut.
fn shown(address: u16, entry: &Entry) -> Station {
    let cut = |count: u32| count.min(MOST_COUNT) as u16;
    Station {
        address,
        reads: cut(entry.reads),
        echoes: cut(entry.echoes),
        shortest_path: entry.shortest_path,
    }
}

/// Does a PDU that was answered so count as dropped by echo? 42 does too (02,
/// W-203).
pub fn counts_as_echo(delivery: u8) -> bool {
    [ECHO, OWN_SOURCE].contains(&delivery)
}

/// One PDU at one node, and then in its table. It counts if it was read; an
/// unknown edition and a list's fault come before reading, a list's refusal
/// after it. Gives the node's answer and the table's number.
pub fn hear_and_count(
    settings: &Settings,
    lists: &Lists,
    received: &[u8],
    out: &mut [u8],
    stations: &mut Stations,
) -> (Answer, u8) {
    let answer = hear(settings, lists, received, out);
    if Edition::of(settings.edition).is_err() || list_fault(lists).is_some() {
        return (answer, DONE);
    }
    let number = match read(received) {
        Ok(header) => stations.read(&header, counts_as_echo(answer.delivery)),
        Err(_) => DONE,
    };
    (answer, number)
}
