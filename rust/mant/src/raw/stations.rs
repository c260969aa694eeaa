//! The stations heard.

use super::{Answer, Node};

/// `MANT_STATION_LIMIT`.
pub const STATION_LIMIT: usize = 128;
/// The words of a `MantStations`: how many stations are held, and four for each.
/// It is empty if the first is 0.
pub const STATION_WORDS: usize = 513;

/// A station that was heard. The counts stop at 65,535, each by itself.
/// In C `MantStation`.
#[repr(C)]
#[derive(Clone, Copy, Debug, Default, PartialEq, Eq)]
pub struct Station {
    /// Its address.
    pub address: u16,
    /// The PDUs read from it.
    pub reads: u16,
    /// Those of them that echo dropped.
    pub echoes: u16,
    /// False: none of them had the path bit, and so there is no shortest path
    /// count.
    pub has_path: bool,
    /// The least path count of those that had it; 0 where there is none.
    pub shortest_path: u16,
}

/// What asking for a station answers: number 0 and the station, or 56 and a
/// station that is all 0.
/// In C `MantFound`.
#[repr(C)]
#[derive(Clone, Copy, Debug, Default, PartialEq, Eq)]
pub struct Found {
    /// 0, or the number of the refusal.
    pub number: u8,
    /// The station, or all 0.
    pub station: Station,
}

/// What a table counts of a PDU that was read.
/// In C `MantHeard`.
#[repr(C)]
#[derive(Clone, Copy, Debug, Default, PartialEq, Eq)]
pub struct Heard {
    /// Source address.
    pub source: u16,
    /// The node dropped it by echo: it answered 30 or 42.
    pub echo: bool,
    /// False: it has no path, and `path_count` does not count.
    pub path_bit: bool,
    /// How many addresses the path has.
    pub path_count: u8,
}

/// What hearing and counting answers: the node's answer, which does not depend
/// on the table, and the table's number, 0 or 55.
/// In C `MantListened`.
#[repr(C)]
#[derive(Clone, Copy, Debug, Default, PartialEq, Eq)]
pub struct Listened {
    /// The node's answer.
    pub answer: Answer,
    /// 0, or 55.
    pub table_number: u8,
}

// The sizes that the header asserts.
const _: () = {
    assert!(size_of::<Station>() == 10);
    assert!(size_of::<Found>() == 12);
    assert!(size_of::<Heard>() == 6);
    assert!(size_of::<Listened>() == 48);
};

#[rustfmt::skip]
extern "C" {
    fn mant_stations_held(table: *const [u16; STATION_WORDS]) -> usize;
    fn mant_station_at(table: *const [u16; STATION_WORDS], place: usize) -> Found;
    fn mant_station_of(table: *const [u16; STATION_WORDS], address: u16) -> Found;
    fn mant_remove_station(table: *mut [u16; STATION_WORDS], address: u16) -> u8;
    fn mant_count_heard(table: *mut [u16; STATION_WORDS], heard: Heard) -> u8;
    fn mant_count_answer(table: *mut [u16; STATION_WORDS], received: *const u8, received_length: usize, answer: Answer) -> u8;
    fn mant_hear_and_count(
        node: Node, lists: *const u16, lists_length: usize,
        received: *const u8, received_length: usize, output: *mut u8, output_length: usize,
        table: *mut [u16; STATION_WORDS],
    ) -> Listened;
}

/// `mant_stations_held`.
pub fn stations_held(table: &[u16; STATION_WORDS]) -> usize {
    // SAFETY: here and below, the table is a live one, pointers and lengths are
    // those of live slices, and what is changed is borrowed alone.
    unsafe { mant_stations_held(table) }
}

/// `mant_station_at`.
pub fn station_at(table: &[u16; STATION_WORDS], place: usize) -> Found {
    // SAFETY: as above.
    unsafe { mant_station_at(table, place) }
}

/// `mant_station_of`.
pub fn station_of(table: &[u16; STATION_WORDS], address: u16) -> Found {
    // SAFETY: as above.
    unsafe { mant_station_of(table, address) }
}

/// `mant_remove_station`.
pub fn remove_station(table: &mut [u16; STATION_WORDS], address: u16) -> u8 {
    // SAFETY: as above.
    unsafe { mant_remove_station(table, address) }
}

/// `mant_count_heard`.
#[inline]
pub fn count_heard(table: &mut [u16; STATION_WORDS], heard: Heard) -> u8 {
    // SAFETY: as above.
    unsafe { mant_count_heard(table, heard) }
}

/// `mant_count_answer`.
pub fn count_answer(table: &mut [u16; STATION_WORDS], received: &[u8], answer: Answer) -> u8 {
    // SAFETY: as above.
    unsafe { mant_count_answer(table, received.as_ptr(), received.len(), answer) }
}

/// `mant_hear_and_count`.
#[inline]
pub fn hear_and_count(
    node: Node,
    lists: &[u16],
    received: &[u8],
    output: &mut [u8],
    table: &mut [u16; STATION_WORDS],
) -> Listened {
    // SAFETY: as above.
    unsafe {
        mant_hear_and_count(
            node,
            lists.as_ptr(),
            lists.len(),
            received.as_ptr(),
            received.len(),
            output.as_mut_ptr(),
            output.len(),
            table,
        )
    }
}
