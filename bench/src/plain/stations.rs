//! The stations heard.

use mant::raw::{Heard, Listened, Node, Station, STATION_LIMIT};

/// The stations heard, by rising address.
#[repr(C)]
#[derive(Clone, Debug)]
pub struct Table {
    held: usize,
    stations: [Station; STATION_LIMIT],
}

impl Table {
    /// A table that holds none.
    pub fn empty() -> Table {
        Table {
            held: 0,
            stations: [Station::default(); STATION_LIMIT],
        }
    }

    /// The stations that are held.
    pub fn stations(&self) -> &[Station] {
        &self.stations[..self.held]
    }
}

#[rustfmt::skip]
extern "C" {
    fn plain_count_heard(table: *mut Table, heard: Heard) -> u8;
    fn plain_hear_and_count(
        node: Node, lists: *const u16, lists_length: usize, received: *const u8, length: usize, output: *mut u8, output_length: usize,
        table: *mut Table,
    ) -> Listened;
}

/// `plain_count_heard`.
#[inline]
pub fn count_heard(table: &mut Table, heard: Heard) -> u8 {
    // SAFETY: the table is laid out as in C and borrowed alone.
    unsafe { plain_count_heard(table, heard) }
}

/// `plain_hear_and_count`.
#[inline]
pub fn hear_and_count(
    node: Node,
    lists: &[u16],
    received: &[u8],
    output: &mut [u8],
    table: &mut Table,
) -> Listened {
    // SAFETY: as above, and pointers and lengths are those of live slices.
    unsafe {
        plain_hear_and_count(
            node,
            lists.as_ptr(),
            lists.len(),
            received.as_ptr(),
            received.len(),
            output.as_mut_ptr(),
            output.len(),
            table,
        )
    }
}
