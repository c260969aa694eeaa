//! Counting in a full table of stations, all of them held.

use crate::inputs::{self, NODE, NO_LISTS, SETTINGS};
use crate::plain;
use crate::timing::{copy, hidden, measure, Measured};
use mant::raw::{self, Heard, STATION_LIMIT, STATION_WORDS};
use reference::{hear_and_count, Lists, Stations};
use std::hint::black_box;

/// The words of one station.
const STATION_BYTES: usize = 8;

/// The same full table three times.
struct Full {
    library: [u16; STATION_WORDS],
    reference: Stations,
    plain: plain::Table,
}

impl Full {
    /// The addresses 1000, 1002 and so on, each heard once.
    fn table() -> Full {
        let mut full = Full {
            library: [0; STATION_WORDS],
            reference: Stations::empty(),
            plain: plain::Table::empty(),
        };
        for place in 0..STATION_LIMIT {
            let heard = heard(place, place);
            assert_eq!(raw::count_heard(&mut full.library, heard), 0);
            assert_eq!(count_in_reference(&mut full.reference, heard), 0);
            assert_eq!(plain::count_heard(&mut full.plain, heard), 0);
        }
        full
    }

    /// The three list the same.
    fn check(&self) {
        let held = raw::stations_held(&self.library);
        let listed = (0..held).map(|place| raw::station_at(&self.library, place).station);
        let listed: Vec<raw::Station> = listed.collect();
        assert_eq!(listed, self.plain.stations());
        let reads = self.reference.list().into_iter().map(|one| one.reads);
        assert!(reads.eq(listed.iter().map(|one| one.reads)));
    }
}

/// PDUs of stations that are held, in an order that is not guessed, over and
/// over.
struct Turns {
    heard: Vec<Heard>,
    next: usize,
}

impl Turns {
    fn new() -> Turns {
        let mut state: u64 = 1;
        let heard = (0..4_096).map(|turn| {
            state = state.wrapping_mul(6_364_136_223_846_793_005);
            state = state.wrapping_add(1_442_695_040_888_963_407);
            heard((state >> 57) as usize, turn)
        });
        Turns {
            heard: heard.collect(),
            next: 0,
        }
    }

    #[inline]
    fn turn(&mut self) -> Heard {
        self.next = (self.next + 1) % 4_096;
        self.heard[self.next]
    }
}

/// A PDU of the station at a place of the table.
fn heard(place: usize, turn: usize) -> Heard {
    Heard {
        source: 1000 + 2 * place as u16,
        echo: turn.is_multiple_of(8),
        path_bit: turn.is_multiple_of(2),
        path_count: (turn % 7) as u8,
    }
}

#[inline]
fn count_in_reference(stations: &mut Stations, heard: Heard) -> u8 {
    let path_count = heard.path_bit.then_some(u16::from(heard.path_count));
    stations.count(heard.source, heard.echo, path_count)
}

/// Counting a PDU of a station that is held, a full table; memcpy copies as
/// many bytes as a station's words are.
pub fn counting() -> [Measured; 4] {
    let Full {
        mut library,
        mut reference,
        mut plain,
    } = Full::table();
    let [mut first, mut second, mut third] = [Turns::new(), Turns::new(), Turns::new()];
    measure(
        &[7; STATION_BYTES],
        [
            &mut |_: &[u8], _: &mut [u8]| {
                black_box(raw::count_heard(&mut library, first.turn()));
            },
            &mut |_: &[u8], _: &mut [u8]| {
                black_box(count_in_reference(&mut reference, second.turn()));
            },
            &mut |_: &[u8], _: &mut [u8]| {
                black_box(plain::count_heard(&mut plain, third.turn()));
            },
            &mut |input: &[u8], output: &mut [u8]| copy(input, output, STATION_BYTES),
        ],
    )
}

/// The example at node 2000, repeated and counted, a full table that holds its
/// source; memcpy copies the PDU.
pub fn hearing_and_counting() -> [Measured; 4] {
    let Full {
        mut library,
        mut reference,
        mut plain,
    } = Full::table();
    let pdu = inputs::example();
    let length = pdu.len();
    measure(
        &pdu,
        [
            &mut |input: &[u8], output: &mut [u8]| {
                let (node, lists) = (black_box(NODE), hidden(NO_LISTS));
                let table = &mut library;
                black_box(raw::hear_and_count(node, lists, input, output, table));
            },
            &mut |input: &[u8], output: &mut [u8]| {
                let (settings, lists) = (black_box(&SETTINGS), Lists::EMPTY);
                let stations = &mut reference;
                black_box(hear_and_count(settings, &lists, input, output, stations));
            },
            &mut |input: &[u8], output: &mut [u8]| {
                let (node, lists) = (black_box(NODE), hidden(NO_LISTS));
                let table = &mut plain;
                black_box(plain::hear_and_count(node, lists, input, output, table));
            },
            &mut |input: &[u8], output: &mut [u8]| copy(input, output, length),
        ],
    )
}

/// The plain table answers as the library's does on what is measured, and for
/// a new station.
pub fn check_plain() {
    let (mut full, mut turns) = (Full::table(), Turns::new());
    for _ in 0..4_096 {
        let heard = turns.turn();
        let number = raw::count_heard(&mut full.library, heard);
        assert_eq!(number, plain::count_heard(&mut full.plain, heard));
        assert_eq!(number, count_in_reference(&mut full.reference, heard));
        assert_eq!(number, 0);
    }
    let new = heard(STATION_LIMIT, 0);
    assert_eq!(raw::count_heard(&mut full.library, new), 55);
    assert_eq!(plain::count_heard(&mut full.plain, new), 55);
    full.check();
    let (mut one, mut other) = ([0; 64], [0; 64]);
    let pdu = inputs::example();
    for length in 0..=pdu.len() {
        let cut = &pdu[..length];
        let table = &mut full.library;
        let library = raw::hear_and_count(NODE, NO_LISTS, cut, &mut one, table);
        let table = &mut full.plain;
        let plain = plain::hear_and_count(NODE, NO_LISTS, cut, &mut other, table);
        assert_eq!(library, plain);
        assert_eq!(one, other);
        let (_, number) = hear_and_count(
            &SETTINGS,
            &Lists::EMPTY,
            cut,
            &mut other,
            &mut full.reference,
        );
        assert_eq!(library.table_number, number);
    }
    full.check();
}
