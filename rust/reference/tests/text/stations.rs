//! 02, W-201, sentence by sentence.

use crate::{node, report};
use reference::*;

/// Node 2000, echo and repeating on.
const NODE: Settings = node(2000);

/// A PDU for everyone from this source, with hop limit 7 and this path.
fn pdu(source: u16, path: Option<&[u16]>) -> Vec<u8> {
    report(source, 7, path)
}

/// Heard at node 2000 with ample room: the delivery number and the table's.
fn heard(stations: &mut Stations, received: &[u8]) -> (u8, u8) {
    let mut out = [0; MOST_PDU];
    let (answer, number) = hear_and_count(&NODE, &Lists::EMPTY, received, &mut out, stations);
    (answer.delivery, number)
}

fn station(address: u16, reads: u16, echoes: u16, shortest_path: Option<u16>) -> Station {
    Station {
        address,
        reads,
        echoes,
        shortest_path,
    }
}

/// A table of the addresses 1 to 128, heard from the last to the first.
fn full() -> Stations {
    let mut stations = Stations::empty();
    for source in (1..=128).rev() {
        assert_eq!(heard(&mut stations, &pdu(source, None)), (0, 0));
    }
    stations
}

#[test]
fn reads_echoes_and_the_shortest_path_are_kept() {
    let mut stations = Stations::empty();
    assert_eq!(heard(&mut stations, &pdu(9, Some(&[1, 2, 3]))), (0, 0));
    assert_eq!(stations.list(), [station(9, 1, 0, Some(3))]);
    assert_eq!(heard(&mut stations, &pdu(9, Some(&[1, 2000]))), (30, 0));
    assert_eq!(stations.list(), [station(9, 2, 1, Some(2))]);
    assert_eq!(heard(&mut stations, &pdu(9, Some(&[1, 2, 3]))), (0, 0));
    assert_eq!(heard(&mut stations, &pdu(9, None)), (0, 0));
    assert_eq!(stations.list(), [station(9, 4, 1, Some(2))]);
}

#[test]
fn an_absent_path_count_is_not_0() {
    let mut stations = Stations::empty();
    heard(&mut stations, &pdu(9, None));
    assert_eq!(stations.get(9), Ok(station(9, 1, 0, None)));
    heard(&mut stations, &pdu(9, Some(&[])));
    assert_eq!(stations.get(9), Ok(station(9, 2, 0, Some(0))));
}

#[test]
fn what_is_read_counts_whatever_the_lists_say() {
    let mut stations = Stations::empty();
    let settings = Settings {
        source_pass: Choice::First,
        ..NODE
    };
    let received = pdu(9, None);
    let (answer, number) =
        hear_and_count(&settings, &Lists::EMPTY, &received, &mut [], &mut stations);
    assert_eq!((answer.delivery, number), (31, 0));
    let (answer, number) = hear_and_count(&NODE, &Lists::EMPTY, &received, &mut [], &mut stations);
    assert_eq!((answer.delivery, number), (40, 0));
    assert_eq!(stations.list(), [station(9, 2, 0, None)]);
}

#[test]
fn what_is_not_read_does_not_count() {
    let mut stations = Stations::empty();
    for received in [&pdu(9, None)[..5], &pdu(9, Some(&[7]))[..8], &[0x40; 20]] {
        let (delivery, number) = heard(&mut stations, received);
        assert!((1..=6).contains(&delivery) && number == 0);
    }
    let fault = Lists::firsts([&[], &[], &[], &[2, 1]]);
    let (answer, number) = hear_and_count(&NODE, &fault, &pdu(9, None), &mut [], &mut stations);
    assert_eq!((answer.delivery, number), (20, 0));
    assert_eq!(stations.list(), []);
}

#[test]
fn the_listing_is_by_rising_address() {
    let stations = full();
    let addresses: Vec<u16> = stations.list().iter().map(|one| one.address).collect();
    assert!(addresses.into_iter().eq(1..=128));
}

#[test]
fn the_129th_is_refused_and_changes_nothing() {
    let mut stations = full();
    let before = stations.list();
    assert_eq!(heard(&mut stations, &pdu(200, None)), (0, 55));
    assert_eq!(stations.list(), before);
    assert_eq!(stations.get(200), Err(56));
    assert_eq!(heard(&mut stations, &pdu(64, None)), (0, 0));
    assert_eq!(stations.get(64), Ok(station(64, 2, 0, None)));
    assert_eq!(stations.remove(1), 0);
    assert_eq!(heard(&mut stations, &pdu(200, None)), (0, 0));
    assert_eq!(stations.list().len(), MOST_STATIONS);
}

#[test]
fn counts_stop_each_by_itself() {
    let near = station(9, 65_534, 65_533, Some(7));
    let mut stations = Stations::holding(&[near]);
    heard(&mut stations, &pdu(9, Some(&[2000; 8])));
    assert_eq!(stations.get(9), Ok(station(9, 65_535, 65_534, Some(7))));
    heard(&mut stations, &pdu(9, Some(&[2000; 6])));
    heard(&mut stations, &pdu(9, Some(&[2000; 5])));
    assert_eq!(stations.get(9), Ok(station(9, 65_535, 65_535, Some(5))));
}

#[test]
fn a_removed_station_starts_anew() {
    let mut stations = Stations::empty();
    heard(&mut stations, &pdu(9, Some(&[2000])));
    assert_eq!(stations.remove(9), 0);
    assert_eq!((stations.remove(9), stations.get(9)), (56, Err(56)));
    heard(&mut stations, &pdu(9, None));
    assert_eq!(stations.list(), [station(9, 1, 0, None)]);
}
