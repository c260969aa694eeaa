//! 02, W-203, sentence by sentence.

use crate::{node, report};
use reference::*;

/// Heard with room: the two numbers and the repeated PDU.
fn heard(settings: &Settings, lists: &Lists, received: &[u8]) -> (u8, u8, Vec<u8>) {
    let mut out = [0xAA; 64];
    let answer = hear(settings, lists, received, &mut out);
    let (repeated, rest) = out.split_at(answer.repeated_length);
    assert!(rest.iter().all(|byte| *byte == 0xAA));
    (answer.delivery, answer.repeat, repeated.to_vec())
}

fn numbers(settings: &Settings, received: &[u8]) -> (u8, u8) {
    let (delivery, repeat, _) = heard(settings, &Lists::EMPTY, received);
    (delivery, repeat)
}

#[test]
fn dropped_with_the_path_bit_or_without() {
    for hop_limit in 0..=7 {
        for path in [None, Some(&[][..]), Some(&[1, 2])] {
            let received = report(9, hop_limit, path);
            assert_eq!(numbers(&node(9), &received), (42, 42));
        }
    }
}

#[test]
fn nothing_is_delivered_and_it_is_taken() {
    let received = [1, 0, 0x70, 2, 0, 9, 0, 9, 5, 5, 0];
    let mut out = [0xAA; 16];
    let answer = hear(&node(9), &Lists::EMPTY, &received, &mut out);
    assert_eq!((answer.delivery, answer.repeat), (42, 42));
    assert_eq!((answer.delivered, answer.repeated_length), ((0, 0), 0));
    assert_eq!((answer.taken, out), (10, [0xAA; 16]));
    let walked = walk(&node(9), &Lists::EMPTY, &received[..10].repeat(3), &mut []);
    assert_eq!(walked.map(|walked| walked.end), Ok(30));
}

#[test]
fn directly_after_30() {
    assert_eq!(numbers(&node(9), &report(9, 7, Some(&[1, 9]))), (30, 30));
    assert_eq!(numbers(&node(1), &report(9, 7, Some(&[1, 9]))), (30, 30));
    assert_eq!(numbers(&node(9), &report(9, 7, Some(&[1]))), (42, 42));
}

#[test]
fn before_the_lists_and_after_their_faults_and_reading() {
    let every = [0, 65_535];
    let mut settings = node(9);
    settings.source_pass = Choice::First;
    let passes_none = heard(&settings, &Lists::EMPTY, &report(9, 7, None));
    assert_eq!(passes_none, (42, 42, vec![]));
    settings = node(9);
    settings.source_reject = Choice::First;
    let rejects_all = Lists::firsts([&[], &every, &[], &[]]);
    let rejected = heard(&settings, &rejects_all, &report(9, 7, None));
    assert_eq!(rejected, (42, 42, vec![]));
    settings = node(9);
    settings.destination_pass = Choice::First;
    settings.destination_reject = Choice::First;
    let with_destination = [1, 0, 0x70, 0, 0, 9, 0, 8];
    assert_eq!(numbers(&settings, &with_destination), (42, 42));
    let fault = Lists::firsts([&[1], &[], &[], &[]]);
    assert_eq!(heard(&settings, &fault, &report(9, 7, None)).0, 21);
    assert_eq!(numbers(&settings, &with_destination[..7]), (5, 5));
}

#[test]
fn neither_with_echo_off() {
    let mut settings = node(9);
    settings.echo = false;
    assert_eq!(numbers(&settings, &report(9, 7, None)), (0, 0));
    assert_eq!(numbers(&settings, &report(9, 7, Some(&[1, 9]))), (0, 0));
    assert_eq!(numbers(&settings, &report(9, 0, Some(&[]))), (0, 37));
}

#[test]
fn it_is_the_source_that_is_looked_at() {
    assert_eq!(numbers(&node(8), &report(9, 7, None)), (0, 0));
    let for_this_node = [1, 0, 0x70, 0, 0, 9, 0, 8];
    assert_eq!(numbers(&node(8), &for_this_node), (0, 41));
    assert_eq!(numbers(&node(9 * 256), &report(9, 7, None)), (0, 0));
}

#[test]
fn the_table_counts_it_as_echo() {
    let mut stations = Stations::empty();
    for received in [
        report(9, 7, None),
        report(9, 7, Some(&[3])),
        report(9, 0, Some(&[9])),
    ] {
        let (_, number) =
            hear_and_count(&node(9), &Lists::EMPTY, &received, &mut [], &mut stations);
        assert_eq!(number, 0);
    }
    let station = stations.get(9).unwrap();
    assert_eq!((station.reads, station.echoes), (3, 3));
    assert_eq!(station.shortest_path, Some(1));
}

/// How often a report of node 9 goes out where every node hears everything.
fn transmissions(nodes: &[Settings], hop_limit: u8) -> usize {
    let mut sent = vec![report(9, hop_limit, Some(&[]))];
    let mut next = 0;
    while next < sent.len() && sent.len() < 1000 {
        let received = sent[next].clone();
        for settings in nodes {
            let (_, repeat, repeated) = heard(settings, &Lists::EMPTY, &received);
            if repeat == 0 {
                sent.push(repeated);
            }
        }
        next += 1;
    }
    sent.len()
}

#[test]
fn the_originator_hears_and_does_not_count() {
    let network: Vec<Settings> = (9..14).map(node).collect();
    for others in 0..=4 {
        let (with, without) = (&network[..others + 1], &network[1..others + 1]);
        for hop_limit in 0..=7 {
            let most = bound(others as u64, u64::from(hop_limit));
            let most = most.and_then(|most| usize::try_from(most).ok());
            assert_eq!(Some(transmissions(with, hop_limit)), most);
            assert_eq!(Some(transmissions(without, hop_limit)), most);
        }
    }
}

#[test]
fn an_originator_without_echo_passes_the_bound() {
    let mut originator = node(9);
    assert_eq!(
        (transmissions(&[originator, node(10)], 2), bound(1, 2)),
        (2, Some(2))
    );
    originator.echo = false;
    assert!(transmissions(&[originator, node(10)], 2) > 2);
}
