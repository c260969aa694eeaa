//! The plain C version is measured as an equal, so it must answer as the
//! reference does.

mod retaining;

use crate::plain;
use differential::{answer, batch, fresh, level, node, station, written};
use generator::{
    block, edition, empty_record, exchange, exchanged_pdu, good_block, openings, origination,
    output, pace, payload_to_send, queue_deed, received, room, settings_for, to_seal, QueueDeed,
    Random,
};
use mant::raw;
use reference::{Accepted, Queue, Settings, Stations};

const INPUTS: usize = 20_000;

#[test]
fn plain_reads_as_the_library_does() {
    let mut random = Random::from_seed(1);
    for _ in 0..INPUTS {
        let (edition, bytes) = (edition(&mut random), received(&mut random));
        assert_eq!(plain::read(edition, &bytes), raw::read(edition, &bytes));
    }
}

#[test]
fn plain_originates_as_the_reference_does() {
    let mut random = Random::from_seed(2);
    for _ in 0..INPUTS {
        let asked = origination(&mut random);
        let payload = payload_to_send(&mut random);
        let room = room(&mut random, payload.len() + 9);
        let mut one = output(&mut random, room);
        let mut other = one.clone();
        let plain = plain::originate(fresh(&asked, 7), &payload, &mut one);
        let wanted = reference::originate(&asked, &payload, &mut other);
        assert_eq!(plain, written(wanted));
        assert_eq!(one, other);
    }
}

#[test]
fn plain_hears_as_the_reference_does() {
    let mut random = Random::from_seed(3);
    for _ in 0..INPUTS {
        let block = match random.one_in(4) {
            true => block(&mut random),
            false => good_block(&mut random),
        };
        let bytes = received(&mut random);
        let settings = Settings {
            edition: edition(&mut random),
            ..settings_for(&mut random, &bytes)
        };
        let room = room(&mut random, bytes.len() + 2);
        let mut one = output(&mut random, room);
        let mut other = one.clone();
        let plain = plain::hear(node(&settings, raw::NO_LIST), &block.0, &bytes, &mut one);
        let wanted = reference::hear(&settings, &block.lists(), &bytes, &mut other);
        assert_eq!(plain, answer(&wanted));
        assert_eq!(one, other);
    }
}

#[test]
fn plain_counts_as_the_reference_does() {
    let mut random = Random::from_seed(4);
    let mut plain = plain::Table::empty();
    let mut stations = Stations::empty();
    let mut refused = 0;
    for _ in 0..INPUTS {
        let heard = raw::Heard {
            source: 7 * random.below(140) as u16,
            echo: random.one_in(4),
            path_bit: random.flag(),
            path_count: random.byte(),
        };
        let path_count = heard.path_bit.then_some(u16::from(heard.path_count));
        let wanted = stations.count(heard.source, heard.echo, path_count);
        assert_eq!(plain::count_heard(&mut plain, heard), wanted);
        refused += usize::from(wanted == 55);
    }
    assert!(refused > 100, "{refused}");
    let listed: Vec<_> = stations.list().into_iter().map(station).collect();
    assert_eq!(plain.stations(), listed);
}

#[test]
fn plain_reads_exchanges_as_the_reference_does() {
    let mut random = Random::from_seed(5);
    for _ in 0..INPUTS {
        let bytes = exchange(&mut random);
        let wanted = differential::exchange(&reference::read_exchange(&bytes));
        assert_eq!(plain::read_exchange(&bytes), wanted);
    }
}

#[test]
fn plain_writes_exchanges_as_the_reference_does() {
    let mut random = Random::from_seed(6);
    for _ in 0..INPUTS {
        let bytes = exchanged_pdu(&mut random);
        let room = room(&mut random, bytes.len() + 11);
        let mut one = output(&mut random, room);
        let mut other = one.clone();
        let plain = plain::write_exchange(&bytes, &mut one);
        let wanted = reference::write_exchange(&bytes, &mut other);
        assert_eq!(plain, written(wanted));
        assert_eq!(one, other);
    }
}

#[test]
fn plain_queues_as_the_reference_does() {
    let mut random = Random::from_seed(7);
    for _ in 0..INPUTS / 20 {
        let (mut ring, mut queue) = (plain::Ring::empty(), Queue::empty());
        let pace = pace(&mut random, 90);
        for _ in 0..pace.turns {
            match queue_deed(&mut random, pace, &queue) {
                QueueDeed::Add(bytes) => {
                    let number = plain::queue_add(&mut ring, &bytes);
                    assert_eq!(number, queue.add(&bytes));
                }
                QueueDeed::Take(room) => {
                    let mut one = output(&mut random, room);
                    let mut other = one.clone();
                    let taken = plain::queue_take(&mut ring, &mut one);
                    assert_eq!(taken, batch(queue.take(&mut other)));
                    assert_eq!(one, other);
                }
                QueueDeed::Clear => {
                    plain::queue_clear(&mut ring);
                    queue.clear();
                }
            }
            assert_eq!(plain::queue_level(&ring), level(&queue));
        }
    }
}

#[test]
fn plain_seals_as_the_reference_does() {
    let mut random = Random::from_seed(8);
    for _ in 0..INPUTS / 4 {
        let asked = to_seal(&mut random);
        let mut one = output(&mut random, asked.room);
        let mut other = one.clone();
        let key = raw::Key { bytes: asked.key };
        let plain = plain::seal(key, asked.number, &asked.bytes, &mut one);
        let wanted = reference::seal(&asked.key, asked.number, &asked.bytes, &mut other);
        assert_eq!(plain, written(wanted));
        assert_eq!(one, other);
    }
}

#[test]
fn plain_opens_as_the_reference_does() {
    let mut random = Random::from_seed(9);
    for _ in 0..INPUTS / 40 {
        let (mut words, openings) = (empty_record(&mut random), openings(&mut random));
        let mut accepted = Accepted::empty();
        for turn in 0..openings.turns {
            let asked = openings.next(&mut random, turn, |source| accepted.get(source));
            let mut one = output(&mut random, asked.room);
            let mut other = one.clone();
            let key = raw::Key { bytes: asked.key };
            let plain = plain::open(key, &mut words, &asked.bytes, &mut one);
            let wanted = reference::open(&asked.key, &mut accepted, &asked.bytes, &mut other);
            assert_eq!(plain, written(wanted));
            assert_eq!(one, other);
        }
    }
}
