//! Tables of retained PDUs.

use super::INPUTS;
use crate::plain;
use differential::outcome;
use generator::{habits, reliable_deed, Random, ReliableDeed};
use mant::raw;
use reference::{Done, Lists, Sending, Table};

#[test]
fn plain_retains_as_the_reference_does() {
    let mut random = Random::from_seed(10);
    for _ in 0..INPUTS / 20 {
        let (habits, mut table) = (habits(&mut random), Table::free());
        let mut plain = [raw::Retained::FREE; raw::RECORDS];
        for _ in 0..habits.turns {
            let deed = reliable_deed(&mut random, &habits, &table);
            let (answered, wanted) = retained(&mut plain, &mut table, deed);
            assert_eq!(answered, outcome(wanted, table.last()));
            for (plain, record) in plain.iter().zip(table.records()) {
                let pdu = record.as_ref().map_or(&[][..], |record| &record.pdu);
                assert_eq!(&plain.pdu[..plain.length as usize], pdu);
                let numbers = record.as_ref().map(|record| (record.sent_at, record.count));
                assert_eq!((plain.sent_at, plain.count), numbers.unwrap_or((0, 0)));
            }
        }
    }
}

/// A deed with the plain table and the reference's.
fn retained(
    plain: &mut [raw::Retained],
    table: &mut Table,
    deed: ReliableDeed,
) -> (raw::Outcome, Result<Done, u8>) {
    let last = table.last();
    match deed {
        ReliableDeed::Retain(time, pdu) => {
            let outcome = plain::retain(plain, last, time, &pdu);
            (outcome, table.retain(time, &pdu))
        }
        ReliableDeed::Step(time, delay, tries, room) => {
            let (mut one, mut other) = (vec![0; room], vec![0; room]);
            let outcome = plain::retry(plain, (last, time), (delay, tries), &mut one);
            let wanted = table.step(time, delay, tries, &mut other);
            assert_eq!(one, other);
            (outcome, wanted)
        }
        ReliableDeed::Hear(settings, bytes, sending, room) => {
            let answer = reference::hear(&settings, &Lists::EMPTY, &bytes, &mut [0; 5_000]);
            let own = settings.own_address;
            heard(
                (plain, table),
                (own, &bytes, answer.delivery),
                &sending,
                room,
            )
        }
        ReliableDeed::Answer(own, bytes, delivery, sending, room) => {
            heard((plain, table), (own, &bytes, delivery), &sending, room)
        }
    }
}

/// A PDU that was answered with this delivery number.
fn heard(
    (plain, table): (&mut [raw::Retained], &mut Table),
    (own, bytes, delivery): (u16, &[u8], u8),
    sending: &Sending,
    room: usize,
) -> (raw::Outcome, Result<Done, u8>) {
    let (mut one, mut other) = (vec![0; room], vec![0; room]);
    let answer = raw::Answer {
        delivery,
        taken: usize::from(delivery == 0),
        ..raw::Answer::default()
    };
    let (last, settings) = (table.last(), differential::sending(sending));
    let heard = (bytes, answer);
    let outcome = plain::acknowledge(plain, last, own, heard, settings, &mut one);
    let wanted = table.heard(own, bytes, delivery, sending, &mut other);
    assert_eq!(one, other);
    (outcome, wanted)
}
