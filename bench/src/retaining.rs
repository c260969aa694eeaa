//! Reliable messages: a table of retained PDUs that is nearly full.

use crate::plain;
use crate::timing::{copy, measure, Measured};
use mant::raw::{self, Answer, Outcome, Retained, Sending, RECORDS};
use reference::{Done, Table};
use std::hint::black_box;

/// Settings of an acknowledgement.
const SENDING: Sending = Sending {
    hop_limit: 1,
    port: 0,
    time_stamp_request: false,
    with_path: true,
};

/// The node that commands go out from, and acknowledgements come to.
const OWN: u16 = 1000;

/// The node that commands are for.
const GATE: u16 = 1600;

/// A node's answer for a PDU that it delivered.
const DELIVERED: Answer = Answer {
    delivery: 0,
    repeat: 41,
    has_last_sender: false,
    last_sender: 0,
    delivered_place: 0,
    delivered_length: 0,
    repeated_length: 0,
    taken: 9,
};

/// A command from 1000 to 1600 with this ID, of so many bytes.
fn command(pdu_id: u8, length: usize) -> Vec<u8> {
    let payload = (length - 9) as u8;
    let mut bytes = vec![9, 0, 0x10, payload, 0x03, 0xE8, 0x06, 0x40, pdu_id];
    bytes.resize(length, 7);
    bytes
}

/// The acknowledgement of that.
fn acknowledgement(pdu_id: u8) -> Vec<u8> {
    vec![9, 1, 0x10, 0, 0x06, 0x40, 0x03, 0xE8, pdu_id]
}

/// The same table three times.
struct Tables {
    library: [Retained; RECORDS],
    reference: Table,
    plain: [Retained; RECORDS],
}

impl Tables {
    /// Tables that have retained commands of so many bytes at 1,000 seconds,
    /// with the IDs 0, 1 and so on.
    fn holding(count: usize, length: usize) -> Tables {
        let mut tables = Tables {
            library: [Retained::FREE; RECORDS],
            reference: Table::of(vec![None; RECORDS], 1_000),
            plain: [Retained::FREE; RECORDS],
        };
        for pdu_id in 0..count {
            let outcome = tables.retain(1_000, &command(pdu_id as u8, length));
            assert_eq!((outcome.deed, outcome.place), (1, pdu_id));
        }
        tables
    }

    /// Retains in each; they answer the same.
    fn retain(&mut self, time: u64, pdu: &[u8]) -> Outcome {
        let last = self.reference.last();
        let outcome = raw::retain(&mut self.library, last, time, pdu);
        let wanted = plain::retain(&mut self.plain, last, time, pdu);
        self.check(outcome, wanted, |table| table.retain(time, pdu))
    }

    /// A retry with each.
    fn retry(&mut self, time: u64, delay: u64, tries: u64, room: usize) -> Outcome {
        let (mut one, mut other) = (vec![1; room], vec![1; room]);
        let times = (self.reference.last(), time);
        let outcome = raw::retry(&mut self.library, times, (delay, tries), &mut one);
        let wanted = plain::retry(&mut self.plain, times, (delay, tries), &mut other);
        assert_eq!(one, other);
        let retry = |table: &mut Table| table.step(time, delay, tries, &mut other);
        self.check(outcome, wanted, retry)
    }

    /// Each hears a PDU that was delivered at this address.
    fn heard(&mut self, own: u16, pdu: &[u8]) -> Outcome {
        let (mut one, mut other) = ([1; 10], [1; 10]);
        let last = self.reference.last();
        let table = &mut self.library;
        let heard = (pdu, DELIVERED);
        let outcome = raw::acknowledge(table, last, own, heard, SENDING, &mut one);
        let table = &mut self.plain;
        let wanted = plain::acknowledge(table, last, own, heard, SENDING, &mut other);
        assert_eq!(one, other);
        let sending = in_reference(SENDING);
        let heard = |table: &mut Table| table.heard(own, pdu, 0, &sending, &mut other);
        self.check(outcome, wanted, heard)
    }

    /// The three answer and hold the same.
    fn check(
        &mut self,
        outcome: Outcome,
        plain: Outcome,
        deed: impl FnOnce(&mut Table) -> Result<Done, u8>,
    ) -> Outcome {
        assert_eq!(outcome, plain);
        assert_eq!(outcome.number, deed(&mut self.reference).err().unwrap_or(0));
        assert_eq!(outcome.last, self.reference.last());
        assert_eq!(self.library, self.plain);
        outcome
    }
}

fn in_reference(sending: Sending) -> reference::Sending {
    reference::Sending {
        hop: sending.hop_limit,
        port: sending.port,
        time_stamp_request: sending.time_stamp_request,
        path: sending.with_path,
    }
}

/// A command of so many bytes retained in the last free record, and freed by
/// its acknowledgement; memcpy copies the command.
pub fn retaining_and_freeing(length: usize) -> [Measured; 4] {
    let Tables {
        mut library,
        mut reference,
        mut plain,
    } = Tables::holding(RECORDS - 1, length);
    let answer = acknowledgement(99);
    measure(
        &command(99, length),
        [
            &mut |input: &[u8], output: &mut [u8]| {
                black_box(raw::retain(&mut library, 1_000, 1_000, input));
                let table = &mut library;
                let heard = (&answer[..], DELIVERED);
                black_box(raw::acknowledge(table, 1_000, OWN, heard, SENDING, output));
            },
            &mut |input: &[u8], output: &mut [u8]| {
                let _ = black_box(reference.retain(1_000, input));
                let sending = in_reference(SENDING);
                let _ = black_box(reference.heard(OWN, &answer, 0, &sending, output));
            },
            &mut |input: &[u8], output: &mut [u8]| {
                black_box(plain::retain(&mut plain, 1_000, 1_000, input));
                let table = &mut plain;
                let heard = (&answer[..], DELIVERED);
                black_box(plain::acknowledge(
                    table, 1_000, OWN, heard, SENDING, output,
                ));
            },
            &mut |input: &[u8], output: &mut [u8]| copy(input, output, length),
        ],
    )
}

/// A retry with a full table, with this delay: with 0 the first command is sent
/// again, with 1 none is due; memcpy copies a command.
pub fn retrying(length: usize, delay: u64) -> [Measured; 4] {
    let Tables {
        mut library,
        mut reference,
        mut plain,
    } = Tables::holding(RECORDS, length);
    let (times, settings) = ((1_000, 1_000), (delay, u64::MAX));
    measure(
        &command(0, length),
        [
            &mut |_: &[u8], output: &mut [u8]| {
                black_box(raw::retry(&mut library, times, settings, output));
            },
            &mut |_: &[u8], output: &mut [u8]| {
                let _ = black_box(reference.step(1_000, delay, u64::MAX, output));
            },
            &mut |_: &[u8], output: &mut [u8]| {
                black_box(plain::retry(&mut plain, times, settings, output));
            },
            &mut |input: &[u8], output: &mut [u8]| copy(input, output, length),
        ],
    )
}

/// The plain table answers as the library's does on what is measured, and at
/// the limits.
pub fn check_plain() {
    for length in [9, 64, 256] {
        let mut tables = Tables::holding(RECORDS, length);
        assert_eq!(tables.retain(1_000, &command(99, length)).number, 70);
        assert_eq!(tables.retain(1_000, &command(3, length)).number, 71);
        assert_eq!(tables.retain(1_000, &command(99, 257)).number, 72);
        assert_eq!(tables.retain(999, &command(99, length)).number, 73);
        assert_eq!(tables.retain(1_000, &acknowledgement(99)).number, 75);
        assert_eq!(tables.retry(1_029, 30, 1, 256).deed, 0);
        assert_eq!(tables.retry(1_030, 30, 1, length - 1).number, 77);
        for place in 0..RECORDS {
            let outcome = tables.retry(1_030, 30, 1, length);
            assert_eq!((outcome.deed, outcome.place), (2, place));
        }
        assert_eq!(tables.heard(OWN, &acknowledgement(5)).place, 5);
        assert_eq!(tables.heard(OWN, &acknowledgement(5)).deed, 0);
        assert_eq!(tables.heard(GATE, &command(5, length)).length, 10);
        assert_eq!(tables.retry(1_060, 30, 1, 0).deed, 3);
        assert_eq!(tables.retain(1_060, &command(99, length)).place, 0);
    }
}
