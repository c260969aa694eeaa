//! 02, W-210, sentence by sentence.

mod answering;
mod stepping;

use reference::*;

/// Settings of an acknowledgement.
const SENDING: Sending = Sending {
    hop: 3,
    port: 5,
    time_stamp_request: false,
    path: false,
};

/// A reliable PDU from 1000 to 1600 with this ID and so many bytes of payload.
fn command(pdu_id: u8, payload: usize) -> Vec<u8> {
    let mut bytes = vec![0x09, 0, 0x30, payload as u8, 0x03, 0xE8, 0x06, 0x40, pdu_id];
    bytes.resize(9 + payload, 7);
    bytes
}

/// The acknowledgement of that, with these flags beside the destination's.
fn acknowledgement(pdu_id: u8, flags: u8) -> Vec<u8> {
    vec![0x09 | flags, 0x51, 0x30, 0, 0x06, 0x40, 0x03, 0xE8, pdu_id]
}

/// The names of `command`.
fn names(pdu_id: u8) -> Names {
    Names {
        source: 1000,
        destination: 1600,
        pdu_id,
    }
}

/// A table that holds the commands with IDs 0, 1 and so on, sent at this time.
fn holding(count: u8, time: u64) -> Table {
    let mut table = Table::free();
    for pdu_id in 0..count {
        let done = Done::Retained(usize::from(pdu_id), names(pdu_id));
        assert_eq!(table.retain(time, &command(pdu_id, 3)), Ok(done));
    }
    table
}

/// What is refused, with nothing changed.
fn refused(table: &Table, deed: impl Fn(&mut Table, &mut [u8]) -> Result<Done, u8>) -> u8 {
    let (mut after, mut out) = (table.clone(), [0xAA; 300]);
    let number = deed(&mut after, &mut out).expect_err("not refused");
    assert_eq!((&after, out), (table, [0xAA; 300]));
    number
}

/// A step with enough room, and what it writes.
fn stepped(table: &mut Table, time: u64, delay: u64, most: u64) -> (Done, Vec<u8>) {
    let mut out = [0xAA; 300];
    let done = table.step(time, delay, most, &mut out).unwrap();
    let length = match done {
        Done::SentAgain(_, _, length) => length,
        _ => 0,
    };
    assert!(out[length..].iter().all(|byte| *byte == 0xAA));
    (done, out[..length].to_vec())
}

#[test]
fn the_first_free_record_notes_the_time_and_count_0() {
    let mut table = holding(3, 7);
    assert_eq!(table.last(), 7);
    let heard = table.heard(1000, &acknowledgement(1, 0), 0, &SENDING, &mut []);
    assert_eq!(heard, Ok(Done::Freed(1, names(1))));
    let done = table.retain(9, &command(77, 0));
    assert_eq!(done, Ok(Done::Retained(1, names(77))));
    let wanted = Retained {
        pdu: command(77, 0),
        sent_at: 9,
        count: 0,
    };
    assert_eq!(table.records()[1], Some(wanted));
    assert_eq!(table.last(), 9);
}

#[test]
fn not_16_records() {
    for count in [0, 1, 15, 17, 32] {
        let table = Table::of(vec![None; count], 9);
        assert_eq!(refused(&table, |table, _| table.retain(0, &[])), 74);
        assert_eq!(refused(&table, |table, out| table.step(0, 0, 0, out)), 74);
        for bytes in [command(1, 0), acknowledgement(1, 0), vec![]] {
            let heard =
                |table: &mut Table, out: &mut [u8]| table.heard(1600, &bytes, 0, &SENDING, out);
            assert_eq!(refused(&table, heard), 74);
        }
    }
}

#[test]
fn time_goes_on_or_stands() {
    let table = holding(1, 7);
    assert_eq!(refused(&table, |table, _| table.retain(6, &[])), 73);
    assert_eq!(refused(&table, |table, out| table.step(6, 0, 9, out)), 73);
    assert!(holding(1, 7).retain(7, &command(9, 0)).is_ok());
    let mut idle = holding(1, 7);
    assert_eq!(stepped(&mut idle, 8, 2, 9).0, Done::Nothing);
    assert_eq!(
        refused(&idle, |table, _| table.retain(7, &command(9, 0))),
        73
    );
}

#[test]
fn exactly_one_of_protocol_1_with_ack_clear_and_no_path_address() {
    let whole = command(1, 3);
    let changed = |place: usize, byte: u8| {
        let mut bytes = whole.clone();
        bytes[place] = byte;
        bytes
    };
    let with_path = |count: u8| {
        let addresses = vec![5; 2 * usize::from(count)];
        let mut bytes = changed(0, 0x0B);
        bytes.splice(9..9, [vec![count], addresses].concat());
        bytes
    };
    let followed = [&whole[..], &[0]].concat();
    for bytes in [
        vec![],
        whole[..11].to_vec(),
        followed,
        changed(0, 0x01),
        changed(0, 0x08),
        changed(0, 0x49),
        changed(1, 0x01),
        with_path(1),
        with_path(255),
    ] {
        assert_eq!(
            refused(&Table::free(), |table, _| table.retain(0, &bytes)),
            75
        );
    }
    for bytes in [
        with_path(0),
        changed(1, 0xFE),
        changed(2, 0xF0),
        changed(0, 0x0D),
    ] {
        assert!(Table::free().retain(0, &bytes).is_ok());
    }
}

#[test]
fn up_to_256_bytes() {
    assert!(Table::free().retain(0, &command(1, 247)).is_ok());
    let long = command(1, 248);
    assert_eq!(
        refused(&Table::free(), |table, _| table.retain(0, &long)),
        72
    );
    let mut acknowledging = command(1, 248);
    acknowledging[1] = 1;
    assert_eq!(
        refused(&Table::free(), |table, _| table.retain(0, &acknowledging)),
        75
    );
}

#[test]
fn all_in_use_and_retained_already() {
    let table = holding(16, 7);
    assert_eq!(
        refused(&table, |table, _| table.retain(7, &command(16, 3))),
        70
    );
    assert_eq!(
        refused(&table, |table, _| table.retain(7, &command(15, 9))),
        71
    );
    let one = holding(1, 7);
    assert_eq!(
        refused(&one, |table, _| table.retain(7, &command(0, 9))),
        71
    );
    for place in [4, 6, 8] {
        let mut other = command(0, 3);
        other[place] ^= 1;
        assert!(one.clone().retain(7, &other).is_ok());
    }
}

#[test]
fn a_record_that_would_be_refused_is_free() {
    let record = |pdu| {
        Some(Retained {
            pdu,
            sent_at: 0,
            count: 0,
        })
    };
    let mut records = vec![record(command(1, 3)); RECORDS];
    records[2] = record(acknowledgement(1, 0));
    records[3] = record(command(1, 250));
    let mut table = Table::of(records, 0);
    assert_eq!((&table.records()[2], &table.records()[3]), (&None, &None));
    assert_eq!(
        table.retain(0, &command(2, 3)),
        Ok(Done::Retained(2, names(2)))
    );
}
