//! Steps: what is due is sent again, or has failed.

use super::*;

#[test]
fn due_after_the_delay_and_not_a_second_early() {
    let mut table = holding(2, 100);
    assert_eq!(stepped(&mut table, 129, 30, 1).0, Done::Nothing);
    let sent = Done::SentAgain(0, names(0), 12);
    assert_eq!(stepped(&mut table, 130, 30, 1), (sent, command(0, 3)));
    assert_eq!(
        stepped(&mut table, 130, 30, 1).0,
        Done::SentAgain(1, names(1), 12)
    );
    assert_eq!(stepped(&mut table, 130, 30, 1).0, Done::Nothing);
    assert_eq!(stepped(&mut table, 159, 30, 1).0, Done::Nothing);
    assert_eq!(
        stepped(&mut table, 160, 30, 1),
        (Done::Failed(0, names(0)), vec![])
    );
    assert_eq!(stepped(&mut table, 200, 30, 1).0, Done::Failed(1, names(1)));
    assert_eq!(table.records(), Table::free().records());
}

#[test]
fn a_time_that_lies_ahead_is_not_due() {
    let ahead = Some(Retained {
        pdu: command(1, 3),
        sent_at: 50,
        count: 0,
    });
    let mut table = Table::of(vec![ahead; RECORDS], 0);
    assert_eq!(stepped(&mut table, 49, 0, 9).0, Done::Nothing);
    assert_eq!(stepped(&mut table, 50, u64::MAX, 9).0, Done::Nothing);
    assert_eq!(
        stepped(&mut table, 50, 0, 9).0,
        Done::SentAgain(0, names(1), 12)
    );
    assert_eq!(
        stepped(&mut table, 50, 0, 9).0,
        Done::SentAgain(0, names(1), 12)
    );
}

#[test]
fn dropped_at_once_where_none_is_to_be_sent() {
    let mut table = holding(1, 5);
    assert_eq!(table.step(5, 0, 0, &mut []), Ok(Done::Failed(0, names(0))));
}

#[test]
fn no_room_to_send() {
    let mut table = holding(1, 5);
    table.retain(5, &command(1, 0)).unwrap();
    let short = |table: &mut Table, out: &mut [u8]| table.step(9, 1, 1, &mut out[..11]);
    assert_eq!(refused(&table, short), 77);
    assert_eq!(
        table.step(9, 1, 1, &mut [0; 12]),
        Ok(Done::SentAgain(0, names(0), 12))
    );
    assert_eq!(
        table.step(9, 1, 1, &mut [0; 9]),
        Ok(Done::SentAgain(1, names(1), 9))
    );
    let mut out = [0; 10];
    let heard = table.heard(1600, &command(1, 0), 0, &SENDING, &mut out[..8]);
    assert_eq!((heard, out), (Err(77), [0; 10]));
}

/// "A PDU once retained is sent again at most the set number of times; that
/// many moments and one more, each a delay or more after the last, end it."
#[test]
fn so_many_moments_and_one_more_end_it() {
    for most in [0, 1, 3, 10] {
        let (mut table, mut sent) = (holding(1, 1_000), 0);
        for moment in 1..=most + 1 {
            assert!(table.records()[0].is_some());
            match stepped(&mut table, 1_000 + 60 * moment, 60, most).0 {
                Done::SentAgain(..) => sent += 1,
                done => assert_eq!((done, moment), (Done::Failed(0, names(0)), most + 1)),
            }
        }
        assert_eq!((sent, table.records()), (most, Table::free().records()));
    }
}
