//! 01, "Header, byte by byte" and "Numbers answered"; 02, W-205.

use crate::FULL;
use reference::numbers::TABLE;
use reference::*;

/// 01, "Header, byte by byte".
#[test]
fn every_field_is_read() {
    let header = Header {
        protocol: 1,
        time_stamp_request: true,
        port: 5,
        encrypted: true,
        reserved: 3,
        ack: true,
        added_header: true,
        hop_limit: 6,
        payload_length: 3,
        source: 0x1234,
        destination: Some(0x5678),
        pdu_id: Some(0x9A),
        path: Some(vec![1, 2]),
    };
    assert_eq!(read(&FULL), Ok(header.clone()));
    assert_eq!((header.length(), header.pdu_length()), (14, 17));
}

/// 01, "Numbers answered": each cut of a PDU gives 1, 5 or 6.
#[test]
fn every_cut_is_refused() {
    for length in 0..FULL.len() {
        let number = match length {
            0..=5 => 1,
            6..=13 => 5,
            _ => 6,
        };
        assert_eq!(read(&FULL[..length]), Err(number), "{length} bytes");
    }
}

/// 01, "Numbers answered": "to the same bytes: 1 to 6, then 14".
#[test]
fn written_again() {
    let mut received = FULL.to_vec();
    received.push(0x77);
    let mut out = [0xAA; 20];
    assert_eq!(write_again(EDITION_1_2, &received, &mut out[..16]), (14, 0));
    assert_eq!(
        write_again(EDITION_1_2, &received[..13], &mut out[..0]),
        (5, 0)
    );
    assert_eq!(out, [0xAA; 20]);
    assert_eq!(write_again(EDITION_1_2, &received, &mut out), (0, 17));
    assert_eq!((&out[..17], &out[17..]), (&FULL[..], &[0xAA; 3][..]));
}

/// 02, W-205: the last path address, or the source if the path is empty;
/// unknown without the path bit, which is not address 0.
#[test]
fn the_last_sender_is_read() {
    let sender = |bytes: &[u8]| read(bytes).map(|header| header.last_sender());
    assert_eq!(sender(&FULL), Ok(Some(2)));
    assert_eq!(sender(&[2, 0, 0, 0, 3, 0xE8, 0]), Ok(Some(1000)));
    assert_eq!(sender(&[2, 0, 0, 0, 3, 0xE8, 1, 0, 0]), Ok(Some(0)));
    assert_eq!(sender(&[2, 0, 0, 0, 0, 0, 0]), Ok(Some(0)));
    assert_eq!(sender(&[0, 0, 0, 0, 3, 0xE8]), Ok(None));
    assert_eq!(sender(&FULL[..16]), Err(6));
}

/// 01, "Numbers answered": every number has one row.
#[test]
fn the_table_is_in_order() {
    assert!(TABLE.windows(2).all(|rows| rows[0].0 < rows[1].0));
    assert_eq!(
        described(38),
        "38 (not repeated: its path is full, with 255 addresses)"
    );
    assert_eq!(meaning(7), "not a number of the table");
}
