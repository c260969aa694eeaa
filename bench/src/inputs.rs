//! What is measured on.

use mant::raw;
use reference::{Choice, Origination, Settings, EDITION_1_2};

/// All is measured under edition 1.2.
pub const EDITION: u64 = EDITION_1_2;

/// Eight lists that are empty.
pub const NO_LISTS: &[u16] = &[];

/// The payload of 01's example.
pub const PAYLOAD: [u8; 11] = [
    0x70, 0x01, 0x08, 0x12, 0x12, 0x03, 0x24, 0x13, 0x22, 0x02, 0x76,
];

/// The example's settings of origination, for the reference.
pub const ASKED: Origination = Origination {
    edition: EDITION,
    encrypted: false,
    reliable: false,
    time_stamp_request: false,
    path: true,
    port: 0,
    hop: 1,
    source: 1000,
    destination: Some(1600),
    pdu_id: 0,
};

/// The same for the library.
pub const FRESH: raw::Fresh = raw::Fresh {
    edition: EDITION,
    source: 1000,
    has_destination: true,
    destination: 1600,
    hop_limit: 1,
    port: 0,
    time_stamp_request: false,
    with_path: true,
    reliable: false,
    pdu_id: 0,
    encrypted: false,
};

/// Node 2000, echo and repeating on, for the library.
pub const NODE: raw::Node = raw::Node {
    edition: EDITION,
    own: 2000,
    echo: true,
    repeating: true,
    source_pass: raw::NO_LIST,
    source_reject: raw::NO_LIST,
    destination_pass: raw::NO_LIST,
    destination_reject: raw::NO_LIST,
};

/// The same for the reference.
pub const SETTINGS: Settings = Settings {
    edition: EDITION,
    own_address: 2000,
    echo: true,
    repeating: true,
    source_pass: Choice::None,
    source_reject: Choice::None,
    destination_pass: Choice::None,
    destination_reject: Choice::None,
};

/// Node 2000 with the first list of each kind on, for the library.
pub const NODE_WITH_LISTS: raw::Node = raw::Node {
    source_pass: raw::FIRST_LIST,
    source_reject: raw::FIRST_LIST,
    destination_pass: raw::FIRST_LIST,
    destination_reject: raw::FIRST_LIST,
    ..NODE
};

/// The same for the reference.
pub const SETTINGS_WITH_LISTS: Settings = Settings {
    source_pass: Choice::First,
    source_reject: Choice::First,
    destination_pass: Choice::First,
    destination_reject: Choice::First,
    ..SETTINGS
};

/// So many ranges of which only the last holds the example's addresses.
pub fn passing(ranges: usize) -> Vec<u16> {
    let mut values = rejecting(ranges - 1);
    values.extend([1000, 1600]);
    values
}

/// So many ranges that hold neither of the example's addresses.
pub fn rejecting(ranges: usize) -> Vec<u16> {
    [5000, 5001].repeat(ranges)
}

/// A PDU like the example, with hop limit 1, a path of so many addresses and
/// this payload.
pub fn pdu(path: u8, payload: &[u8]) -> Vec<u8> {
    let [high, low] = (payload.len() as u16).to_be_bytes();
    let mut bytes = vec![0x03, 0x00, 0x10 | high, low, 0x03, 0xE8, 0x06, 0x40, path];
    for place in 0..path {
        bytes.extend((3000 + u16::from(place)).to_be_bytes());
    }
    bytes.extend(payload);
    bytes
}

/// The example of 01.
pub fn example() -> Vec<u8> {
    pdu(0, &PAYLOAD)
}

/// A full PDU, 4,615 bytes: like the example, but reliable, with a path of 255
/// addresses and a payload of 4,095 bytes.
pub fn full() -> Vec<u8> {
    let mut bytes = pdu(255, &[7; 4_095]);
    bytes[0] |= 8;
    bytes.insert(8, 0);
    bytes
}

/// A full batch, 16,384 bytes: 818 times the example and one of 24 bytes.
pub fn batch_of_small() -> Vec<u8> {
    let mut bytes = example().repeat(818);
    bytes.extend(pdu(0, &[7; 15]));
    bytes
}

/// A full batch of 4 PDUs of 4,096 bytes.
pub fn batch_of_large() -> Vec<u8> {
    pdu(0, &[7; 4_087]).repeat(4)
}
