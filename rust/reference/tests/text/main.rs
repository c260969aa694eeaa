//! The reference model beside the documents: the cases that 01 checks by hand, and
//! others worked out from the sentences of 01 and 02.

mod batch;
mod editions;
mod exchange;
mod flood;
mod hand_checked;
mod header;
mod node;
mod origin;
mod own_report;
mod queue;
mod reach;
mod retained;
mod sealed;
mod stations;
mod two_lists;

use reference::{Choice, Origination, Settings, EDITION_1_2};

/// A PDU with everything: reliable, path of two, all odd bits set, hop 6,
/// added header, payload of three.
const FULL: [u8; 17] = [
    0x0F, 0x5F, 0xE0, 0x03, 0x12, 0x34, 0x56, 0x78, 0x9A, 2, 0, 1, 0, 2, 0xA, 0xB, 0xC,
];

/// Nothing is asked of a fresh PDU.
const ASKED: Origination = Origination {
    edition: EDITION_1_2,
    encrypted: false,
    reliable: false,
    time_stamp_request: false,
    path: false,
    port: 0,
    hop: 0,
    source: 0,
    destination: None,
    pdu_id: 0,
};

/// A node with echo and repeating on.
const fn node(own_address: u16) -> Settings {
    Settings {
        edition: EDITION_1_2,
        own_address,
        echo: true,
        repeating: true,
        source_pass: Choice::None,
        source_reject: Choice::None,
        destination_pass: Choice::None,
        destination_reject: Choice::None,
    }
}

/// A PDU for everyone from this source, with this hop limit and path.
fn report(source: u16, hop_limit: u8, path: Option<&[u16]>) -> Vec<u8> {
    let mut bytes = vec![0, 0, hop_limit << 4, 0];
    bytes.extend(source.to_be_bytes());
    if let Some(path) = path {
        bytes[0] = 2;
        bytes.push(path.len() as u8);
        bytes.extend(path.iter().flat_map(|address| address.to_be_bytes()));
    }
    bytes
}

/// Bytes from hex digits; white space counts for nothing.
fn bytes(hex: &str) -> Vec<u8> {
    let digits: Vec<char> = hex.chars().filter(|c| !c.is_whitespace()).collect();
    let byte = |pair: &[char]| u8::from_str_radix(&pair.iter().collect::<String>(), 16).unwrap();
    digits.chunks(2).map(byte).collect()
}
