//! 01, "Origination"; numbers 10 to 14. 02, W-209; numbers 16 and 17.

use crate::edition::Edition;
use crate::header::{Header, MOST_PAYLOAD};
use crate::numbers::{
    HOP_SETTING, NO_ENCRYPTED_FLAG, PAYLOAD_SIZE, PORT_SETTING, RELIABLE_WITHOUT_DESTINATION,
};
use crate::writing::write;

/// What the caller sets. Edition, hop and port arrive wide, so that nothing is
/// trimmed before it can be refused.
#[derive(Clone, Debug, PartialEq, Eq)]
pub struct Origination {
    /// The edition's number.
    pub edition: u64,
    /// The payload is already encrypted: the flag, which 1.1 does not have.
    pub encrypted: bool,
    /// Reliable service, protocol 1.
    pub reliable: bool,
    /// The time stamp request bit.
    pub time_stamp_request: bool,
    /// The path bit; a fresh PDU's path is empty.
    pub path: bool,
    /// Port, refused above 15.
    pub port: u64,
    /// Hop, refused above 7.
    pub hop: u64,
    /// Source address.
    pub source: u16,
    /// Destination address, if there is one.
    pub destination: Option<u16>,
    /// PDU ID, written for reliable service only.
    pub pdu_id: u8,
}

/// Writes a fresh PDU to the output. Checks 17, then 10 to 14 in that order,
/// with 16 "after 13 and before 14", and gives the number and the length
/// written.
pub fn originate(settings: &Origination, payload: &[u8], out: &mut [u8]) -> (u8, usize) {
    let edition = match Edition::of(settings.edition) {
        Ok(edition) => edition,
        Err(number) => return (number, 0),
    };
    if settings.hop > 7 {
        return (HOP_SETTING, 0);
    }
    if settings.port > 15 {
        return (PORT_SETTING, 0);
    }
    if payload.len() > MOST_PAYLOAD {
        return (PAYLOAD_SIZE, 0);
    }
    if settings.reliable && settings.destination.is_none() {
        return (RELIABLE_WITHOUT_DESTINATION, 0);
    }
    if settings.encrypted && edition == Edition::OneOne {
        return (NO_ENCRYPTED_FLAG, 0);
    }
    write(&fresh_header(settings, payload.len()), payload, out)
}

/// "Version 0; encrypted, reserved, ACK and added header 0; the rest as set.
/// With the path bit, the count byte is 0." 02, W-209: "origination can set the
/// flag".
fn fresh_header(settings: &Origination, payload_length: usize) -> Header {
    Header {
        protocol: u8::from(settings.reliable),
        time_stamp_request: settings.time_stamp_request,
        port: settings.port as u8,
        encrypted: settings.encrypted,
        reserved: 0,
        ack: false,
        added_header: false,
        hop_limit: settings.hop as u8,
        payload_length,
        source: settings.source,
        destination: settings.destination,
        pdu_id: settings.reliable.then_some(settings.pdu_id),
        path: settings.path.then(Vec::new),
    }
}
