//! 01, "Header, byte by byte" the other way, and "Numbers answered": a PDU
//! can be written again from what reading shows of it; number 14. 02, W-209:
//! under an edition.

use crate::edition::read_under;
use crate::header::Header;
use crate::numbers::{DONE, OUTPUT_SHORT};

/// Writes a header and its payload at the start of the output, or leaves the
/// output alone where it is too short (14). Bytes past the PDU's end are kept.
/// Gives the number and the length written.
pub fn write(header: &Header, payload: &[u8], out: &mut [u8]) -> (u8, usize) {
    let mut pdu = header_bytes(header);
    pdu.extend_from_slice(payload);
    if out.len() < pdu.len() {
        return (OUTPUT_SHORT, 0);
    }
    out[..pdu.len()].copy_from_slice(&pdu);
    (DONE, pdu.len())
}

/// Reads the PDU at the start of the bytes under an edition and writes it again
/// from what reading shows: 17, 1 to 6, then 14.
pub fn write_again(edition: u64, bytes: &[u8], out: &mut [u8]) -> (u8, usize) {
    match read_under(edition, bytes) {
        Ok(shown) => {
            let payload = shown.others.payload(bytes);
            write(&shown.header(), payload, out)
        }
        Err(number) => (number, 0),
    }
}

/// The header's bytes, in the order of the byte table.
pub fn header_bytes(header: &Header) -> Vec<u8> {
    let mut bytes = vec![byte_0(header), byte_1(header), byte_2(header)];
    bytes.push((header.payload_length % 256) as u8);
    bytes.extend(header.source.to_be_bytes());
    if let Some(destination) = header.destination {
        bytes.extend(destination.to_be_bytes());
    }
    if let Some(pdu_id) = header.pdu_id {
        bytes.push(pdu_id);
    }
    if let Some(path) = &header.path {
        bytes.push(path.len() as u8);
        bytes.extend(path.iter().flat_map(|address| address.to_be_bytes()));
    }
    bytes
}

/// Version 0, protocol, time stamp request, path bit, destination present.
fn byte_0(header: &Header) -> u8 {
    header.protocol << 3
        | u8::from(header.time_stamp_request) << 2
        | u8::from(header.path.is_some()) << 1
        | u8::from(header.destination.is_some())
}

/// Port, encrypted, reserved, ACK.
fn byte_1(header: &Header) -> u8 {
    header.port << 4 | u8::from(header.encrypted) << 3 | header.reserved << 1 | u8::from(header.ack)
}

/// Added header, hop limit, the payload length's four high bits.
fn byte_2(header: &Header) -> u8 {
    u8::from(header.added_header) << 7 | header.hop_limit << 4 | (header.payload_length / 256) as u8
}
