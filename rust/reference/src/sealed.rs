//! 02, W-212: encrypted payloads; numbers 80 to 88. Document 000, 3.5.3, with
//! document 002's table of the bytes that enter the hash.

use crate::aes::{counter_mode, Key};
use crate::header::{read, Header, MOST_PAYLOAD};
use crate::numbers::{
    ALREADY_ENCRYPTED, DONE, HASH_DIFFERS, MESSAGE_NUMBER, NOT_ENCRYPTED, NUMBER_NOT_GREATER,
    SEALED_OUTPUT_SHORT, SEALED_PAYLOAD_SIZE, SOURCES_FULL, TOO_SHORT_TO_OPEN,
};
use crate::sha1::sha1;
use crate::writing::{header_bytes, write};
use std::collections::BTreeMap;

/// The greatest message number.
pub const MOST_NUMBER: u64 = 16_777_215;
/// So many sources a record holds.
pub const MOST_SOURCES: usize = 64;
/// The bytes of a message number and of the hash that is kept.
const MORE: usize = 7;

/// The last accepted number of each source.
#[derive(Clone, Debug, PartialEq, Eq)]
pub struct Accepted {
    numbers: BTreeMap<u16, u32>,
    most: usize,
}

impl Accepted {
    /// An empty record of 64 sources at most.
    pub fn empty() -> Accepted {
        Accepted::holding(MOST_SOURCES, &[])
    }

    /// A record of so many sources at most that holds these.
    pub fn holding(most: usize, held: &[(u16, u32)]) -> Accepted {
        Accepted {
            numbers: held.iter().copied().collect(),
            most,
        }
    }

    /// The last accepted number of a source that is held.
    pub fn get(&self, source: u16) -> Option<u32> {
        self.numbers.get(&source).copied()
    }

    /// Removes a source, and gives whether it was held.
    pub fn remove(&mut self, source: u16) -> bool {
        self.numbers.remove(&source).is_some()
    }

    /// How many sources are held.
    pub fn len(&self) -> usize {
        self.numbers.len()
    }

    /// Is none held?
    pub fn is_empty(&self) -> bool {
        self.numbers.is_empty()
    }

    /// Is there no room for a new source?
    pub fn is_full(&self) -> bool {
        self.len() >= self.most
    }
}

/// Writes the PDU at the start of the bytes with its payload encrypted: 1 to 6,
/// 88, 85, 86, 87. Gives the number and the length written.
pub fn seal(key: &Key, number: u64, pdu: &[u8], out: &mut [u8]) -> (u8, usize) {
    let header = match read(pdu) {
        Ok(header) => header,
        Err(number) => return (number, 0),
    };
    if header.encrypted {
        return (ALREADY_ENCRYPTED, 0);
    }
    if header.payload_length + MORE > MOST_PAYLOAD {
        return (SEALED_PAYLOAD_SIZE, 0);
    }
    if number > MOST_NUMBER {
        return (MESSAGE_NUMBER, 0);
    }
    let plain = header.payload(pdu);
    let sealed = Header {
        encrypted: true,
        time_stamp_request: false,
        payload_length: header.payload_length + MORE,
        ..header
    };
    let payload = encrypted(key, &sealed, number as u32, plain);
    match write(&sealed, &payload, out) {
        (DONE, length) => (DONE, length),
        _ => (SEALED_OUTPUT_SHORT, 0),
    }
}

/// Writes the plain payload of the PDU at the start of the bytes: 1 to 6, 80,
/// 81, 82, 83, 84, 87. Gives the number and the length written.
pub fn open(key: &Key, accepted: &mut Accepted, pdu: &[u8], out: &mut [u8]) -> (u8, usize) {
    match opened(key, accepted, pdu) {
        Ok((_, _, plain)) if plain.len() > out.len() => (SEALED_OUTPUT_SHORT, 0),
        Ok((header, number, plain)) => {
            out[..plain.len()].copy_from_slice(&plain);
            accepted.numbers.insert(header.source, number);
            (DONE, plain.len())
        }
        Err(number) => (number, 0),
    }
}

/// The message number of the sealed PDU at the start of the bytes: 1 to 6, 80,
/// 81. It is the payload's first three bytes.
pub fn message_number(pdu: &[u8]) -> Result<u32, u8> {
    Ok(numbered(pdu)?.1)
}

/// The header and the message number.
fn numbered(pdu: &[u8]) -> Result<(Header, u32), u8> {
    let header = read(pdu)?;
    if !header.encrypted {
        return Err(NOT_ENCRYPTED);
    }
    let payload = header.payload(pdu);
    if payload.len() < MORE {
        return Err(TOO_SHORT_TO_OPEN);
    }
    let number = u32::from_be_bytes([0, payload[0], payload[1], payload[2]]);
    Ok((header, number))
}

/// The header, the message number and the plain payload, but for the room.
fn opened(key: &Key, accepted: &Accepted, pdu: &[u8]) -> Result<(Header, u32, Vec<u8>), u8> {
    let (header, number) = numbered(pdu)?;
    let enciphered = &header.payload(pdu)[3..];
    let last = accepted.get(header.source);
    if last.is_some_and(|last| number <= last) {
        return Err(NUMBER_NOT_GREATER);
    }
    let mut plain = counter_mode(key, &first_counter(&header, number), enciphered);
    let four = plain.split_off(plain.len() - 4);
    if four != hash(&header, number, &plain) {
        return Err(HASH_DIFFERS);
    }
    if last.is_none() && accepted.is_full() {
        return Err(SOURCES_FULL);
    }
    Ok((header, number, plain))
}

/// The payload of a sealed PDU with this header: the number, and then the plain
/// payload and its hash enciphered.
fn encrypted(key: &Key, sealed: &Header, number: u32, plain: &[u8]) -> Vec<u8> {
    let protected = [plain, &hash(sealed, number, plain)].concat();
    let enciphered = counter_mode(key, &first_counter(sealed, number), &protected);
    [&three_bytes(number)[..], &enciphered].concat()
}

/// "The two-byte source address and the three-byte EMID value in the high bits,
/// and zeros in the low bits."
fn first_counter(header: &Header, number: u32) -> [u8; 16] {
    let mut block = [0; 16];
    block[..2].copy_from_slice(&header.source.to_be_bytes());
    block[2..5].copy_from_slice(&three_bytes(number));
    block
}

/// The most significant 4 bytes of SHA-1 over the header, "with the hop limit
/// as zero and the path left out", the number and the plain payload.
fn hash(header: &Header, number: u32, plain: &[u8]) -> [u8; 4] {
    let mut bytes = header_bytes(&Header {
        hop_limit: 0,
        ..header.clone()
    });
    let path = header.path.as_ref().map_or(0, |path| 1 + 2 * path.len());
    bytes.truncate(bytes.len() - path);
    bytes.extend(three_bytes(number));
    bytes.extend(plain);
    let digest = sha1(&bytes);
    [digest[0], digest[1], digest[2], digest[3]]
}

/// Most significant byte first.
fn three_bytes(number: u32) -> [u8; 3] {
    let [_, high, middle, low] = number.to_be_bytes();
    [high, middle, low]
}
