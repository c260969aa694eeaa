//! 02, W-209: the editions of the MANT protocol, and what each shows of the
//! three bits after the port; number 17.

use crate::header::{read, Header};
use crate::numbers::UNKNOWN_EDITION;

/// The number of edition 1.1, document 001.
pub const EDITION_1_1: u64 = 11;
/// The number of edition 1.2, document 000.
pub const EDITION_1_2: u64 = 12;

/// An edition.
#[derive(Clone, Copy, Debug, PartialEq, Eq)]
pub enum Edition {
    /// 1.1.
    OneOne,
    /// 1.2.
    OneTwo,
}

/// What an edition shows of the three bits after the port.
#[derive(Clone, Copy, Debug, PartialEq, Eq)]
pub enum Bits {
    /// 1.1: "one reserved number 0 to 7 and no flag".
    Reserved(u8),
    /// 1.2: "the flag and a reserved number 0 to 3".
    Flagged(bool, u8),
}

/// What reading shows of a PDU under an edition.
#[derive(Clone, Debug, PartialEq, Eq)]
pub struct Shown {
    /// The three bits after the port.
    pub bits: Bits,
    /// Every other field. Its encrypted bit and its reserved ones are 0.
    pub others: Header,
}

impl Edition {
    /// The edition of a number. "Another edition number: 17".
    pub fn of(number: u64) -> Result<Edition, u8> {
        match number {
            EDITION_1_1 => Ok(Edition::OneOne),
            EDITION_1_2 => Ok(Edition::OneTwo),
            _ => Err(UNKNOWN_EDITION),
        }
    }

    /// What it shows of a header.
    fn shows(self, header: Header) -> Shown {
        let bits = match self {
            Edition::OneOne => Bits::Reserved(4 * u8::from(header.encrypted) + header.reserved),
            Edition::OneTwo => Bits::Flagged(header.encrypted, header.reserved),
        };
        Shown {
            bits,
            others: Header {
                encrypted: false,
                reserved: 0,
                ..header
            },
        }
    }
}

impl Shown {
    /// The header as 01's byte table has it: the first of the three bits is
    /// the encrypted one.
    pub fn header(self) -> Header {
        let (encrypted, reserved) = match self.bits {
            Bits::Reserved(number) => (number >= 4, number % 4),
            Bits::Flagged(encrypted, reserved) => (encrypted, reserved),
        };
        Header {
            encrypted,
            reserved,
            ..self.others
        }
    }
}

/// Reads the PDU at the start of the bytes under an edition: 17 "before every
/// other check", then 1 to 6.
pub fn read_under(edition: u64, bytes: &[u8]) -> Result<Shown, u8> {
    let edition = Edition::of(edition)?;
    Ok(edition.shows(read(bytes)?))
}
