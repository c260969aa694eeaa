//! The editions of the protocol (02, W-209).

use crate::raw;

/// What an edition shows of the three bits after the port. Edition 1.1 has no
/// encrypted flag, so there is none to be asked for.
#[derive(Clone, Copy, Debug, PartialEq, Eq)]
pub enum Bits {
    /// Under 1.1 one reserved number, 0 to 7.
    Reserved(u8),
    /// Under 1.2 the first of them is a flag.
    Flagged {
        /// The encrypted flag.
        encrypted: bool,
        /// The two reserved bits, 0 to 3.
        reserved: u8,
    },
}

impl Bits {
    /// Those of a header that was read.
    pub(crate) fn of(header: &raw::Header) -> Bits {
        let (encrypted, reserved) = (header.encrypted, header.reserved);
        match header.has_encrypted {
            true => Bits::Flagged {
                encrypted,
                reserved,
            },
            false => Bits::Reserved(reserved),
        }
    }
}
