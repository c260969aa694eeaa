//! 01, "Header, byte by byte": all numbers are most significant byte first.

/// One bit of a byte, 7 the highest.
pub fn bit(byte: u8, place: u32) -> bool {
    (byte >> place) & 1 == 1
}

/// A word of two bytes.
pub fn word(high: u8, low: u8) -> u16 {
    u16::from(high) * 256 + u16::from(low)
}

/// Bytes taken from left to right; running past their end is a refusal with
/// the number `short`.
pub struct Cursor<'a> {
    bytes: &'a [u8],
    at: usize,
    short: u8,
}

impl<'a> Cursor<'a> {
    /// A cursor at place `at` of the bytes.
    pub fn new(bytes: &'a [u8], at: usize, short: u8) -> Cursor<'a> {
        Cursor { bytes, at, short }
    }

    /// How many bytes are left.
    pub fn left(&self) -> usize {
        self.bytes.len() - self.at
    }

    /// The next `count` bytes.
    pub fn take(&mut self, count: usize) -> Result<&'a [u8], u8> {
        if self.left() < count {
            return Err(self.short);
        }
        let part = &self.bytes[self.at..self.at + count];
        self.at += count;
        Ok(part)
    }

    /// The next byte.
    pub fn byte(&mut self) -> Result<u8, u8> {
        Ok(self.take(1)?[0])
    }

    /// The next two bytes as a word.
    pub fn word(&mut self) -> Result<u16, u8> {
        let part = self.take(2)?;
        Ok(word(part[0], part[1]))
    }
}
