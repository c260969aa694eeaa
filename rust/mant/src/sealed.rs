//! Encrypted payloads (02, W-212).

use crate::raw::{self, SOURCE_LIMIT, SOURCE_WORDS};
use crate::{length, Key, Refusal};
use std::fmt;

/// The last message number that was accepted from each source, at most 64. It
/// begins empty. Keep it over a restart, and before a command is carried out:
/// an empty record opens what was opened before.
#[derive(Clone, PartialEq, Eq)]
pub struct Record {
    words: [u32; SOURCE_WORDS],
}

impl Record {
    /// So many sources are held at most.
    pub const LIMIT: usize = SOURCE_LIMIT;
    /// So many words hold them.
    pub const WORDS: usize = SOURCE_WORDS;

    /// An empty record.
    pub const fn new() -> Record {
        Record::from_words([0; SOURCE_WORDS])
    }

    /// The record in these words, which `include/mant.h` describes.
    pub const fn from_words(words: [u32; SOURCE_WORDS]) -> Record {
        Record { words }
    }

    /// The words that hold the record, to be kept elsewhere.
    pub const fn words(&self) -> &[u32; SOURCE_WORDS] {
        &self.words
    }

    /// The sources with their last accepted numbers, in the order in which
    /// they came.
    pub fn iter(&self) -> impl Iterator<Item = (u32, u32)> + '_ {
        let held = self.words[0].min(SOURCE_LIMIT as u32) as usize;
        let pairs = self.words[1..].chunks_exact(2).take(held);
        pairs.map(|pair| (pair[0], pair[1]))
    }

    /// The last number that was accepted from a source, if it is held.
    pub fn get(&self, source: u16) -> Option<u32> {
        let mut pairs = self.iter();
        let pair = pairs.find(|pair| pair.0 == u32::from(source))?;
        Some(pair.1)
    }

    /// Opens the sealed PDU at the start of the bytes: writes its plain
    /// payload, returns its length, and notes its message number.
    ///
    /// Refusals: 1 to 6, 80 to 84, 87. After 87 the PDU can be opened with more
    /// room. 82 is found before the hash is checked, and proves nothing about
    /// the sender. Once a later number is accepted, an earlier one never opens.
    /// `docs/SEALING.md` says what sealing does not protect.
    ///
    /// ```
    /// use mant::{seal, Key, Record, Refusal};
    ///
    /// let key = Key { bytes: *b"keep me secret!!" };
    /// let pdu = [0x02, 0x00, 0x10, 0x01, 0x03, 0xE8, 0x00, 0x2A];
    /// let (mut sealed, mut plain, mut record) = ([0; 15], [0; 1], Record::new());
    /// assert_eq!(seal(&key, 850, &pdu, &mut sealed), Ok(15));
    /// assert_eq!(mant::message_number(&sealed), Ok(850));
    /// assert_eq!(record.open(&key, &sealed, &mut []), Err(Refusal::NoRoomForPayload));
    /// assert_eq!(record.open(&key, &sealed, &mut plain), Ok(1));
    /// assert_eq!((plain, record.get(1000)), ([0x2A], Some(850)));
    /// assert_eq!(record.open(&key, &sealed, &mut plain), Err(Refusal::NumberNotGreater));
    /// ```
    pub fn open(&mut self, key: &Key, pdu: &[u8], output: &mut [u8]) -> Result<usize, Refusal> {
        length(raw::open(*key, &mut self.words, pdu, output))
    }

    /// Removes a source, and returns whether it was held. Its next number may
    /// be any, also a used one, so remove a source only when its key changes.
    ///
    /// ```
    /// let mut words = [0; mant::Record::WORDS];
    /// words[..5].copy_from_slice(&[2, 1000, 850, 1600, 3]);
    /// let mut record = mant::Record::from_words(words);
    /// assert!(record.remove(1000) && !record.remove(1000));
    /// assert_eq!((record.get(1000), record.get(1600)), (None, Some(3)));
    /// ```
    pub fn remove(&mut self, source: u16) -> bool {
        raw::remove_source(&mut self.words, source)
    }
}

impl Default for Record {
    fn default() -> Record {
        Record::new()
    }
}

impl fmt::Debug for Record {
    fn fmt(&self, f: &mut fmt::Formatter) -> fmt::Result {
        f.debug_map().entries(self.iter()).finish()
    }
}

/// The message number of the sealed PDU at the start of the bytes. It is not
/// checked: anyone can send any number. Refusals: 1 to 6, 80, 81.
pub fn message_number(pdu: &[u8]) -> Result<u32, Refusal> {
    let numbered = raw::message_number(pdu);
    Refusal::check(numbered.number).map(|()| numbered.message)
}

/// Seals the PDU at the start of the bytes and returns its length, 7 bytes
/// more. Under one key no source may use a number twice, or a listener learns
/// how the payloads differ. Keep the next number, over a restart too, before
/// the PDU goes out. Refusals: 1 to 6, 88, 85, 86, 87.
pub fn seal(key: &Key, number: u64, pdu: &[u8], output: &mut [u8]) -> Result<usize, Refusal> {
    length(raw::seal(*key, number, pdu, output))
}
