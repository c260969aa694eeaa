//! The words of a record of last accepted numbers, and the reading of them that
//! `include/mant.h` gives.

use crate::guarded::Guarded;
use generator::Random;
use mant::raw::{SOURCE_LIMIT, SOURCE_WORDS};
use reference::Accepted;

/// A record's words and what surrounds them.
#[derive(Clone, Debug, PartialEq, Eq)]
pub struct Words(Guarded<u32>);

impl Words {
    /// These words between any words.
    pub fn of(random: &mut Random, words: &[u32]) -> Words {
        let any = |random: &mut Random, count| (0..count).map(|_| random.draw() as u32).collect();
        Words(Guarded::of(random, words, any))
    }

    /// The record's words.
    pub fn words(&self) -> &[u32; SOURCE_WORDS] {
        self.0.elements().try_into().expect("a record's words")
    }

    /// The same to be changed.
    pub fn change(&mut self) -> &mut [u32; SOURCE_WORDS] {
        self.0.change().try_into().expect("a record's words")
    }

    /// The entries that are held: source and number.
    fn entries(&self) -> Vec<(u32, u32)> {
        let words = self.words();
        let held = (words[0] as usize).min(SOURCE_LIMIT);
        let pairs = words[1..].chunks_exact(2).take(held);
        pairs.map(|pair| (pair[0], pair[1])).collect()
    }

    /// The record for the reference. Of the entries of a source the first
    /// counts, and the others and those of no source take room.
    pub fn accepted(&self) -> Accepted {
        let entries = self.entries();
        let mut held: Vec<(u16, u32)> = vec![];
        for (source, number) in &entries {
            match u16::try_from(*source) {
                Ok(source) if held.iter().all(|one| one.0 != source) => {
                    held.push((source, *number))
                }
                _ => {}
            }
        }
        let without_a_source = entries.len() - held.len();
        Accepted::holding(SOURCE_LIMIT - without_a_source, &held)
    }

    /// The words once a source was removed: its entries are gone, those behind
    /// them moved up, and the words behind the entries left are as they were.
    pub fn without(&self, source: u16) -> Words {
        let mut left = self.entries();
        let held = left.len();
        left.retain(|entry| entry.0 != u32::from(source));
        let mut after = self.clone();
        if left.len() < held {
            let words = after.change();
            words[0] = left.len() as u32;
            for (pair, entry) in words[1..].chunks_exact_mut(2).zip(left) {
                pair.copy_from_slice(&[entry.0, entry.1]);
            }
        }
        after
    }

    /// The words once a number was accepted from a source, for which there is
    /// an entry or room.
    pub fn with(&self, source: u16, number: u32) -> Words {
        let entries = self.entries();
        let is_its = |entry: &(u32, u32)| entry.0 == u32::from(source);
        let place = entries.iter().position(is_its).unwrap_or(entries.len());
        let mut after = self.clone();
        let words = after.change();
        words[0] = entries.len().max(place + 1) as u32;
        words[1 + 2 * place] = u32::from(source);
        words[2 + 2 * place] = number;
        after
    }
}
