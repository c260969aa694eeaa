//! Blocks of address lists: eight lengths, then the values back to back.

use crate::lists::{any_words, eight_lists, good_eight_lists, EightLists};
use crate::random::Random;
use reference::Lists;

impl EightLists {
    /// The block that holds them. None of them has more values than a length
    /// can say.
    pub fn block(&self) -> Block {
        let lengths = self.0.iter().map(|list| list.len() as u16);
        let values = self.0.iter().flatten().copied();
        Block(lengths.chain(values).collect())
    }
}

/// The lists of a node as it takes them: words of any number.
#[derive(Clone, Debug, Default, PartialEq, Eq)]
pub struct Block(pub Vec<u16>);

impl Block {
    /// The lists that it holds, for the reference.
    pub fn lists(&self) -> Lists<'_> {
        Lists::in_block(&self.0)
    }
}

/// A block of any kind: mostly one that holds eight lists, as they are or with
/// some words damaged, more behind them, or cut; else any words, often so few
/// that lengths are missing.
pub fn block(random: &mut Random) -> Block {
    let mut words = eight_lists(random).block().0;
    match random.below(13) {
        0..=5 => {}
        6 => {
            let more = random.between(1, 20);
            words.extend(any_words(random, more));
        }
        7 => words.truncate(random.below(words.len() + 1)),
        8 => words[random.below(8)] = length(random),
        9 => {
            words[random.below(8)] = length(random);
            words.extend(any_words(random, 140));
        }
        10 => {
            let count = random.between(0, 20);
            words = any_words(random, count);
        }
        11 => words[..8].fill_with(|| length(random)),
        _ => {
            let count = random.between(0, 1_100);
            words = any_words(random, count);
        }
    }
    Block(words)
}

/// A block whose lists are good: mostly laid as they are, now and then with
/// more words behind them, or without any word.
pub fn good_block(random: &mut Random) -> Block {
    let mut words = good_eight_lists(random).block().0;
    match random.below(8) {
        0 => words.clear(),
        1 => {
            let more = random.between(1, 20);
            words.extend(any_words(random, more));
        }
        _ => {}
    }
    Block(words)
}

/// A block of any kind one time in four, else one whose lists are good.
pub fn mostly_good_block(random: &mut Random) -> Block {
    match random.one_in(4) {
        true => block(random),
        false => good_block(random),
    }
}

/// A length in a block: small, near the most values, or any.
fn length(random: &mut Random) -> u16 {
    let (small, any) = (random.below(12) as u16, random.word());
    random.pick(&[0, 0, small, small, 126, 128, 129, 130, any, 65_535])
}

#[cfg(test)]
mod tests {
    use super::*;
    use reference::list_fault;

    #[test]
    fn good_blocks_are_good() {
        let mut random = Random::from_seed(1);
        for _ in 0..2000 {
            assert_eq!(list_fault(&good_block(&mut random).lists()), None);
        }
    }

    #[test]
    fn a_block_holds_its_lists() {
        let mut random = Random::from_seed(1);
        for _ in 0..2000 {
            let eight = eight_lists(&mut random);
            assert_eq!(eight.block().lists(), eight.lists());
        }
    }

    #[test]
    fn blocks_of_every_kind_arise() {
        let mut random = Random::from_seed(1);
        let mut faults = [[0; 8]; 23];
        let (mut short, mut cut, mut good) = (0, 0, 0);
        for _ in 0..20_000 {
            let block = block(&mut random);
            let lengths = block.0.iter().take(8).map(|length| usize::from(*length));
            short += usize::from(block.0.len() < 8);
            cut += usize::from(8 + lengths.sum::<usize>() > block.0.len());
            match list_fault(&block.lists()) {
                Some(fault) => faults[usize::from(fault.number)][fault.list] += 1,
                None => good += 1,
            }
        }
        let least = faults[20..].iter().flatten().min();
        assert!(least.is_some_and(|least| *least > 20), "{faults:?}");
        assert!(
            short > 500 && cut > 2_000 && good > 5_000,
            "{short} {cut} {good}"
        );
    }
}
