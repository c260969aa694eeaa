//! Address lists, good and bad (01, "One PDU at one node", 1; 02, W-211).

use crate::random::Random;
use crate::shape::address;
use reference::{Lists, MOST_RANGES};

/// The lists of a node, two of each kind, that own their values.
#[derive(Clone, Debug, Default, PartialEq, Eq)]
pub struct EightLists(pub [Vec<u16>; 8]);

impl EightLists {
    /// The same for the reference.
    pub fn lists(&self) -> Lists<'_> {
        Lists::of(self.0.each_ref().map(Vec::as_slice))
    }
}

/// Eight lists of any length; one or two may have more values than 16 bits
/// count.
pub fn any_eight_lists(random: &mut Random) -> EightLists {
    let mut lists = eight_lists(random);
    for _ in 0..random.below(3) {
        lists.0[random.below(8)] = long_list(random);
    }
    lists
}

/// A list of up to 70,000 values, often with a length that in 16 bits is 0,
/// that of a good list, or 129.
fn long_list(random: &mut Random) -> Vec<u16> {
    let (short, any) = (random.between(120, 140), random.below(70_001));
    let near = 65_536 + random.below(4);
    let count = random.pick(&[short, 65_535, 65_536, near, 65_664, 65_665, 70_000, any]);
    let first = random.word();
    (0..count)
        .map(|place| first.wrapping_add(place as u16))
        .collect()
}

/// Eight lists, mostly good; once in six times one or more are bad.
pub fn eight_lists(random: &mut Random) -> EightLists {
    let mut lists = good_eight_lists(random);
    if random.one_in(6) {
        for _ in 0..random.between(1, 3) {
            lists.0[random.below(8)] = bad_list(random);
        }
    }
    lists
}

/// Eight good lists.
pub fn good_eight_lists(random: &mut Random) -> EightLists {
    EightLists(good_lists(random))
}

/// So many good lists.
pub fn good_lists<const N: usize>(random: &mut Random) -> [Vec<u16>; N] {
    std::array::from_fn(|_| good_list(random))
}

/// A good list: empty, of a few ranges in any order, of overlapping ones, of
/// all addresses, or of the most ranges.
pub fn good_list(random: &mut Random) -> Vec<u16> {
    match random.below(12) {
        0..=3 => vec![],
        4..=7 => {
            let count = random.between(1, 4);
            ranges(random, count)
        }
        8 => overlapping(random),
        9 => vec![0, 65_535],
        10 => {
            let count = random.between(0, MOST_RANGES);
            ranges(random, count)
        }
        _ => ranges(random, MOST_RANGES),
    }
}

/// A bad list: of an odd number of values, of more than 128, with low above
/// high somewhere, or with several of these at once.
pub fn bad_list(random: &mut Random) -> Vec<u16> {
    match random.below(5) {
        0 => odd(random),
        1 => too_long(random),
        2 => low_above_high(random, MOST_RANGES),
        3 => low_above_high(random, 2),
        _ => any_values(random),
    }
}

/// So many ranges, one by one from addresses that meet often.
fn ranges(random: &mut Random, count: usize) -> Vec<u16> {
    let mut list = Vec::with_capacity(2 * count);
    for _ in 0..count {
        list.extend(range(random));
    }
    list
}

/// A range, often of one address or ending at an address that meets often.
fn range(random: &mut Random) -> [u16; 2] {
    let one = address(random);
    let other = match random.below(3) {
        0 => one,
        1 => one.saturating_add(random.below(100) as u16),
        _ => address(random),
    };
    [one.min(other), one.max(other)]
}

/// Ranges around one address.
fn overlapping(random: &mut Random) -> Vec<u16> {
    let middle = address(random);
    let mut list = vec![];
    for _ in 0..random.between(2, 6) {
        list.push(middle.saturating_sub(random.below(50) as u16));
        list.push(middle.saturating_add(random.below(50) as u16));
    }
    list
}

/// An odd number of values, up to 127.
fn odd(random: &mut Random) -> Vec<u16> {
    let count = random.below(MOST_RANGES);
    let mut list = ranges(random, count);
    list.push(address(random));
    list
}

/// 129 values or more, odd or even.
fn too_long(random: &mut Random) -> Vec<u16> {
    let count = random.pick(&[129, 129, 130, 130, 131, 256, 300]);
    let mut list = ranges(random, 150);
    list.truncate(count);
    list
}

/// Up to so many ranges, one of them the wrong way round.
fn low_above_high(random: &mut Random, most: usize) -> Vec<u16> {
    let count = random.between(1, most);
    let mut list = ranges(random, count);
    let low = random.between(1, 65_535) as u16;
    let place = 2 * random.below(count);
    list[place] = low;
    list[place + 1] = random.below(usize::from(low)) as u16;
    list
}

/// So many words of any kind.
pub fn any_words(random: &mut Random, count: usize) -> Vec<u16> {
    (0..count).map(|_| random.word()).collect()
}

/// Any values, up to more than the most.
fn any_values(random: &mut Random) -> Vec<u16> {
    let count = random.between(1, 140);
    any_words(random, count)
}

#[cfg(test)]
mod tests {
    use super::*;
    use crate::settings::settings;
    use reference::{list_fault, Choice};

    #[test]
    fn good_lists_are_good() {
        let mut random = Random::from_seed(1);
        for _ in 0..2000 {
            assert_eq!(list_fault(&good_eight_lists(&mut random).lists()), None);
        }
    }

    #[test]
    fn faults_arise_in_every_list_whatever_is_chosen() {
        let mut random = Random::from_seed(1);
        let mut counts = [[0; 3]; 8];
        for _ in 0..60_000 {
            let (settings, eight) = (settings(&mut random), eight_lists(&mut random));
            let at_fault =
                |list: &Vec<u16>| list_fault(&Lists::firsts([list, &[], &[], &[]])).is_some();
            let faults: Vec<usize> = (0..8).filter(|place| at_fault(&eight.0[*place])).collect();
            let choices = [
                settings.source_pass,
                settings.source_reject,
                settings.destination_pass,
                settings.destination_reject,
            ];
            if let [place] = faults[..] {
                let choice = match choices[place / 2] {
                    Choice::None => 0,
                    Choice::First => 1,
                    Choice::Second => 2,
                };
                counts[place][choice] += 1;
            }
        }
        let least = counts.iter().flatten().min();
        assert!(least.is_some_and(|least| *least > 30), "{counts:?}");
    }

    #[test]
    fn every_fault_arises() {
        let mut random = Random::from_seed(1);
        let mut faults = [0; 23];
        for _ in 0..2000 {
            let list = bad_list(&mut random);
            let lists = Lists::firsts([&[], &[], &list, &[]]);
            let number = list_fault(&lists).map_or(0, |fault| fault.number);
            faults[usize::from(number)] += 1;
        }
        assert!(faults[20..].iter().all(|count| *count > 200), "{faults:?}");
        assert!(faults[0] < 100, "{faults:?}");
    }

    #[test]
    fn long_lists_of_every_kind_arise() {
        let mut random = Random::from_seed(1);
        let mut lengths = [0; 3];
        for _ in 0..1_000 {
            for list in any_eight_lists(&mut random).0 {
                lengths[0] += usize::from(list.len() > 128 && list.len() < 65_536);
                lengths[1] += usize::from(list.len() == 65_536);
                lengths[2] += usize::from(list.len() > 65_536);
            }
        }
        assert!(lengths.iter().all(|count| *count > 100), "{lengths:?}");
    }
}
