//! 01, "One PDU at one node", the lists; numbers 20 to 22. 02, W-211: two of
//! each kind. How eight lists lie in one block of words is this project's own
//! choice, as `include/mant.h` tells it.

use crate::numbers::{LONG_LIST, LOW_ABOVE_HIGH, ODD_LIST};

/// 01, "Sizes": each address list holds 0 to 64 ranges.
pub const MOST_RANGES: usize = 64;
/// A range is two values, so a list has at most 128.
pub const MOST_VALUES: usize = 2 * MOST_RANGES;
/// Two lists of each of four kinds.
pub const LISTS: usize = 8;

/// 02, W-211: "a choice of first, second or none".
#[derive(Clone, Copy, Debug, Default, PartialEq, Eq)]
pub enum Choice {
    /// The kind is off.
    #[default]
    None,
    /// Its first list is on.
    First,
    /// Its second list is on.
    Second,
}

/// The two lists of a kind, each low, high, low, high and so on, both ends
/// included.
#[derive(Clone, Copy, Debug, PartialEq, Eq)]
pub struct TwoLists<'a> {
    /// The first.
    pub first: &'a [u16],
    /// The second.
    pub second: &'a [u16],
}

impl<'a> TwoLists<'a> {
    /// The list that is on, if one is.
    pub fn chosen(&self, choice: Choice) -> Option<&'a [u16]> {
        match choice {
            Choice::None => None,
            Choice::First => Some(self.first),
            Choice::Second => Some(self.second),
        }
    }
}

/// The lists of a node, two of each kind.
#[derive(Clone, Copy, Debug, PartialEq, Eq)]
pub struct Lists<'a> {
    /// Sources that pass.
    pub source_pass: TwoLists<'a>,
    /// Sources that are rejected.
    pub source_reject: TwoLists<'a>,
    /// Destinations that pass.
    pub destination_pass: TwoLists<'a>,
    /// Destinations that are rejected.
    pub destination_reject: TwoLists<'a>,
}

impl<'a> Lists<'a> {
    /// Eight empty lists.
    pub const EMPTY: Lists<'static> = Lists::of([&[]; LISTS]);

    /// The lists in the order in which 01 names their kinds, first before
    /// second.
    pub const fn of(lists: [&'a [u16]; LISTS]) -> Lists<'a> {
        let [a, b, c, d, e, f, g, h] = lists;
        Lists {
            source_pass: TwoLists {
                first: a,
                second: b,
            },
            source_reject: TwoLists {
                first: c,
                second: d,
            },
            destination_pass: TwoLists {
                first: e,
                second: f,
            },
            destination_reject: TwoLists {
                first: g,
                second: h,
            },
        }
    }

    /// The lists that a block of any length holds. Its first eight words are
    /// their lengths; their values follow back to back. A list ends where the
    /// block does.
    pub fn in_block(block: &'a [u16]) -> Lists<'a> {
        let (lengths, mut rest) = block.split_at(block.len().min(LISTS));
        let mut lists: [&[u16]; LISTS] = [&[]; LISTS];
        for (list, length) in lists.iter_mut().zip(lengths) {
            (*list, rest) = rest.split_at(rest.len().min(usize::from(*length)));
        }
        Lists::of(lists)
    }

    /// The block that holds these lists. Of a list that is too long one value
    /// too many is laid, so that it still is.
    pub fn laid(&self) -> Vec<u16> {
        let cut = |list: &'a [u16]| &list[..list.len().min(MOST_VALUES + 1)];
        let lists = self.in_order().map(cut);
        let mut block: Vec<u16> = lists.iter().map(|list| list.len() as u16).collect();
        block.extend(lists.iter().copied().flatten());
        block
    }

    /// "Each its kind's first list; the second is empty."
    pub const fn firsts(lists: [&'a [u16]; 4]) -> Lists<'a> {
        let [a, b, c, d] = lists;
        Lists::of([a, &[], b, &[], c, &[], d, &[]])
    }

    /// "In the order of 01, first before second."
    pub fn in_order(&self) -> [&'a [u16]; LISTS] {
        [
            self.source_pass.first,
            self.source_pass.second,
            self.source_reject.first,
            self.source_reject.second,
            self.destination_pass.first,
            self.destination_pass.second,
            self.destination_reject.first,
            self.destination_reject.second,
        ]
    }
}

/// What is wrong with a node's lists.
#[derive(Clone, Copy, Debug, PartialEq, Eq)]
pub struct ListFault {
    /// 22, 21 or 20.
    pub number: u8,
    /// The place of the list among the eight, 0 to 7.
    pub list: usize,
}

/// The first fault of the eight lists. "All eight are checked", so nothing is
/// asked about the choice here.
pub fn list_fault(lists: &Lists) -> Option<ListFault> {
    let mut numbers = lists.in_order().into_iter().map(one_list_fault).enumerate();
    numbers.find_map(|(list, number)| {
        let number = number?;
        Some(ListFault { number, list })
    })
}

/// "In each 22, 21, then 20."
fn one_list_fault(list: &[u16]) -> Option<u8> {
    if list.len() > MOST_VALUES {
        Some(LONG_LIST)
    } else if list.len() % 2 == 1 {
        Some(ODD_LIST)
    } else if list.chunks(2).any(|range| range[0] > range[1]) {
        Some(LOW_ABOVE_HIGH)
    } else {
        None
    }
}

/// Is the address in one of the list's ranges? Both ends are included.
pub fn holds(list: &[u16], address: u16) -> bool {
    list.chunks_exact(2)
        .any(|range| range[0] <= address && address <= range[1])
}
