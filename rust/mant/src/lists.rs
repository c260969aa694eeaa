//! The lists of a node, two of each kind (02, W-211).

use crate::raw::{self, FIRST_LIST, LIST_WORDS, NO_LIST, SECOND_LIST};
use crate::Refusal;
use std::error::Error;
use std::fmt;

/// Which of a kind's two lists a node reads.
#[derive(Clone, Copy, Debug, Default, PartialEq, Eq)]
pub enum Choice {
    /// None: the kind is off.
    #[default]
    None,
    /// The first.
    First,
    /// The second.
    Second,
}

impl Choice {
    /// Its number in the library.
    pub(crate) fn number(self) -> u8 {
        match self {
            Choice::None => NO_LIST,
            Choice::First => FIRST_LIST,
            Choice::Second => SECOND_LIST,
        }
    }

    /// The choice that has a number; none for any but 1 and 2.
    pub(crate) fn of(number: u8) -> Choice {
        match number {
            FIRST_LIST => Choice::First,
            SECOND_LIST => Choice::Second,
            _ => Choice::None,
        }
    }
}

/// The two lists of a kind, each low, high, low, high and so on, both ends
/// included, in any order and of 128 values at most; overlaps are allowed.
#[derive(Clone, Copy, Debug, Default, PartialEq, Eq)]
pub struct TwoLists<'a> {
    /// The first.
    pub first: &'a [u16],
    /// The second.
    pub second: &'a [u16],
}

/// Eight lists to be laid. Those that are not set are empty.
#[derive(Clone, Copy, Debug, Default, PartialEq, Eq)]
pub struct EightLists<'a> {
    /// Sources that pass.
    pub source_pass: TwoLists<'a>,
    /// Sources that are rejected.
    pub source_reject: TwoLists<'a>,
    /// Destinations that pass.
    pub destination_pass: TwoLists<'a>,
    /// Destinations that are rejected.
    pub destination_reject: TwoLists<'a>,
}

impl<'a> EightLists<'a> {
    /// In the order of the library.
    fn in_order(&self) -> raw::Lists<'a> {
        [
            self.source_pass.first,
            self.source_pass.second,
            self.source_reject.first,
            self.source_reject.second,
            self.destination_pass.first,
            self.destination_pass.second,
            self.destination_reject.first,
            self.destination_reject.second,
        ]
    }
}

/// The lists of a node, laid into one block and without fault. Make them once,
/// at set-up. The settings of a [`Node`](crate::Node) choose among them.
///
/// ```
/// use mant::{Choice, EightLists, List, Lists, Node, Refusal, TwoLists};
///
/// let source_pass = TwoLists { first: &[1000, 1999], second: &[1000, 1099, 1500, 1599] };
/// let lists = Lists::lay(&EightLists { source_pass, ..EightLists::default() })?;
/// let dry_season = Node { source_pass: Choice::First, ..Node::new(2000) };
/// # let answer = mant::hear(&dry_season, &lists, &[0, 0, 0, 0, 3, 0xE7], &mut []);
/// # assert_eq!(answer.delivery, Err(Refusal::SourceNotPassed));
///
/// let source_pass = TwoLists { first: &[1000, 1999], second: &[1099, 1000] };
/// let fault = Lists::lay(&EightLists { source_pass, ..EightLists::default() }).unwrap_err();
/// assert_eq!((fault.refusal, fault.list), (Refusal::LowAboveHigh, List::SourcePassSecond));
/// # Ok::<(), mant::ListFault>(())
/// ```
#[derive(Clone)]
pub struct Lists {
    block: [u16; LIST_WORDS],
    length: usize,
}

impl Lists {
    /// Eight empty lists.
    pub const fn none() -> Lists {
        Lists {
            block: [0; LIST_WORDS],
            length: 0,
        }
    }

    /// Lays eight lists. Returns the first fault, chosen or not: kind by kind,
    /// first before second, and in each list 22, 21, then 20.
    pub fn lay(lists: &EightLists) -> Result<Lists, ListFault> {
        let mut laid = Lists::none();
        let fault = raw::lay_eight(&mut laid.block, lists.in_order());
        Refusal::check(fault.number).map_err(|refusal| ListFault {
            refusal,
            list: List::at(fault.list),
        })?;
        let (lengths, _) = laid.block.split_at(usize::from(raw::LIST_VALUES));
        laid.length = lengths.len() + lengths.iter().copied().map(usize::from).sum::<usize>();
        Ok(laid)
    }

    /// The words as [`raw`] takes them: eight lengths, then the values.
    pub fn words(&self) -> &[u16] {
        &self.block[..self.length]
    }
}

impl Default for Lists {
    fn default() -> Lists {
        Lists::none()
    }
}

impl fmt::Debug for Lists {
    fn fmt(&self, f: &mut fmt::Formatter) -> fmt::Result {
        f.debug_list().entries(self.words()).finish()
    }
}

/// Declares the eight lists with their places and words, once.
macro_rules! lists {
    ($($name:ident = $place:ident, $words:literal;)*) => {
        /// One of the eight lists.
        #[derive(Clone, Copy, Debug, PartialEq, Eq, PartialOrd, Ord, Hash)]
        pub enum List {
            $(#[doc = $words] $name,)*
        }

        impl List {
            /// The list at this place in the library's order.
            fn at(place: u8) -> List {
                match place {
                    $(raw::$place => List::$name,)*
                    _ => unreachable!("the library has no list {place}"),
                }
            }

            /// Its name in words.
            pub fn name(self) -> &'static str {
                match self {
                    $(List::$name => $words,)*
                }
            }
        }
    };
}

lists! {
    SourcePassFirst = SOURCE_PASS_FIRST, "first source pass list";
    SourcePassSecond = SOURCE_PASS_SECOND, "second source pass list";
    SourceRejectFirst = SOURCE_REJECT_FIRST, "first source reject list";
    SourceRejectSecond = SOURCE_REJECT_SECOND, "second source reject list";
    DestinationPassFirst = DESTINATION_PASS_FIRST, "first destination pass list";
    DestinationPassSecond = DESTINATION_PASS_SECOND, "second destination pass list";
    DestinationRejectFirst = DESTINATION_REJECT_FIRST, "first destination reject list";
    DestinationRejectSecond = DESTINATION_REJECT_SECOND, "second destination reject list";
}

/// Why eight lists were refused, and which of them has the fault.
#[derive(Clone, Copy, Debug, PartialEq, Eq)]
pub struct ListFault {
    /// 22, 21 or 20.
    pub refusal: Refusal,
    /// The first list at fault.
    pub list: List,
}

impl fmt::Display for ListFault {
    fn fmt(&self, f: &mut fmt::Formatter) -> fmt::Result {
        write!(f, "{}: {}", self.list.name(), self.refusal)
    }
}

impl Error for ListFault {}

impl From<ListFault> for Refusal {
    fn from(fault: ListFault) -> Refusal {
        fault.refusal
    }
}

/// Whether a range of a list holds an address. A last value without a partner
/// is no range.
pub fn list_holds(list: &[u16], address: u16) -> bool {
    raw::list_holds(list, address)
}
