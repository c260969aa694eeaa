//! The MANT layer of ALERT2: the C library libmant.a with Rust types.
//!
//! Every function is defined for every input and allocates nothing. What is
//! refused is a [`Refusal`], with its number and its meaning. A function names
//! its refusals in the order in which they are checked. With each of them
//! output, table, queue and record stay as they were. Output is written from
//! its first byte on, and bytes behind that stay. [`PDU_LIMIT`] bytes are room
//! for every PDU, [`PAYLOAD_LIMIT`] for every plain payload, and
//! [`Exchange::LIMIT`] for every exchange that is written.
//!
//! A [`Node`] holds the settings of a box, and [`Lists`] its address lists.
//! [`Stations`] counts the stations that a box has heard. [`Queue`] holds the
//! PDUs that wait to be sent, and [`Reliable`] those that wait for their
//! acknowledgement. [`Record`] holds the last message numbers of sealed PDUs. A
//! [`Network`] says whom a report reaches and how often it goes out. [`raw`]
//! has the library's structs as they are.
//!
//! An edition is [`EDITION_1_1`] or [`EDITION_1_2`]. Any other number is
//! refused with 17, before all else. Sealing is of 1.2 alone.
//!
//! No function remembers what was delivered: a PDU that arrives by two ways is
//! delivered twice, and so is a command that is sent again. If that matters,
//! the program remembers it. Over a restart a box must keep the [`Record`], the
//! last message number and the last PDU ID. The rest may begin empty.
//!
//! The names are those of `include/mant.h` without `mant_`, except for methods:
//! `mant_lay_lists` is [`Lists::lay`], whose error is what `mant_list_fault`
//! returns, `mant_change_over` [`Node::change_over`], `mant_hear_and_count`
//! [`Stations::hear`], `mant_hear_reliably` [`Reliable::hear`],
//! `mant_station_of` [`Stations::get`], `mant_stations_held` [`Stations::len`],
//! `mant_count_heard` [`Stations::count`], `mant_queue_add` [`Queue::add`],
//! `mant_retain` [`Reliable::retain`], which keeps the last time itself,
//! `mant_open` [`Record::open`], `mant_chain_lengths` [`Network::chains`],
//! `mant_network_transmissions` [`Network::transmissions`], `mant_meaning`
//! [`Refusal::meaning`]. A flag beside a value in C is an [`Option`] here.
//!
//! Linking needs `libmant.a`. `tools/build staticlib mant` makes it for x86-64
//! Linux in the repository's `target/staticlib`, where it is looked for first.
//! For another processor `tools/build boards TARGET` makes it on x86-64, and
//! `MANT_LIB_DIR=../target/boards/TARGET` names its folder. A relative path
//! counts from the repository's folder `rust`.
//!
//! A report goes out, and repeater 2000 hears it:
//!
//! ```
//! use mant::{hear, originate, read, Fresh, Lists, Node, EDITION_1_2};
//!
//! let fresh = Fresh { source: 1000, hop_limit: 3, with_path: true, ..Fresh::default() };
//! let (node, lists) = (Node::new(2000), Lists::none());
//! let (mut report, mut repeated) = ([0; mant::PDU_LIMIT], [0; mant::PDU_LIMIT]);
//! let length = originate(&fresh, b"rain", &mut report)?;
//! let answer = hear(&node, &lists, &report[..length], &mut repeated);
//! assert_eq!(&report[answer.delivery?], b"rain");
//! let header = read(EDITION_1_2, &repeated[..answer.repeat?])?;
//! assert_eq!((header.hop_limit, header.last_sender), (2, Some(2000)));
//! # Ok::<(), mant::Refusal>(())
//! ```

mod edition;
mod exchange;
mod lists;
mod network;
mod node;
mod originating;
mod planning;
mod queue;
pub mod raw;
mod reading;
mod refusal;
mod reliable;
mod sealed;
mod stations;

/// The version of the library, `MANT_VERSION` in C.
pub const VERSION: &str = env!("CARGO_PKG_VERSION");

pub use edition::Bits;
pub use exchange::{elements, read_exchange, write_exchange, Element, Elements, Exchange};
pub use lists::{list_holds, Choice, EightLists, List, ListFault, Lists, TwoLists};
pub use network::{Airtime, Chains, Network};
pub use node::{hear, step, Answer, Node, Step};
pub use originating::{originate, Fresh};
pub use planning::{limits, most_bytes, most_for_command, most_transmissions};
pub use queue::{Queue, Taken};
pub use raw::{Cursor, Key, Level, Limits, Names, Retained, Sending};
pub use raw::{EDITION_1_1, EDITION_1_2, PAYLOAD_LIMIT, PDU_LIMIT};
pub use reading::{path_address, path_has, read, write_again, Header};
pub use refusal::Refusal;
pub use reliable::{Deed, HeardReliably, Reliable};
pub use sealed::{message_number, seal, Record};
pub use stations::{Heard, Listened, Station, Stations};

/// What was written, or why nothing was.
fn length(written: raw::Written) -> Result<usize, Refusal> {
    Refusal::check(written.number).map(|()| written.length)
}

/// The examples of docs/rust.md, run with those of this crate.
#[cfg(doctest)]
#[doc = include_str!("../../../docs/rust.md")]
struct Page;

#[cfg(test)]
mod tests;
