//! The reference model: documents 01 and 02, written from their text alone.
//!
//! Nothing here is fast or clever. Each module cites the section that it
//! follows, and uses the names of 01. It shares nothing with the library that
//! it is compared with, except the words of the numbers, in docs/NUMBERS.md.

mod aes;
mod airtime;
mod batch;
mod edition;
mod exchange;
mod flood;
mod header;
mod job;
mod lists;
mod network;
mod node;
pub mod numbers;
mod octets;
mod origin;
mod queue;
mod reach;
mod retained;
mod sealed;
mod sha1;
mod stations;
mod writing;

pub use aes::{counter_mode, encipher, Key};
pub use airtime::{airtime, count, Airtime};
pub use batch::{walk, Step, Walk, MOST_BATCH};
pub use edition::{read_under, Bits, Edition, Shown, EDITION_1_1, EDITION_1_2};
pub use exchange::{element_at, read_exchange, write_exchange, Element, Exchange, MOST_EXCHANGE};
pub use flood::{bound, bytes_bound, command_bound, longest_path};
pub use header::{read, Header, FIXED_LENGTH, MOST_PATH, MOST_PAYLOAD, MOST_PDU};
pub use job::{read_job, relay, Job};
pub use lists::{
    holds, list_fault, Choice, ListFault, Lists, TwoLists, LISTS, MOST_RANGES, MOST_VALUES,
};
pub use network::Network;
pub use node::{hear, Answer, Settings};
pub use numbers::{described, meaning};
pub use origin::{originate, Origination};
pub use queue::{Queue, Taken, MOST_HELD, MOST_HELD_BYTES};
pub use reach::{chains, delivered, failures, least_hop_limit, reach, shortest_chains, Failure};
pub use retained::{Done, Names, Retained, Sending, Table, MOST_RETAINED, RECORDS};
pub use sealed::{message_number, open, seal, Accepted, MOST_NUMBER, MOST_SOURCES};
pub use sha1::sha1;
pub use stations::{counts_as_echo, hear_and_count, Station, Stations, MOST_STATIONS};
pub use writing::{write, write_again};
