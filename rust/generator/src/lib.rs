//! Seeded inputs for documents 01 and 02: PDUs, also damaged and cut ones,
//! editions, settings, lists, outputs, batches, jobs, histories of a table of
//! stations, exchanges, transmit queues, tables of retained PDUs, encrypted
//! payloads, and networks.
//!
//! Everything is drawn from one [`Random`], so the same seed gives the same
//! inputs. PDUs are laid out by arithmetic here, not by the reference model.

mod batch;
mod block;
mod exchange;
mod history;
mod job;
mod lists;
mod network;
mod output;
mod queue;
mod random;
mod received;
mod reliable;
mod sealed;
mod settings;
mod shape;
mod table;

pub use batch::batch;
pub use block::{block, good_block, mostly_good_block, Block};
pub use exchange::{exchange, exchanged_pdu, levels_down, sent_run, short_exchange};
pub use history::{deed, history, source_near, Deed, Hearing, History};
pub use job::{damaged_job, job, random_job, DamagedJob, JobParts};
pub use lists::{any_eight_lists, bad_list, eight_lists, good_eight_lists, good_list, EightLists};
pub use network::network;
pub use output::{output, room};
pub use queue::{any_queue, empty_queue, pace, queue_deed, Pace, QueueDeed};
pub use random::{splitmix64, Random};
pub use received::{cut, damaged, random_bytes, received};
pub use reliable::{habits, reliable_deed, retained_records, Habits, ReliableDeed, RetainedRecord};
pub use sealed::{
    any_key, any_record, empty_record, openings, repeated, to_seal, Openings, ToOpen, ToSeal,
};
pub use settings::{edition, good_edition, origination, payload_to_send, settings, settings_for};
pub use shape::{address, shape, Shape};
pub use table::{any_table, rising_table, TABLE_WORDS};
