//! The records of a table of retained PDUs between others, so that one written
//! before or after them shows too, and the reading of them that
//! `include/mant.h` gives.

use generator::{Random, ReliableDeed, RetainedRecord};
use mant::raw::Retained;
use reference::{Done, Table};

/// A table's records and one before and one after them.
#[derive(Clone, Debug, PartialEq, Eq)]
pub struct Lent {
    records: Vec<Retained>,
}

impl Lent {
    /// These records between two of any bytes.
    pub fn of(random: &mut Random, records: &[RetainedRecord]) -> Lent {
        let mut all = vec![any(random)];
        all.extend(records.iter().map(in_library));
        all.push(any(random));
        Lent { records: all }
    }

    /// The table's records.
    pub fn table(&self) -> &[Retained] {
        &self.records[1..self.records.len() - 1]
    }

    /// The same to be changed.
    pub fn change(&mut self) -> &mut [Retained] {
        let last = self.records.len() - 1;
        &mut self.records[1..last]
    }

    /// The table for the reference. A length above 256 is no PDU's.
    pub fn read(&self, last: u64) -> Table {
        let records = self.table().iter().map(|record| {
            let pdu = record.pdu.get(..usize::try_from(record.length).ok()?)?;
            Some(reference::Retained {
                pdu: pdu.to_vec(),
                sent_at: record.sent_at,
                count: record.count,
            })
        });
        Table::of(records.collect(), last)
    }

    /// The records after a deed of which the reference says what it did.
    pub fn after(&self, deed: &ReliableDeed, done: Result<Done, u8>) -> Lent {
        let mut lent = self.clone();
        let table = lent.change();
        match (deed, done) {
            (ReliableDeed::Retain(time, pdu), Ok(Done::Retained(place, _))) => {
                table[place] = Retained {
                    length: pdu.len() as u64,
                    sent_at: *time,
                    ..Retained::FREE
                };
                table[place].pdu[..pdu.len()].copy_from_slice(pdu);
            }
            (ReliableDeed::Step(time, ..), Ok(Done::SentAgain(place, ..))) => {
                table[place].sent_at = *time;
                table[place].count += 1;
            }
            (_, Ok(Done::Failed(place, _) | Done::Freed(place, _))) => {
                table[place] = Retained::FREE;
            }
            _ => {}
        }
        lent
    }
}

/// A record of any bytes.
fn any(random: &mut Random) -> Retained {
    let mut pdu = [0; 256];
    pdu.copy_from_slice(&random.bytes(256));
    Retained {
        pdu,
        length: random.below(300) as u64,
        sent_at: random.draw(),
        count: random.draw(),
    }
}

/// A record as the library has it.
fn in_library(record: &RetainedRecord) -> Retained {
    Retained {
        pdu: record.pdu,
        length: record.length as u64,
        sent_at: record.sent_at,
        count: record.count,
    }
}
