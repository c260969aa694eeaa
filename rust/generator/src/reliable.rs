//! Reliable messages (02, W-210): what is done with a table of retained PDUs,
//! and records that hold one.

mod pdus;
mod records;

use crate::output::room;
use crate::random::Random;
use crate::settings::{setting, settings};
use crate::shape::address;
use pdus::{heard, to_retain};
pub use records::{retained_records, RetainedRecord};
use reference::{Sending, Settings, Table, MOST_RETAINED};

/// What is done with a table.
#[derive(Clone, Debug, PartialEq, Eq)]
pub enum ReliableDeed {
    /// These bytes are to be retained at this time.
    Retain(u64, Vec<u8>),
    /// A step at this time, with this delay and this many tries and so much
    /// room.
    Step(u64, u64, u64, usize),
    /// A node hears these bytes, and then its table, with so much room for an
    /// acknowledgement.
    Hear(Settings, Vec<u8>, Sending, usize),
    /// A node with this own address is said to have answered this delivery
    /// number for these bytes, which may be of any kind.
    Answer(u16, Vec<u8>, u8, Sending, usize),
}

/// What stays the same in a history.
#[derive(Clone, Debug, PartialEq, Eq)]
pub struct Habits {
    /// How many deeds there are.
    pub turns: usize,
    own_address: u16,
    others: Vec<u16>,
    ids: usize,
    delay: u64,
    tries: u64,
    /// So many are retained for eight other deeds, about.
    retains: usize,
}

/// A history around a node: a few addresses and IDs, so that PDUs meet their
/// acknowledgements, and enough IDs at times to fill a table.
pub fn habits(random: &mut Random) -> Habits {
    let others = random.between(1, 3);
    Habits {
        turns: random.between(1, 60),
        retains: random.pick(&[1, 4, 4, 40]),
        own_address: address(random),
        others: (0..others).map(|_| address(random)).collect(),
        ids: random.pick(&[2, 6, 20, 256]),
        delay: random.pick(&[0, 1, 2, 5, 30, 30]),
        tries: random.pick(&[0, 1, 1, 2, 3, u64::MAX]),
    }
}

/// The next deed with a table.
pub fn reliable_deed(random: &mut Random, habits: &Habits, table: &Table) -> ReliableDeed {
    match random.below(8 + habits.retains) {
        0..=3 => step(random, habits, table),
        4..=6 => {
            let node = Settings {
                own_address: habits.own_address,
                ..settings(random)
            };
            let bytes = heard(random, habits, table);
            let room = room(random, 10);
            ReliableDeed::Hear(node, bytes, sending(random), room)
        }
        7 => {
            let own = match random.below(8) {
                0 => random.pick(&habits.others),
                1 => 0,
                2 => address(random),
                _ => habits.own_address,
            };
            let mut bytes = heard(random, habits, table);
            if random.one_in(4) {
                bytes.truncate(random.below(bytes.len() + 1));
            }
            let delivery = random.pick(&[0, 0, 0, 0, 0, 30, 35, 39, 40, 42]);
            let room = random.between(0, 11);
            ReliableDeed::Answer(own, bytes, delivery, sending(random), room)
        }
        _ => ReliableDeed::Retain(time(random, table.last()), to_retain(random, habits)),
    }
}

/// A time near the last one, at times before it.
fn time(random: &mut Random, last: u64) -> u64 {
    match random.below(16) {
        0 => last.saturating_sub(1),
        1 => random.draw() >> random.below(64),
        2..=5 => last,
        6 => last.saturating_add(random.below(100) as u64),
        7 if random.one_in(20) => u64::MAX,
        _ => last.saturating_add(random.between(1, 8) as u64),
    }
}

/// A step, often just when a record is due or a second early, with room for a
/// record's PDU, a byte less, or any.
fn step(random: &mut Random, habits: &Habits, table: &Table) -> ReliableDeed {
    let used: Vec<_> = table.records().iter().flatten().collect();
    let delay = match random.below(8) {
        0 => random.pick(&[0, 1, 7, u64::MAX]),
        _ => habits.delay,
    };
    let tries = match random.below(8) {
        0 => random.pick(&[0, 1, 9, u64::MAX]),
        _ => habits.tries,
    };
    let (mut now, mut length) = (time(random, table.last()), 20);
    if !used.is_empty() {
        let record = used[random.below(used.len())];
        length = record.pdu.len();
        let due = record.sent_at.saturating_add(delay);
        now = match random.below(4) {
            0 => due,
            1 => due.saturating_sub(1),
            _ => now,
        };
    }
    let room = match random.below(3) {
        0 => MOST_RETAINED,
        _ => room(random, length),
    };
    ReliableDeed::Step(now, delay, tries, room)
}

/// Settings of an acknowledgement, some to be refused.
fn sending(random: &mut Random) -> Sending {
    Sending {
        hop: setting(random, 7),
        port: setting(random, 15),
        time_stamp_request: random.flag(),
        path: random.flag(),
    }
}

#[cfg(test)]
mod tests {
    use super::*;
    use reference::{hear, Done, Lists};

    /// What came up in histories from a free table: numbers of each operation,
    /// and deeds.
    #[derive(Debug, Default)]
    struct Seen {
        retain: Vec<u8>,
        step: Vec<u8>,
        heard: Vec<u8>,
        done: Vec<Done>,
        /// Of answers that say delivered: for unreadable bytes, for a reliable
        /// PDU to another address, for one with an added header.
        strange: [usize; 3],
    }

    impl Seen {
        fn strange(&mut self, own: u16, bytes: &[u8], delivery: u8) {
            match reference::read(bytes) {
                _ if delivery != 0 => {}
                Err(_) => self.strange[0] += 1,
                Ok(pdu) if pdu.protocol != 1 => {}
                Ok(pdu) if pdu.destination != Some(own) => self.strange[1] += 1,
                Ok(pdu) if pdu.added_header => self.strange[2] += 1,
                Ok(_) => {}
            }
        }

        fn deed(&mut self, table: &mut Table, deed: ReliableDeed) {
            let (numbers, answered) = match deed {
                ReliableDeed::Retain(time, pdu) => (&mut self.retain, table.retain(time, &pdu)),
                ReliableDeed::Step(time, delay, tries, room) => {
                    let answered = table.step(time, delay, tries, &mut vec![0; room]);
                    (&mut self.step, answered)
                }
                ReliableDeed::Hear(settings, bytes, sending, room) => {
                    let answer = hear(&settings, &Lists::EMPTY, &bytes, &mut [0; 5_000]);
                    let mut out = vec![0; room];
                    let (own, delivery) = (settings.own_address, answer.delivery);
                    let answered = table.heard(own, &bytes, delivery, &sending, &mut out);
                    (&mut self.heard, answered)
                }
                ReliableDeed::Answer(own, bytes, delivery, sending, room) => {
                    self.strange(own, &bytes, delivery);
                    let mut out = vec![0; room];
                    let answered = table.heard(own, &bytes, delivery, &sending, &mut out);
                    (&mut self.heard, answered)
                }
            };
            numbers.push(answered.err().unwrap_or(0));
            self.done.extend(answered.ok());
        }

        fn count(&self, is_so: impl Fn(&Done) -> bool) -> usize {
            self.done.iter().filter(|done| is_so(done)).count()
        }
    }

    #[test]
    fn every_number_and_deed_arises() {
        let (mut random, mut seen) = (Random::from_seed(1), Seen::default());
        for _ in 0..1_500 {
            let (habits, mut table) = (habits(&mut random), Table::free());
            for _ in 0..habits.turns {
                let deed = reliable_deed(&mut random, &habits, &table);
                seen.deed(&mut table, deed);
            }
        }
        let often = |numbers: &[u8], wanted: &[u8]| {
            for number in wanted {
                let count = numbers.iter().filter(|one| *one == number).count();
                assert!(count > 50, "{number}: {count}");
            }
        };
        often(&seen.retain, &[0, 70, 71, 72, 73, 75]);
        often(&seen.step, &[0, 73, 77]);
        often(&seen.heard, &[0, 10, 11, 77]);
        assert!(seen.count(|done| matches!(done, Done::SentAgain(..))) > 500);
        assert!(seen.count(|done| matches!(done, Done::Failed(..))) > 500);
        assert!(seen.count(|done| matches!(done, Done::Freed(..))) > 500);
        assert!(seen.count(|done| matches!(done, Done::Answered(..))) > 500);
        assert!(
            seen.strange.iter().all(|count| *count > 50),
            "{:?}",
            seen.strange
        );
    }

    #[test]
    fn records_of_every_kind_arise() {
        let mut random = Random::from_seed(1);
        let (mut counts, mut used, mut free) = (vec![], 0, 0);
        for _ in 0..1_000 {
            let habits = habits(&mut random);
            let records = retained_records(&mut random, &habits);
            counts.push(records.len());
            for record in records {
                let pdu = record.pdu.get(..record.length).unwrap_or(&[]);
                let is_used = Table::free().retain(0, pdu).is_ok();
                used += usize::from(is_used);
                free += usize::from(!is_used && record.length > 0);
            }
        }
        for count in [0, 1, 15, 16, 17, 32] {
            assert!(counts.contains(&count), "{count}");
        }
        assert!(used > 1_000 && free > 1_000, "{used} {free}");
    }
}
