//! Reliable messages: histories of a table of retained PDUs.

use crate::lent::Lent;
use crate::output::Output;
use crate::same::{node, Input};
use crate::table::answer_for;
use crate::Compared;
use differential::{answer, names_of, outcome};
use generator::{
    edition, habits, mostly_good_block, reliable_deed, retained_records, Block, Random,
    ReliableDeed,
};
use mant::raw::{self, Outcome, RECORDS};
use reference::{hear, Done, Sending, Settings, Table, MOST_PDU};

/// A table in the library, in the reference, and in the wrapper where it has
/// 16 records.
struct Tables {
    library: Lent,
    last: u64,
    reference: Table,
    wrapper: Option<mant::Reliable>,
}

/// What the reference did or refused; or, before that, what differs.
type Answered = Result<Result<Done, u8>, String>;

/// What is asked of the three tables: received bytes with the node's answer
/// for them, in the library's words and the reference's number.
struct Asked<'a> {
    own: u16,
    received: &'a [u8],
    answer: raw::Answer,
    delivery: u8,
    sending: &'a Sending,
}

/// A node that hears: its settings for the library and for the reference, and
/// its lists.
#[derive(Debug)]
struct Hearer<'a> {
    at: raw::Node,
    settings: &'a Settings,
    block: &'a Block,
}

/// Compares a history: all that is answered and written, and every record after
/// each deed.
pub fn compare(random: &mut Random) -> Compared {
    let habits = habits(random);
    let records = retained_records(random, &habits);
    let mut tables = Tables::of(random, &records);
    for _ in 0..habits.turns {
        let deed = reliable_deed(random, &habits, &tables.reference);
        let before = tables.library.clone();
        let input = Input {
            bytes: &[],
            rest: &(&deed, tables.last, before.table()),
        };
        let done = tables.done(random, &input, &deed)?;
        let left = before.after(&deed, done);
        input.same("records", &tables.library, &left)?;
        tables.compare_shown(&input)?;
    }
    Ok(())
}

impl Tables {
    /// The three tables in the records.
    fn of(random: &mut Random, records: &[generator::RetainedRecord]) -> Tables {
        let library = Lent::of(random, records);
        let last = match random.flag() {
            true => 0,
            false => random.draw() >> random.below(64),
        };
        let wrapper = <[raw::Retained; RECORDS]>::try_from(library.table()).ok();
        Tables {
            reference: library.read(last),
            wrapper: wrapper.map(|records| mant::Reliable::from_records(records, last)),
            library,
            last,
        }
    }

    /// Does a deed with all tables: what the reference says it did.
    fn done(&mut self, random: &mut Random, input: &Input, deed: &ReliableDeed) -> Answered {
        match deed {
            ReliableDeed::Retain(time, pdu) => self.retained(input, *time, pdu),
            ReliableDeed::Step(time, delay, tries, room) => {
                let output = Output::of(random, *room);
                self.stepped(input, *time, (*delay, *tries), &output)
            }
            ReliableDeed::Hear(settings, received, sending, room) => {
                let settings = Settings {
                    edition: edition(random),
                    ..*settings
                };
                let hearer = Hearer {
                    at: node(random, &settings),
                    settings: &settings,
                    block: &mostly_good_block(random),
                };
                let input = Input {
                    bytes: received,
                    rest: &(input.rest, &hearer),
                };
                let output = Output::of(random, *room);
                match random.flag() {
                    true => self.heard_in_one(&input, &hearer, sending, &output),
                    false => self.heard_apart(&input, &hearer, sending, &output),
                }
            }
            ReliableDeed::Answer(own, received, delivery, sending, room) => {
                let asked = Asked {
                    own: *own,
                    received,
                    answer: answer_for(received, *delivery),
                    delivery: *delivery,
                    sending,
                };
                let output = Output::of(random, *room);
                self.heard(input, &asked, &output)
            }
        }
    }

    /// A PDU is retained.
    fn retained(&mut self, input: &Input, time: u64, pdu: &[u8]) -> Answered {
        let outcome = raw::retain(self.library.change(), self.last, time, pdu);
        let wanted = self.reference.retain(time, pdu);
        self.answered(input, outcome, wanted)?;
        if let Some(table) = &mut self.wrapper {
            let wrapped = table.retain(time, pdu).map_err(mant::Refusal::number);
            input.same("wrapped retaining", wrapped, wanted.map(in_wrapper))?;
        }
        Ok(wanted)
    }

    /// One step.
    fn stepped(
        &mut self,
        input: &Input,
        time: u64,
        (delay, tries): (u64, u64),
        output: &Output,
    ) -> Answered {
        let (mut library, mut reference) = (output.clone(), output.clone());
        let mut wrapper = output.clone();
        let (table, times) = (self.library.change(), (self.last, time));
        let outcome = raw::retry(table, times, (delay, tries), library.room());
        let wanted = self.reference.step(time, delay, tries, reference.room());
        self.answered(input, outcome, wanted)?;
        input.same_bytes("output", library.all(), reference.all())?;
        if let Some(table) = &mut self.wrapper {
            let wrapped = table.retry(time, delay, tries, wrapper.room());
            let wrapped = wrapped.map_err(mant::Refusal::number);
            input.same("wrapped step", wrapped, wanted.map(in_wrapper))?;
            input.same_bytes("wrapped output", wrapper.all(), reference.all())?;
        }
        Ok(wanted)
    }

    /// A PDU was heard.
    fn heard(&mut self, input: &Input, asked: &Asked, output: &Output) -> Answered {
        let (mut library, mut reference) = (output.clone(), output.clone());
        let mut wrapper = output.clone();
        let Asked {
            received, sending, ..
        } = asked;
        let settings = differential::sending(sending);
        let (table, room) = (self.library.change(), library.room());
        let (own, heard) = (asked.own, (*received, asked.answer));
        let outcome = raw::acknowledge(table, self.last, own, heard, settings, room);
        let (delivery, room) = (asked.delivery, reference.room());
        let wanted = self.reference.heard(own, received, delivery, sending, room);
        self.answered(input, outcome, wanted)?;
        input.same_bytes("output", library.all(), reference.all())?;
        if let Some(table) = &mut self.wrapper {
            let heard = crate::same::wrapped(&asked.answer);
            let wrapped = table.acknowledge(own, received, &heard, &settings, wrapper.room());
            let wrapped = wrapped.map_err(mant::Refusal::number);
            input.same("wrapped hearing", wrapped, wanted.map(in_wrapper))?;
            input.same_bytes("wrapped output", wrapper.all(), reference.all())?;
        }
        Ok(wanted)
    }

    /// A node hears the input's bytes, and then its table, by a call each.
    fn heard_apart(
        &mut self,
        input: &Input,
        hearer: &Hearer,
        sending: &Sending,
        output: &Output,
    ) -> Answered {
        let (received, mut repeated) = (input.bytes, [0; MOST_PDU]);
        let Hearer {
            at,
            settings,
            block,
        } = hearer;
        let heard = hear(settings, &block.lists(), received, &mut repeated);
        let library = raw::hear(*at, &block.0, received, &mut repeated);
        input.same("node's answer", library, answer(&heard))?;
        let asked = Asked {
            own: settings.own_address,
            received,
            answer: library,
            delivery: heard.delivery,
            sending,
        };
        self.heard(input, &asked, output)
    }

    /// A node hears the input's bytes, and its table with it, in one call: what
    /// the reference's node answers and leaves, and then its table.
    fn heard_in_one(
        &mut self,
        input: &Input,
        hearer: &Hearer,
        sending: &Sending,
        output: &Output,
    ) -> Answered {
        let (mut library, mut reference) = (output.clone(), output.clone());
        let mut wrapper = output.clone();
        let (received, sent) = (input.bytes, differential::sending(sending));
        let (settings, block) = (hearer.settings, hearer.block);
        let at = (hearer.at, &block.0[..]);
        let (table, room) = (self.library.change(), library.room());
        let heard = raw::hear_reliably(at, table, self.last, received, sent, room);
        let wanted = hear(settings, &block.lists(), received, reference.room());
        input.same("node's answer", heard.answer, answer(&wanted))?;
        let (own, delivery) = (settings.own_address, wanted.delivery);
        let room = reference.room();
        let done = self.reference.heard(own, received, delivery, sending, room);
        self.answered(input, heard.outcome, done)?;
        input.same_bytes("output", library.all(), reference.all())?;
        if let Some(table) = &mut self.wrapper {
            let last = table.last();
            let mut records = *table.records();
            let room = wrapper.room();
            let wrapped = raw::hear_reliably(at, &mut records, last, received, sent, room);
            input.same("once more", wrapped, heard)?;
            *table = mant::Reliable::from_records(records, wrapped.outcome.last);
        }
        Ok(done)
    }

    /// The library's answer is the reference's; its time is kept.
    fn answered(&mut self, input: &Input, answered: Outcome, wanted: Result<Done, u8>) -> Compared {
        let last = self.reference.last();
        input.same("outcome", answered, outcome(wanted, last))?;
        self.last = answered.last;
        Ok(())
    }

    /// The records hold what the reference holds, and the wrapper's are the
    /// same.
    fn compare_shown(&self, input: &Input) -> Compared {
        let read = self.library.read(self.last);
        input.same("table", &read, &self.reference)?;
        let Some(table) = &self.wrapper else {
            return Ok(());
        };
        input.same("wrapper's last time", table.last(), self.last)?;
        let records = &table.records()[..];
        input.same("wrapper's records", records, self.library.table())
    }
}

/// What was done as the wrapper gives it.
fn in_wrapper(done: Done) -> mant::Deed {
    match done {
        Done::Nothing => mant::Deed::Nothing,
        Done::Retained(place, names) => mant::Deed::Retained(place, names_of(names)),
        Done::SentAgain(place, names, length) => {
            mant::Deed::SentAgain(place, names_of(names), length)
        }
        Done::Failed(place, names) => mant::Deed::Failed(place, names_of(names)),
        Done::Freed(place, names) => mant::Deed::Freed(place, names_of(names)),
        Done::Answered(names, length) => mant::Deed::Acknowledged(names_of(names), length),
    }
}
