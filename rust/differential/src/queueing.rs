//! Transmit queues: histories from an empty one, and arbitrary memory.

use crate::memory::Memory;
use crate::output::Output;
use crate::same::{node, number, Input};
use crate::Compared;
use differential::level;
use generator::{
    any_queue, empty_queue, good_block, pace, queue_deed, settings_for, Pace, QueueDeed, Random,
};
use mant::raw;
use mant::Cursor;
use reference::{Queue, Taken, MOST_PDU};

/// A queue in the library and in the wrapper, and its history where its numbers
/// are those of the PDUs held.
struct Queues {
    library: Memory,
    wrapper: mant::Queue,
    history: Option<History>,
}

/// A queue in the reference since its numbers are those of the PDUs held.
#[derive(Default)]
struct History {
    /// What it held at first, and then what was accepted.
    accepted: Vec<Vec<u8>>,
    /// The batches taken and what was cleared, as the history goes.
    gone: Vec<u8>,
    /// What it holds.
    held: Vec<Vec<u8>>,
}

/// Compares a history from an empty queue.
pub fn compare_history(random: &mut Random) -> Compared {
    let (memory, pace) = (empty_queue(random), pace(random, 90));
    compare(random, &memory, pace)
}

/// Compares a few deeds with arbitrary memory.
pub fn compare_by_hand(random: &mut Random) -> Compared {
    let (memory, pace) = (any_queue(random), pace(random, 8));
    compare(random, &memory, pace)
}

/// Compares all that is answered, and the whole memory after each deed. From
/// where the numbers are those of the PDUs held, what was accepted is at last
/// what was taken and cleared, followed by what is held.
fn compare(random: &mut Random, memory: &[u8], pace: Pace) -> Compared {
    let mut queues = Queues::of(random, memory);
    queues.compare_shown(&Input {
        bytes: memory,
        rest: &"a queue's memory",
    })?;
    for _ in 0..pace.turns {
        let before = queues.library.clone();
        let deed = queue_deed(random, pace, &Queue::holding(&before.held()));
        let input = Input {
            bytes: before.bytes(),
            rest: &deed,
        };
        queues.done(random, &input, &deed)?;
        input.same("memory", &queues.library, &before.after(&deed))?;
        queues.compare_shown(&input)?;
    }
    let input = Input {
        bytes: queues.library.bytes(),
        rest: &"a queue after its history",
    };
    let Some(history) = queues.history else {
        return Ok(());
    };
    let left = [&history.gone[..], &queues.library.held().concat()].concat();
    input.same_bytes("gone and held", &left, &history.accepted.concat())
}

impl Queues {
    /// The queues in the memory.
    fn of(random: &mut Random, memory: &[u8]) -> Queues {
        let library = Memory::of(random, memory);
        let held = library.held();
        let is_kept = library.told() == level(&Queue::holding(&held));
        Queues {
            wrapper: mant::Queue::from_memory(*library.bytes()),
            library,
            history: is_kept.then(|| History {
                accepted: held.clone(),
                held,
                ..History::default()
            }),
        }
    }

    /// Does a deed in all queues.
    fn done(&mut self, random: &mut Random, input: &Input, deed: &QueueDeed) -> Compared {
        match deed {
            QueueDeed::Add(bytes) => self.added(input, bytes),
            QueueDeed::Take(room) => {
                let held = self.library.held();
                let output = Output::of(random, *room);
                let (batch, pdus) = self.took(input, &output)?;
                compare_walk(random, input, &batch, &held[..pdus])?;
                if let Some(history) = &mut self.history {
                    history.held.drain(..pdus);
                    history.gone.extend(batch);
                }
                Ok(())
            }
            QueueDeed::Clear => {
                raw::queue_clear(self.library.change());
                self.wrapper.clear();
                let history = self.history.get_or_insert_with(History::default);
                history.gone.extend(history.held.concat());
                history.held.clear();
                Ok(())
            }
        }
    }

    /// Bytes are added.
    fn added(&mut self, input: &Input, bytes: &[u8]) -> Compared {
        let wanted = self.library.add_number(bytes);
        let added = raw::queue_add(self.library.change(), bytes);
        input.same("number of adding", added, wanted)?;
        input.same("wrapped adding", number(self.wrapper.add(bytes)), wanted)?;
        if let Some(history) = &mut self.history {
            let by_reference = Queue::holding(&history.held).add(bytes);
            input.same("number of adding by what is held", added, by_reference)?;
            if added == 0 {
                history.held.push(bytes.to_vec());
                history.accepted.push(bytes.to_vec());
            }
        }
        Ok(())
    }

    /// PDUs are taken: the batch, and how many.
    fn took(&mut self, input: &Input, output: &Output) -> Result<(Vec<u8>, usize), String> {
        let (mut library, mut reference) = (output.clone(), output.clone());
        let mut wrapper = output.clone();
        let wanted = Queue::holding(&self.library.held()).take(reference.room());
        let batch = raw::queue_take(self.library.change(), library.room());
        input.same("batch", batch, differential::batch(wanted))?;
        input.same_bytes("output", library.all(), reference.all())?;
        let taken = self.wrapper.take(wrapper.room());
        let taken = taken.map_err(mant::Refusal::number);
        input.same("wrapped batch", taken, in_wrapper(wanted))?;
        input.same_bytes("wrapped output", wrapper.all(), reference.all())?;
        Ok((library.room()[..batch.bytes].to_vec(), batch.pdus))
    }

    /// The level, and the PDUs that the wrapper shows.
    fn compare_shown(&self, input: &Input) -> Compared {
        let (memory, held) = (self.library.bytes(), self.library.held());
        let told = raw::queue_level(memory);
        input.same("level as it stands", told, self.library.told())?;
        if let Some(history) = &self.history {
            input.same("held", &held, &history.held)?;
            input.same("level", told, level(&Queue::holding(&held)))?;
        }
        let queue = &self.wrapper;
        input.same_bytes("wrapper's memory", queue.memory(), memory)?;
        input.same("wrapped level", queue.level(), told)?;
        input.same("wrapper's is_empty", queue.is_empty(), held.is_empty())?;
        let shown: Vec<&[u8]> = queue.iter().collect();
        let wanted: Vec<&[u8]> = held.iter().map(Vec::as_slice).collect();
        input.same("wrapper's PDUs", shown, wanted)
    }
}

/// What was taken as the wrapper gives it.
fn in_wrapper(taken: Taken) -> Result<mant::Taken, u8> {
    match taken.number {
        0 => Ok(mant::Taken {
            pdus: taken.pdus,
            bytes: taken.bytes,
        }),
        number => Err(number),
    }
}

/// The library's walk, under either edition and at any node without a list at
/// fault, comes in a batch to each PDU that was taken and to its end, and
/// answers none of 1 to 6.
fn compare_walk(random: &mut Random, input: &Input, batch: &[u8], pdus: &[Vec<u8>]) -> Compared {
    let (settings, block) = (settings_for(random, batch), good_block(random));
    let (at, lists) = (node(random, &settings), &block.0);
    let mut output = [0; MOST_PDU];
    let mut cursor = Cursor::default();
    for pdu in pdus {
        let step = raw::step(at, lists, batch, cursor, &mut output);
        input.same("kind of a step", step.kind, raw::ANSWERED)?;
        input.same("taken by a step", step.answer.taken, pdu.len())?;
        let is_read = !(1..=6).contains(&step.answer.delivery);
        input.same("a PDU of the batch is read", is_read, true)?;
        cursor = step.next;
    }
    let last = raw::step(at, lists, batch, cursor, &mut output);
    input.same("last step", (last.kind, cursor.ended), (raw::ENDED, false))?;
    input.same("end of the walk", cursor.place, batch.len())
}
