//! Batches, stepped by the library against the reference's walk.

use crate::output::Output;
use crate::same::{lists, node, wrapped, wrapped_node, Input};
use crate::Compared;
use differential::answer;
use generator::{batch, edition, mostly_good_block, settings_for, Block, Random};
use mant::{raw, Cursor};
use reference::numbers::BATCH_SIZE;
use reference::{hear, walk, Edition, Settings, Step, MOST_BATCH, MOST_PDU};

/// A node and its batch.
#[derive(Debug)]
struct Case<'a> {
    settings: Settings,
    /// The settings for the library.
    node: raw::Node,
    block: &'a Block,
    batch: &'a [u8],
}

impl Case<'_> {
    /// The library's step.
    fn step(&self, cursor: Cursor, output: &mut Output) -> raw::Step {
        raw::step(self.node, &self.block.0, self.batch, cursor, output.room())
    }
}

/// Compares a whole walk, and steps from any cursor.
pub fn compare(random: &mut Random) -> Compared {
    let block = mostly_good_block(random);
    let batch = batch(random);
    let settings = Settings {
        edition: edition(random),
        ..settings_for(random, &batch)
    };
    let case = Case {
        settings,
        node: node(random, &settings),
        block: &block,
        batch: &batch,
    };
    let small = random.between(0, 60);
    let room = random.pick(&[0, 6, 20, small, 200, 1_000, MOST_PDU, MOST_PDU, 5_000]);
    let input = Input {
        bytes: &batch,
        rest: &(case.node, &block, room),
    };
    let output = Output::of(random, room);
    compare_walk(&case, &input, &output)?;
    for _ in 0..4 {
        compare_any(random, &case, &input, &output)?;
    }
    Ok(())
}

/// The whole walk; the library's output after each step is compared.
fn compare_walk(case: &Case, input: &Input, output: &Output) -> Compared {
    let (mut library, mut reference) = (output.clone(), output.clone());
    let mut replayed = output.clone();
    let (settings, room) = (&case.settings, reference.room());
    let walked = match walk(settings, &case.block.lists(), case.batch, room) {
        Ok(walked) => walked,
        Err(number) => return compare_refused(case, input, output, number),
    };
    let mut cursor = Cursor::default();
    for (place, met) in walked.steps.iter().enumerate() {
        let next = walked.steps.get(place + 1).map(|next| next.offset);
        let wanted = raw::Step {
            kind: raw::ANSWERED,
            answer: answer(&met.answer),
            next: Cursor {
                place: next.unwrap_or(walked.end),
                ended: met.answer.taken == 0,
            },
        };
        input.same("offset", cursor.place, met.offset)?;
        compare_wrapped(case, input, cursor, &library, &wanted)?;
        let step = case.step(cursor, &mut library);
        input.same("step", step, wanted)?;
        replay(met, &mut replayed);
        input.same_bytes("output of a step", library.all(), replayed.all())?;
        cursor = step.next;
    }
    input.same("end of the walk", cursor.place, walked.end)?;
    let last = case.step(cursor, &mut library);
    input.same("last step", last, ended(raw::ENDED, raw::NO_NUMBER, cursor))?;
    input.same_bytes("output of the walk", library.all(), reference.all())
}

/// What the reference repeated, at the start of the room.
fn replay(met: &Step, output: &mut Output) {
    output.room()[..met.repeated.len()].copy_from_slice(&met.repeated);
}

/// The wrapper's step on an output of its own says the same.
fn compare_wrapped(
    case: &Case,
    input: &Input,
    cursor: Cursor,
    output: &Output,
    wanted: &raw::Step,
) -> Compared {
    let Ok(laid) = lists(&case.block.lists()) else {
        return Ok(());
    };
    let mut output = output.clone();
    let node = wrapped_node(&case.settings);
    let step = mant::step(&node, &laid, case.batch, cursor, output.room());
    let wanted = mant::Step::Answered(wrapped(&wanted.answer), wanted.next);
    input.same("wrapped step", step, wanted)
}

/// A batch above the limit: 54 and nothing else.
fn compare_refused(case: &Case, input: &Input, output: &Output, number: u8) -> Compared {
    input.same("refusal", number, BATCH_SIZE)?;
    let mut library = output.clone();
    let step = case.step(Cursor::default(), &mut library);
    let wanted = ended(raw::REFUSED, number, Cursor::default());
    input.same("refused step", step, wanted)?;
    input.same_bytes("output on refusal", library.all(), output.all())
}

/// A step that answers for no PDU.
fn ended(kind: u8, number: u8, cursor: Cursor) -> raw::Step {
    raw::Step {
        kind,
        answer: raw::Answer {
            delivery: number,
            repeat: number,
            ..raw::Answer::default()
        },
        next: Cursor {
            ended: true,
            ..cursor
        },
    }
}

/// A step from any cursor: inside, at or past the end, ended or not.
fn compare_any(random: &mut Random, case: &Case, input: &Input, output: &Output) -> Compared {
    let length = case.batch.len();
    let inside = random.below(length + 1);
    let past = length.saturating_add(random.below(10));
    let huge = random.draw() as usize;
    let cursor = Cursor {
        place: random.pick(&[inside, inside, inside, length, past, huge, usize::MAX]),
        ended: random.one_in(4),
    };
    let (mut library, mut reference) = (output.clone(), output.clone());
    let step = case.step(cursor, &mut library);
    let wanted = if length > MOST_BATCH && Edition::of(case.settings.edition).is_ok() {
        ended(raw::REFUSED, BATCH_SIZE, cursor)
    } else if cursor.ended || cursor.place >= length {
        ended(raw::ENDED, raw::NO_NUMBER, cursor)
    } else {
        let rest = &case.batch[cursor.place..];
        let heard = hear(&case.settings, &case.block.lists(), rest, reference.room());
        raw::Step {
            kind: raw::ANSWERED,
            answer: answer(&heard),
            next: Cursor {
                place: cursor.place + heard.taken,
                ended: heard.taken == 0,
            },
        }
    };
    input.same(&format!("step from {cursor:?}"), step, wanted)?;
    input.same_bytes("output of any step", library.all(), reference.all())
}
