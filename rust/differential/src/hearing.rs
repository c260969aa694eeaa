//! One PDU at one node.

use crate::output::Output;
use crate::same::{lists, node, wrapped, wrapped_node, Input};
use crate::Compared;
use differential::answer;
use generator::{edition, mostly_good_block, received, room, settings_for, Random};
use mant::raw;
use reference::{hear, read, Settings};

/// Compares on any settings, blocks of lists, received bytes and rooms.
pub fn compare(random: &mut Random) -> Compared {
    let block = mostly_good_block(random);
    let bytes = received(random);
    let shown = read(&bytes).ok();
    let settings = Settings {
        edition: edition(random),
        ..settings_for(random, &bytes)
    };
    let length = shown.as_ref().map_or(0, |header| {
        header.pdu_length() + 2 * usize::from(header.path.is_some())
    });
    let room = room(random, length);
    let at = node(random, &settings);
    let input = Input {
        bytes: &bytes,
        rest: &(at, &block, room),
    };
    let mut library = Output::of(random, room);
    let mut reference = library.clone();
    let mut wrapper = library.clone();
    let answered = raw::hear(at, &block.0, &bytes, library.room());
    let wanted = answer(&hear(&settings, &block.lists(), &bytes, reference.room()));
    input.same("answer", answered, wanted)?;
    input.same_bytes("output", library.all(), reference.all())?;
    let Ok(laid) = lists(&block.lists()) else {
        return Ok(());
    };
    let safe = mant::hear(&wrapped_node(&settings), &laid, &bytes, wrapper.room());
    input.same_bytes("wrapped output", wrapper.all(), reference.all())?;
    if let (Ok(place), Some(header)) = (&safe.delivery, &shown) {
        let delivered = &bytes[place.clone()];
        input.same_bytes("delivered", delivered, header.payload(&bytes))?;
    }
    input.same("wrapped answer", safe, wrapped(&wanted))
}
