//! Origination.

use crate::output::Output;
use crate::same::{length_or_number, Input};
use crate::Compared;
use differential::{fresh, written};
use generator::{origination, payload_to_send, room, Random};
use mant::raw;
use reference::originate;

/// Compares on settings and payloads, some to be refused.
pub fn compare(random: &mut Random) -> Compared {
    let settings = origination(random);
    let payload = payload_to_send(random);
    let header = 6
        + 2 * usize::from(settings.destination.is_some())
        + usize::from(settings.reliable)
        + usize::from(settings.path);
    let room = room(random, header + payload.len());
    let asked = fresh(&settings, random.word());
    let input = Input {
        bytes: &payload,
        rest: &(asked, room),
    };
    let mut library = Output::of(random, room);
    let mut reference = library.clone();
    let mut wrapper = library.clone();
    let answered = raw::originate(asked, &payload, library.room());
    let wanted = originate(&settings, &payload, reference.room());
    input.same("origination", answered, written(wanted))?;
    input.same_bytes("output", library.all(), reference.all())?;
    let fresh = mant::Fresh {
        edition: settings.edition,
        source: settings.source,
        destination: settings.destination,
        hop_limit: settings.hop,
        port: settings.port,
        time_stamp_request: settings.time_stamp_request,
        with_path: settings.path,
        reliable: settings.reliable,
        pdu_id: settings.pdu_id,
        encrypted: settings.encrypted,
    };
    let wrapped = mant::originate(&fresh, &payload, wrapper.room());
    let wrapped = wrapped.map_err(mant::Refusal::number);
    input.same("wrapped", wrapped, length_or_number(wanted))?;
    input.same_bytes("wrapped output", wrapper.all(), reference.all())
}
