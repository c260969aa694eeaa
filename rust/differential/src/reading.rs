//! Reading, the path, and writing again.

use crate::output::Output;
use crate::same::Input;
use crate::Compared;
use differential::{header, written};
use generator::{address, edition, received, room, Random};
use mant::raw;
use reference::{read, read_under, write_again, Bits, Header, Shown};

/// Compares on editions and bytes of every kind.
pub fn compare(random: &mut Random) -> Compared {
    let (edition, bytes) = (edition(random), received(random));
    let read = read(&bytes);
    let length = read.as_ref().map_or(0, Header::pdu_length);
    let room = room(random, length);
    let input = Input {
        bytes: &bytes,
        rest: &format!("edition {edition}, room {room}"),
    };
    let shown = read_under(edition, &bytes);
    input.same("header", raw::read(edition, &bytes), header(&shown))?;
    compare_wrapped(edition, &input, &shown)?;
    compare_path(random, &input, &read)?;
    let mut library = Output::of(random, room);
    let mut reference = library.clone();
    let answered = raw::write_again(edition, &bytes, library.room());
    let wanted = written(write_again(edition, &bytes, reference.room()));
    input.same("writing again", answered, wanted)?;
    input.same_bytes("output", library.all(), reference.all())
}

/// The wrapper's header says the same.
fn compare_wrapped(edition: u64, input: &Input, shown: &Result<Shown, u8>) -> Compared {
    let wrapped = mant::read(edition, input.bytes).map_err(mant::Refusal::number);
    let wanted = shown.as_ref().map_err(|number| *number);
    let wanted = wanted.map(|Shown { bits, others }| (bits_in_wrapper(*bits), others));
    let wanted = wanted.map(|(bits, header)| mant::Header {
        protocol: header.protocol,
        time_stamp_request: header.time_stamp_request,
        port: header.port,
        bits,
        ack: header.ack,
        added_header: header.added_header,
        hop_limit: header.hop_limit,
        source: header.source,
        destination: header.destination,
        pdu_id: header.pdu_id,
        path_count: header.path.as_ref().map(|path| path.len() as u8),
        last_sender: header.last_sender(),
        payload: header.length()..header.pdu_length(),
    });
    input.same("wrapped header", wrapped, wanted)
}

/// The three bits as the wrapper shows them.
fn bits_in_wrapper(bits: Bits) -> mant::Bits {
    match bits {
        Bits::Reserved(reserved) => mant::Bits::Reserved(reserved),
        Bits::Flagged(encrypted, reserved) => mant::Bits::Flagged {
            encrypted,
            reserved,
        },
    }
}

/// Every address of the path, places past it, and addresses in and out of it.
fn compare_path(random: &mut Random, input: &Input, read: &Result<Header, u8>) -> Compared {
    let path = read.as_ref().ok().and_then(|header| header.path.clone());
    let path = path.unwrap_or_default();
    let past = [path.len(), path.len() + 1, random.below(600), usize::MAX];
    let huge = random.draw() as usize;
    for place in (0..path.len()).chain(past).chain([huge]) {
        let wanted = path.get(place).copied();
        let library = raw::path_address(input.bytes, place);
        input.same("path address", library, wanted.unwrap_or(0))?;
        input.same("wrapped", mant::path_address(input.bytes, place), wanted)?;
    }
    let last = path.last().copied().unwrap_or(0);
    for address in [address(random), random.word(), last] {
        let library = mant::path_has(input.bytes, address);
        input.same("path has", library, path.contains(&address))?;
    }
    Ok(())
}
