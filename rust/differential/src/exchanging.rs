//! Exchanges with a separate decoder: read, written, and each from the other;
//! walks over elements.

use crate::output::Output;
use crate::same::{length_or_number, Input};
use crate::Compared;
use differential::written;
use generator::{exchange, exchanged_pdu, levels_down, room, sent_run, short_exchange, Random};
use mant::raw::{self, EXCHANGE_LIMIT};
use reference::{element_at, read_exchange, write_exchange, Exchange};

/// Compares reading on bytes of every kind, at times on every cut of an
/// exchange, at every level.
pub fn compare_reading(random: &mut Random) -> Compared {
    if random.one_in(12) {
        return compare_cuts(random);
    }
    let bytes = exchange(random);
    compare_read(&bytes)?;
    match read_exchange(&bytes) {
        Ok(parts) => compare_written_again(&bytes, &parts),
        Err(_) => Ok(()),
    }
}

/// An exchange cut at every byte, the rest of it behind the cut, and so cut as
/// a run of a level of its own.
fn compare_cuts(random: &mut Random) -> Compared {
    let bytes = short_exchange(random);
    for length in 0..=bytes.len() {
        let cut = &bytes[..length];
        compare_read(cut)?;
        let levels = random.between(1, 5);
        compare_read(&levels_down(random, cut, levels))?;
    }
    Ok(())
}

/// Number, places and lengths, and the parts that the wrapper shows.
fn compare_read(bytes: &[u8]) -> Compared {
    let input = Input {
        bytes,
        rest: &"an exchange to be read",
    };
    let shown = read_exchange(bytes);
    input.same(
        "exchange",
        raw::read_exchange(bytes),
        differential::exchange(&shown),
    )?;
    let wrapped = mant::read_exchange(bytes).map_err(mant::Refusal::number);
    let wanted = shown.map(|parts| mant::Exchange {
        header: &bytes[parts.header],
        payload: &bytes[parts.payload],
    });
    input.same("wrapped exchange", wrapped, wanted)
}

/// What was read is written as the one encoding of its PDU, and that is read
/// back to the same parts and written to the same bytes.
fn compare_written_again(bytes: &[u8], parts: &Exchange) -> Compared {
    let input = Input {
        bytes,
        rest: &"an exchange to be written again",
    };
    let parts = (&bytes[parts.header.clone()], &bytes[parts.payload.clone()]);
    let pdu = [parts.0, parts.1].concat();
    let mut library = vec![0; EXCHANGE_LIMIT];
    let mut reference = library.clone();
    let answered = raw::write_exchange(&pdu, &mut library);
    let wanted = written(write_exchange(&pdu, &mut reference));
    input.same("written again", answered, wanted)?;
    input.same_bytes("bytes written again", &library, &reference)?;
    let again = &library[..answered.length];
    compare_read(again)?;
    let back = mant::read_exchange(again).map_err(mant::Refusal::number);
    let back = back.map(|exchange| (exchange.header, exchange.payload));
    input.same("read back", back, Ok(parts))
}

/// Compares writing with rooms about the exchange's length.
pub fn compare_writing(random: &mut Random) -> Compared {
    let bytes = exchanged_pdu(random);
    let (_, length) = write_exchange(&bytes, &mut [0; EXCHANGE_LIMIT]);
    let room = room(random, length);
    let input = Input {
        bytes: &bytes,
        rest: &format!("room {room}"),
    };
    let mut library = Output::of(random, room);
    let mut reference = library.clone();
    let mut wrapper = library.clone();
    let answered = raw::write_exchange(&bytes, library.room());
    let wanted = write_exchange(&bytes, reference.room());
    input.same("exchange written", answered, written(wanted))?;
    input.same_bytes("output", library.all(), reference.all())?;
    let wrapped = mant::write_exchange(&bytes, wrapper.room()).map_err(mant::Refusal::number);
    input.same("wrapped", wrapped, length_or_number(wanted))?;
    input.same_bytes("wrapped output", wrapper.all(), reference.all())?;
    match answered.number {
        0 => compare_read(&library.room()[..answered.length]),
        _ => Ok(()),
    }
}

/// Compares the elements of a run from end to end, as the library and as the
/// wrapper show them, and what is shown at any place.
pub fn compare_walk(random: &mut Random) -> Compared {
    let run = sent_run(random);
    let anywhere = match random.below(4) {
        0 => usize::MAX - random.below(3),
        _ => random.between(0, run.len() + 2),
    };
    let input = Input {
        bytes: &run,
        rest: &format!("place {anywhere}"),
    };
    let shown = |place| differential::element(&element_at(&run, place));
    input.same("element", raw::element_at(&run, anywhere), shown(anywhere))?;
    let mut place = 0;
    let mut walk = mant::elements(&run).map(|element| element.map_err(mant::Refusal::number));
    while place < run.len() {
        input.same("element", raw::element_at(&run, place), shown(place))?;
        let wanted = element_at(&run, place).map(|element| mant::Element {
            type_number: element.type_number as u16,
            value: &run[element.value.clone()],
            bytes: &run[place..element.value.end],
        });
        place = element_at(&run, place).map_or(run.len(), |element| element.value.end);
        input.same("wrapped element", walk.next(), Some(wanted))?;
    }
    input.same("wrapped end", walk.next(), None)
}
