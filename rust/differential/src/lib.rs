//! What the reference model takes and returns, in the structs of the library's
//! C boundary.

use mant::raw;
use reference::{
    Answer, Bits, Choice, Done, Element, Exchange, ListFault, Names, Origination, Queue, Sending,
    Settings, Shown, Taken,
};

/// What is shown of a header as the library gives it; what is not there is 0.
pub fn header(read: &Result<Shown, u8>) -> raw::Header {
    let (header, bits) = match read {
        Ok(shown) => (&shown.others, shown.bits),
        Err(number) => {
            return raw::Header {
                number: *number,
                ..raw::Header::default()
            }
        }
    };
    let (flag, reserved) = match bits {
        Bits::Reserved(reserved) => (None, reserved),
        Bits::Flagged(encrypted, reserved) => (Some(encrypted), reserved),
    };
    raw::Header {
        number: 0,
        protocol: header.protocol,
        time_stamp_request: header.time_stamp_request,
        path_bit: header.path.is_some(),
        has_destination: header.destination.is_some(),
        port: header.port,
        has_encrypted: flag.is_some(),
        encrypted: flag.unwrap_or(false),
        reserved,
        ack: header.ack,
        added_header: header.added_header,
        hop_limit: header.hop_limit,
        payload_length: header.payload_length as u16,
        source: header.source,
        destination: header.destination.unwrap_or(0),
        pdu_id: header.pdu_id.unwrap_or(0),
        path_count: header.path.as_ref().map_or(0, |path| path.len() as u8),
        has_last_sender: header.last_sender().is_some(),
        last_sender: header.last_sender().unwrap_or(0),
        header_length: header.length(),
        pdu_length: header.pdu_length(),
    }
}

/// The settings of origination for the library. A destination that is not
/// asked for does not count, so it may be anything.
pub fn fresh(settings: &Origination, not_asked: u16) -> raw::Fresh {
    raw::Fresh {
        edition: settings.edition,
        source: settings.source,
        has_destination: settings.destination.is_some(),
        destination: settings.destination.unwrap_or(not_asked),
        hop_limit: settings.hop,
        port: settings.port,
        time_stamp_request: settings.time_stamp_request,
        with_path: settings.path,
        reliable: settings.reliable,
        pdu_id: settings.pdu_id,
        encrypted: settings.encrypted,
    }
}

/// A node's settings, with this number for a kind that has no list chosen:
/// every number but 1 and 2 chooses none.
pub fn node(settings: &Settings, none: u8) -> raw::Node {
    let number = |choice| match choice {
        Choice::None => none,
        Choice::First => raw::FIRST_LIST,
        Choice::Second => raw::SECOND_LIST,
    };
    raw::Node {
        edition: settings.edition,
        own: settings.own_address,
        echo: settings.echo,
        repeating: settings.repeating,
        source_pass: number(settings.source_pass),
        source_reject: number(settings.source_reject),
        destination_pass: number(settings.destination_pass),
        destination_reject: number(settings.destination_reject),
    }
}

/// A fault of lists as the library gives it.
pub fn list_fault(fault: Option<ListFault>) -> raw::ListFault {
    raw::ListFault {
        number: fault.map_or(0, |fault| fault.number),
        list: fault.map_or(raw::LIST_VALUES, |fault| fault.list as u8),
    }
}

/// A node's answer as the library gives it.
pub fn answer(answer: &Answer) -> raw::Answer {
    raw::Answer {
        delivery: answer.delivery,
        repeat: answer.repeat,
        has_last_sender: answer.last_sender.is_some(),
        last_sender: answer.last_sender.unwrap_or(0),
        delivered_place: answer.delivered.0,
        delivered_length: answer.delivered.1,
        repeated_length: answer.repeated_length,
        taken: answer.taken,
    }
}

/// A number and a length as the library gives them.
pub fn written((number, length): (u8, usize)) -> raw::Written {
    raw::Written { number, length }
}

/// A message number as the library gives it; 0 after a refusal.
pub fn numbered(number: Result<u32, u8>) -> raw::Numbered {
    raw::Numbered {
        number: number.err().unwrap_or(0),
        message: number.unwrap_or(0),
    }
}

/// The reference's station as the library gives it.
pub fn station(station: reference::Station) -> raw::Station {
    raw::Station {
        address: station.address,
        reads: station.reads,
        echoes: station.echoes,
        has_path: station.shortest_path.is_some(),
        shortest_path: station.shortest_path.unwrap_or(0),
    }
}

/// What was taken as the library gives it.
pub fn batch(taken: Taken) -> raw::Batch {
    raw::Batch {
        number: taken.number,
        pdus: taken.pdus,
        bytes: taken.bytes,
    }
}

/// The level of the PDUs that are held.
pub fn level(queue: &Queue) -> raw::Level {
    raw::Level {
        pdus: queue.held().len(),
        bytes: queue.bytes(),
    }
}

/// An element as the library shows it; all 0 after a refusal.
pub fn element(shown: &Result<Element, u8>) -> raw::Element {
    match shown {
        Ok(Element { type_number, value }) => raw::Element {
            number: 0,
            type_number: *type_number as u16,
            value_place: value.start,
            value_length: value.len(),
            end: value.end,
        },
        Err(number) => raw::Element {
            number: *number,
            ..raw::Element::default()
        },
    }
}

/// An exchange as the library shows it; all 0 after a refusal.
pub fn exchange(shown: &Result<Exchange, u8>) -> raw::Exchange {
    match shown {
        Ok(Exchange { header, payload }) => raw::Exchange {
            number: 0,
            header_place: header.start,
            header_length: header.len(),
            payload_place: payload.start,
            payload_length: payload.len(),
        },
        Err(number) => raw::Exchange {
            number: *number,
            ..raw::Exchange::default()
        },
    }
}

/// What was done as the library answers it.
pub fn outcome(done: Result<Done, u8>, last: u64) -> raw::Outcome {
    let none = raw::Outcome {
        last,
        ..raw::Outcome::default()
    };
    let (deed, place, names, length) = match done {
        Err(number) => return raw::Outcome { number, ..none },
        Ok(Done::Nothing) => return none,
        Ok(Done::Retained(place, names)) => (raw::DEED_RETAINED, place, names, 0),
        Ok(Done::SentAgain(place, names, length)) => (raw::DEED_SENT_AGAIN, place, names, length),
        Ok(Done::Failed(place, names)) => (raw::DEED_FAILED, place, names, 0),
        Ok(Done::Freed(place, names)) => (raw::DEED_FREED, place, names, 0),
        Ok(Done::Answered(names, length)) => (raw::DEED_ACKNOWLEDGED, 0, names, length),
    };
    raw::Outcome {
        deed,
        place,
        names: names_of(names),
        length,
        ..none
    }
}

/// The reference's names as the library gives them.
pub fn names_of(names: Names) -> raw::Names {
    raw::Names {
        source: names.source,
        destination: names.destination,
        pdu_id: names.pdu_id,
    }
}

/// The settings of an acknowledgement for the library.
pub fn sending(sending: &Sending) -> raw::Sending {
    raw::Sending {
        hop_limit: sending.hop,
        port: sending.port,
        time_stamp_request: sending.time_stamp_request,
        with_path: sending.path,
    }
}
