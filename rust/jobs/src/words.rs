//! What stands in the lines of `lines.rs`: bytes, lists, headers, nodes and
//! answers as words.

use generator::EightLists;
use reference::{Answer, Bits, Choice, Settings, Shown};

/// Bytes in hex.
pub fn hex(bytes: &[u8]) -> String {
    match bytes {
        [] => String::from("."),
        _ => bytes.iter().map(|byte| format!("{byte:02x}")).collect(),
    }
}

/// Values with commas between them.
pub fn list(values: &[u16]) -> String {
    let words: Vec<String> = values.iter().map(u16::to_string).collect();
    match values {
        [] => String::from("."),
        _ => words.join(","),
    }
}

/// Eight lists.
pub fn eight(lists: &EightLists) -> String {
    let words: Vec<String> = lists.0.iter().map(|values| list(values)).collect();
    words.join(";")
}

/// What is there, or `-`.
pub fn some<T: ToString>(value: Option<T>) -> String {
    value.map_or(String::from("-"), |value| value.to_string())
}

/// A flag as 0 or 1.
pub fn flag(flag: bool) -> u8 {
    u8::from(flag)
}

/// A number, and with 0 so many bytes of an output.
pub fn written((number, length): (u8, usize), output: &[u8]) -> String {
    match number {
        0 => format!("0 {}", hex(&output[..length])),
        _ => number.to_string(),
    }
}

/// The fields that are shown, in the order of their bits.
pub fn header(shown: &Shown, bytes: &[u8]) -> String {
    let header = &shown.others;
    let (encrypted, reserved) = match shown.bits {
        Bits::Reserved(reserved) => (None, reserved),
        Bits::Flagged(encrypted, reserved) => (Some(flag(encrypted)), reserved),
    };
    [
        header.protocol.to_string(),
        flag(header.time_stamp_request).to_string(),
        header.port.to_string(),
        some(encrypted),
        reserved.to_string(),
        flag(header.ack).to_string(),
        flag(header.added_header).to_string(),
        header.hop_limit.to_string(),
        header.source.to_string(),
        some(header.destination),
        some(header.pdu_id),
        some(header.path.as_deref().map(list)),
        some(header.last_sender()),
        hex(header.payload(bytes)),
        header.length().to_string(),
        header.pdu_length().to_string(),
    ]
    .join(" ")
}

/// A node's settings.
pub fn node(settings: &Settings) -> String {
    let choices = [
        settings.source_pass,
        settings.source_reject,
        settings.destination_pass,
        settings.destination_reject,
    ];
    format!(
        "{} {} {} {} {}",
        settings.own_address,
        settings.edition,
        flag(settings.echo),
        flag(settings.repeating),
        choices.map(choice).join(" ")
    )
}

/// The number of a choice.
pub fn choice(choice: Choice) -> &'static str {
    match choice {
        Choice::None => "0",
        Choice::First => "1",
        Choice::Second => "2",
    }
}

/// A node's answer for the PDU at the start of the bytes.
pub fn answer(answer: &Answer, bytes: &[u8], repeated: &[u8]) -> String {
    let (place, length) = answer.delivered;
    let delivered = (answer.delivery == 0).then(|| hex(&bytes[place..place + length]));
    let repeated = (answer.repeat == 0).then(|| hex(repeated));
    format!(
        "{} {} {} {} {} {}",
        answer.delivery,
        answer.repeat,
        some(delivered),
        some(repeated),
        some(answer.last_sender),
        answer.taken
    )
}
