//! What is said where the library's answer is not the reference's, and what
//! the reference takes and answers as the wrapper has it.

use crate::Compared;
use generator::Random;
use mant::raw;
use reference::{Choice, Settings, TwoLists};
use std::fmt::Debug;

/// An input, shown in hex only where something differs.
pub struct Input<'a> {
    /// The bytes received, or the payload, or the batch.
    pub bytes: &'a [u8],
    /// Settings, lists and room.
    pub rest: &'a dyn Debug,
}

impl Input<'_> {
    /// Refuses where the library's answer is not the reference's.
    pub fn same<T: PartialEq + Debug>(&self, what: &str, library: T, reference: T) -> Compared {
        if library == reference {
            return Ok(());
        }
        Err(format!(
            "{what}: library {library:?}, reference {reference:?}; {}",
            self.shown()
        ))
    }

    /// The same for bytes.
    pub fn same_bytes(&self, what: &str, library: &[u8], reference: &[u8]) -> Compared {
        if library == reference {
            return Ok(());
        }
        Err(format!(
            "{what}: library {}, reference {}; {}",
            hex(library),
            hex(reference),
            self.shown()
        ))
    }

    fn shown(&self) -> String {
        format!("input {}, {:X?}", hex(self.bytes), self.rest)
    }
}

/// Bytes in hex, `-` for none.
pub fn hex(bytes: &[u8]) -> String {
    if bytes.is_empty() {
        return String::from("-");
    }
    bytes.iter().map(|byte| format!("{byte:02X}")).collect()
}

/// A node's settings for the library, with any number for a kind that has no
/// list chosen.
pub fn node(random: &mut Random, settings: &Settings) -> raw::Node {
    let mut node = differential::node(settings, raw::NO_LIST);
    for choice in [
        &mut node.source_pass,
        &mut node.source_reject,
        &mut node.destination_pass,
        &mut node.destination_reject,
    ] {
        let any = random.byte().max(3);
        if *choice == raw::NO_LIST {
            *choice = random.pick(&[0, 0, 0, 3, 4, 255, any]);
        }
    }
    node
}

/// The same for the wrapper.
pub fn wrapped_node(settings: &Settings) -> mant::Node {
    let wrapped = |choice| match choice {
        Choice::None => mant::Choice::None,
        Choice::First => mant::Choice::First,
        Choice::Second => mant::Choice::Second,
    };
    mant::Node {
        edition: settings.edition,
        own: settings.own_address,
        echo: settings.echo,
        repeating: settings.repeating,
        source_pass: wrapped(settings.source_pass),
        source_reject: wrapped(settings.source_reject),
        destination_pass: wrapped(settings.destination_pass),
        destination_reject: wrapped(settings.destination_reject),
    }
}

/// What the safe wrapper must make of an answer.
pub fn wrapped(answer: &raw::Answer) -> mant::Answer {
    let of = |number| match number {
        0 => Ok(()),
        _ => Err(mant::Refusal::from_number(number).unwrap_or(mant::Refusal::TooShort)),
    };
    let place = answer.delivered_place;
    mant::Answer {
        delivery: of(answer.delivery).map(|()| place..place + answer.delivered_length),
        repeat: of(answer.repeat).map(|()| answer.repeated_length),
        taken: answer.taken,
        last_sender: answer.has_last_sender.then_some(answer.last_sender),
    }
}

/// The number of the wrapper's answer.
pub fn number(answered: Result<(), mant::Refusal>) -> u8 {
    answered.map_or_else(mant::Refusal::number, |()| 0)
}

/// A length that was written, or the refusal's number.
pub fn length_or_number((number, length): (u8, usize)) -> Result<usize, u8> {
    match number {
        0 => Ok(length),
        number => Err(number),
    }
}

/// The eight lists laid by the wrapper.
pub fn lists(lists: &reference::Lists) -> Result<mant::Lists, mant::ListFault> {
    let two = |TwoLists { first, second }| mant::TwoLists { first, second };
    mant::Lists::lay(&mant::EightLists {
        source_pass: two(lists.source_pass),
        source_reject: two(lists.source_reject),
        destination_pass: two(lists.destination_pass),
        destination_reject: two(lists.destination_reject),
    })
}
