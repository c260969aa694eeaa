//! 01, "One PDU at one node"; numbers 30 to 41. 02, W-203; number 42. 02,
//! W-209: the node's edition. 02, W-211: the lists chosen.

use crate::edition::{read_under, Edition, Shown, EDITION_1_2};
use crate::header::{Header, MOST_PATH};
use crate::lists::{holds, list_fault, Choice, Lists};
use crate::numbers::{
    ADDED_HEADER, DESTINATION_PASS, DESTINATION_REJECT, DONE, ECHO, FOR_ANOTHER, HOP_LIMIT_0,
    IS_DESTINATION, OWN_SOURCE, PATH_FULL, REPEATING_OFF, REPEAT_SHORT, SOURCE_PASS, SOURCE_REJECT,
};
use crate::writing::write;

/// A node's settings, but for what the lists hold.
#[derive(Clone, Copy, Debug, PartialEq, Eq)]
pub struct Settings {
    /// The number of its edition.
    pub edition: u64,
    /// Own address.
    pub own_address: u16,
    /// Echo on.
    pub echo: bool,
    /// Repeating on.
    pub repeating: bool,
    /// Which source pass list is on.
    pub source_pass: Choice,
    /// Which source reject list is on.
    pub source_reject: Choice,
    /// Which destination pass list is on.
    pub destination_pass: Choice,
    /// Which destination reject list is on.
    pub destination_reject: Choice,
}

impl Settings {
    /// 02, W-211: "change over by one setting", for each kind the same.
    pub fn changed_over(self, choice: Choice) -> Settings {
        Settings {
            source_pass: choice,
            source_reject: choice,
            destination_pass: choice,
            destination_reject: choice,
            ..self
        }
    }
}

impl Default for Settings {
    /// Edition 1.2 and all else off.
    fn default() -> Settings {
        Settings {
            edition: EDITION_1_2,
            own_address: 0,
            echo: false,
            repeating: false,
            source_pass: Choice::None,
            source_reject: Choice::None,
            destination_pass: Choice::None,
            destination_reject: Choice::None,
        }
    }
}

/// What a node answers to one PDU.
#[derive(Clone, Copy, Debug, PartialEq, Eq)]
pub struct Answer {
    /// The number for delivery.
    pub delivery: u8,
    /// The number for repeating.
    pub repeat: u8,
    /// The delivered payload as a part of the received bytes: its place and
    /// its length, both 0 where nothing is delivered.
    pub delivered: (usize, usize),
    /// The length of the repeated PDU in the output, 0 where there is none.
    pub repeated_length: usize,
    /// Where the next PDU begins in the received bytes, 0 where this one
    /// can't be read, a list is at fault or the edition is unknown.
    pub taken: usize,
    /// 02, W-205: the last sender, "whenever the PDU was read"; `None` where it
    /// is unknown.
    pub last_sender: Option<u16>,
}

impl Answer {
    /// A number "given twice" for bytes that were not read.
    fn unread(number: u8) -> Answer {
        Answer::twice(number, 0, None)
    }

    /// A number "given twice".
    fn twice(number: u8, taken: usize, last_sender: Option<u16>) -> Answer {
        Answer {
            delivery: number,
            repeat: number,
            delivered: (0, 0),
            repeated_length: 0,
            taken,
            last_sender,
        }
    }
}

/// One PDU at one node, in the order of 01; 17 first. The output changes only
/// where the repeat number is 0, and only as far as the repeated PDU goes.
pub fn hear(settings: &Settings, lists: &Lists, received: &[u8], out: &mut [u8]) -> Answer {
    if let Err(number) = Edition::of(settings.edition) {
        return Answer::unread(number);
    }
    if let Some(fault) = list_fault(lists) {
        return Answer::unread(fault.number);
    }
    let header = match read_under(settings.edition, received).map(Shown::header) {
        Ok(header) => header,
        Err(number) => return Answer::unread(number),
    };
    let (taken, last_sender) = (header.pdu_length(), header.last_sender());
    if is_echo(settings, &header) {
        return Answer::twice(ECHO, taken, last_sender);
    }
    if is_own(settings, &header) {
        return Answer::twice(OWN_SOURCE, taken, last_sender);
    }
    let refusal = refused_by_lists(settings, lists, &header);
    if refusal != DONE {
        return Answer::twice(refusal, taken, last_sender);
    }
    deliver_and_repeat(settings, &header, received, out)
}

/// Step 3: echo on, path bit set, own address anywhere in the path.
fn is_echo(settings: &Settings, header: &Header) -> bool {
    let in_path = |path: &Vec<u16>| path.contains(&settings.own_address);
    settings.echo && header.path.as_ref().is_some_and(in_path)
}

/// 02, W-203: echo on and the own address the source, with a path or without.
fn is_own(settings: &Settings, header: &Header) -> bool {
    settings.echo && header.source == settings.own_address
}

/// Step 4: the PDU's source, never the node's own address, in the source
/// lists that are chosen; then its destination, if it has one, in the
/// destination lists.
fn refused_by_lists(settings: &Settings, lists: &Lists, header: &Header) -> u8 {
    let pass = lists.source_pass.chosen(settings.source_pass);
    if pass.is_some_and(|list| !holds(list, header.source)) {
        return SOURCE_PASS;
    }
    let reject = lists.source_reject.chosen(settings.source_reject);
    if reject.is_some_and(|list| holds(list, header.source)) {
        return SOURCE_REJECT;
    }
    let Some(destination) = header.destination else {
        return DONE;
    };
    let pass = lists.destination_pass.chosen(settings.destination_pass);
    if pass.is_some_and(|list| !holds(list, destination)) {
        return DESTINATION_PASS;
    }
    let reject = lists.destination_reject.chosen(settings.destination_reject);
    if reject.is_some_and(|list| holds(list, destination)) {
        return DESTINATION_REJECT;
    }
    DONE
}

/// Steps 5 and 6.
fn deliver_and_repeat(
    settings: &Settings,
    header: &Header,
    received: &[u8],
    out: &mut [u8],
) -> Answer {
    let (taken, last_sender) = (header.pdu_length(), header.last_sender());
    let delivery = delivery_number(settings, header);
    let repeat = repeat_number(settings, header);
    let mut repeated_length = 0;
    if repeat == DONE {
        let repeated = repeated_header(settings, header);
        let (number, length) = write(&repeated, header.payload(received), out);
        if number != DONE {
            return Answer::twice(REPEAT_SHORT, taken, last_sender);
        }
        repeated_length = length;
    }
    let delivered = if delivery == DONE {
        (header.length(), header.payload_length)
    } else {
        (0, 0)
    };
    Answer {
        delivery,
        repeat,
        delivered,
        repeated_length,
        taken,
        last_sender,
    }
}

/// Step 5. A PDU without a destination is for everyone.
fn delivery_number(settings: &Settings, header: &Header) -> u8 {
    let for_another = |destination| destination != settings.own_address;
    if header.destination.is_some_and(for_another) {
        FOR_ANOTHER
    } else if header.added_header {
        ADDED_HEADER
    } else {
        DONE
    }
}

/// Step 6, but for the room in the output.
fn repeat_number(settings: &Settings, header: &Header) -> u8 {
    if header.destination == Some(settings.own_address) {
        IS_DESTINATION
    } else if !settings.repeating {
        REPEATING_OFF
    } else if header.hop_limit == 0 {
        HOP_LIMIT_0
    } else if path_count(header) == MOST_PATH {
        PATH_FULL
    } else {
        DONE
    }
}

/// The path count, 0 without a path.
fn path_count(header: &Header) -> usize {
    header.path.as_ref().map_or(0, Vec::len)
}

/// "The received one, with hop limits 1 to 6 lowered by one and 7 kept. With
/// the path bit, the own address goes in after the last path entry."
fn repeated_header(settings: &Settings, header: &Header) -> Header {
    let mut repeated = header.clone();
    if (1..=6).contains(&header.hop_limit) {
        repeated.hop_limit -= 1;
    }
    if let Some(path) = &mut repeated.path {
        path.push(settings.own_address);
    }
    repeated
}
