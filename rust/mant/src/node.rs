//! What a node is set to, and what it answers for one PDU or over a batch.

use crate::raw::{self, EDITION_1_2};
use crate::{Choice, Cursor, Lists, Refusal};
use std::ops::Range;

/// The settings of a node. Begin with [`Node::new`]. A pass list that is chosen
/// and empty passes nothing.
#[derive(Clone, Copy, Debug, PartialEq, Eq)]
pub struct Node {
    /// [`EDITION_1_1`](crate::EDITION_1_1) or [`EDITION_1_2`]; any other number
    /// is refused with 17.
    pub edition: u64,
    /// Its own address.
    pub own: u16,
    /// Drop a PDU whose path holds the own address, or whose source it is.
    pub echo: bool,
    /// Repeat what may be repeated.
    pub repeating: bool,
    /// Of the sources that pass.
    pub source_pass: Choice,
    /// Of the sources that are rejected.
    pub source_reject: Choice,
    /// Of the destinations that pass.
    pub destination_pass: Choice,
    /// Of the destinations that are rejected.
    pub destination_reject: Choice,
}

impl Node {
    /// A node with this address: edition 1.2, echo and repeating on, no list
    /// chosen.
    pub const fn new(own: u16) -> Node {
        Node {
            edition: EDITION_1_2,
            own,
            echo: true,
            repeating: true,
            source_pass: Choice::None,
            source_reject: Choice::None,
            destination_pass: Choice::None,
            destination_reject: Choice::None,
        }
    }

    /// Returns the node with this choice for all four kinds of list, as when
    /// the season changes. A kind that was off is set too.
    ///
    /// ```
    /// use mant::{Choice, Node};
    ///
    /// let node = Node::new(2000).change_over(Choice::Second);
    /// assert_eq!((node.own, node.source_pass), (2000, Choice::Second));
    /// ```
    pub fn change_over(self, choice: Choice) -> Node {
        Node::of(raw::change_over(self.raw(), u64::from(choice.number())))
    }

    fn of(node: raw::Node) -> Node {
        Node {
            edition: node.edition,
            own: node.own,
            echo: node.echo,
            repeating: node.repeating,
            source_pass: Choice::of(node.source_pass),
            source_reject: Choice::of(node.source_reject),
            destination_pass: Choice::of(node.destination_pass),
            destination_reject: Choice::of(node.destination_reject),
        }
    }

    /// The library's own.
    pub(crate) fn raw(&self) -> raw::Node {
        raw::Node {
            edition: self.edition,
            own: self.own,
            echo: self.echo,
            repeating: self.repeating,
            source_pass: self.source_pass.number(),
            source_reject: self.source_reject.number(),
            destination_pass: self.destination_pass.number(),
            destination_reject: self.destination_reject.number(),
        }
    }
}

/// What a node does with one PDU.
#[derive(Clone, Debug, PartialEq, Eq)]
pub struct Answer {
    /// Where the delivered payload lies, counted from the PDU's first byte.
    pub delivery: Result<Range<usize>, Refusal>,
    /// How many bytes of the repeated PDU were written to the output.
    pub repeat: Result<usize, Refusal>,
    /// Where the next PDU begins, counted from this one's first byte; 0 if none
    /// was read: with 17 and 1 to 6.
    pub taken: usize,
    /// Who sent the PDU last: the last path address, or the source if the path
    /// is empty. None if that is unknown.
    pub last_sender: Option<u16>,
}

impl Answer {
    pub(crate) fn of(answer: raw::Answer) -> Answer {
        let place = answer.delivered_place;
        Answer {
            delivery: Refusal::check(answer.delivery)
                .map(|()| place..place + answer.delivered_length),
            repeat: Refusal::check(answer.repeat).map(|()| answer.repeated_length),
            taken: answer.taken,
            last_sender: answer.has_last_sender.then_some(answer.last_sender),
        }
    }

    /// The library's own, as `of` was given it.
    pub(crate) fn raw(&self) -> raw::Answer {
        let number = |refusal: &Refusal| refusal.number();
        let delivered = self.delivery.clone().unwrap_or(0..0);
        raw::Answer {
            delivery: self.delivery.as_ref().map_or_else(number, |_| 0),
            repeat: self.repeat.as_ref().map_or_else(number, |_| 0),
            has_last_sender: self.last_sender.is_some(),
            last_sender: self.last_sender.unwrap_or(0),
            delivered_place: delivered.start,
            delivered_length: delivered.len(),
            repeated_length: self.repeat.unwrap_or(0),
            taken: self.taken,
        }
    }
}

/// What one step of a walk over a batch finds.
#[derive(Clone, Debug, PartialEq, Eq)]
pub enum Step {
    /// The answer for the PDU at the cursor, and the cursor of the next.
    Answered(Answer, Cursor),
    /// No more PDU.
    Ended,
    /// The batch is above 16,384 bytes, 54, and every step says so.
    Refused(Refusal),
}

/// Decides what a node does with the PDU at the start of the received bytes.
///
/// Delivery and repeat are refused alike with the first of these that applies:
/// 17, 1 to 6, 30, 42, 31 to 34, 40. With echo off there is no 30 and no 42.
/// The lists chosen give 31 to 34, and 33 and 34 only to a PDU with a
/// destination. 40: the PDU would be repeated, and the output is too short.
/// Otherwise delivery alone is refused with 39, then 35, and repeat alone with
/// 41, then 36 to 38.
///
/// The output is written only if repeat is `Ok`. It gets the PDU with the hop
/// limit one lower, but 7 stays 7, and with a path the own address at its end,
/// 2 bytes more.
pub fn hear(node: &Node, lists: &Lists, received: &[u8], output: &mut [u8]) -> Answer {
    Answer::of(raw::hear(node.raw(), lists.words(), received, output))
}

/// One step over PDUs back to back: what [`hear`] returns and writes for the
/// PDU at the cursor. A walk begins with `Cursor::default()`.
///
/// After 17 and 1 to 6 the next cursor has ended. If the step returned `answer`
/// and `next`, the PDU began at `next.place - answer.taken`, and the ranges of
/// the answer count from there.
///
/// ```
/// use mant::{step, Cursor, Lists, Node, Step};
///
/// let (node, lists) = (Node::new(2000), Lists::none());
/// let batch = [2, 0, 0x10, 1, 3, 0xE8, 0, 0x2A, 2, 0, 0x10, 1, 0x0B, 0xB8, 0, 0x2B];
/// let (mut cursor, mut repeated, mut payloads) = (Cursor::default(), [0; mant::PDU_LIMIT], vec![]);
/// while let Step::Answered(answer, next) = step(&node, &lists, &batch, cursor, &mut repeated) {
///     let pdu = &batch[next.place - answer.taken..];
///     payloads.extend(answer.delivery.map(|range| &pdu[range]));
///     cursor = next;
/// }
/// assert_eq!(payloads, [[0x2A], [0x2B]]);
/// assert_eq!(cursor.place, batch.len());
/// ```
pub fn step(node: &Node, lists: &Lists, batch: &[u8], cursor: Cursor, output: &mut [u8]) -> Step {
    let step = raw::step(node.raw(), lists.words(), batch, cursor, output);
    match step.kind {
        raw::ANSWERED => Step::Answered(Answer::of(step.answer), step.next),
        raw::ENDED => Step::Ended,
        _ => Step::Refused(Refusal::BatchTooLong),
    }
}
