//! Reliable messages (02, W-210).

use crate::raw::{self, Outcome, Retained, RECORDS, RETAINED_LIMIT};
use crate::{Answer, Lists, Names, Node, Refusal, Sending};

/// What was done with a table of retained PDUs. A place counts from 0.
#[derive(Clone, Copy, Debug, PartialEq, Eq)]
pub enum Deed {
    /// Nothing.
    Nothing,
    /// The PDU is in the record at this place.
    Retained(usize, Names),
    /// The PDU of the record at this place is in the output, to be sent, and
    /// has so many bytes.
    SentAgain(usize, Names, usize),
    /// The record at this place was dropped: its PDU was not acknowledged.
    Failed(usize, Names),
    /// The record at this place was freed: its PDU was acknowledged.
    Freed(usize, Names),
    /// The acknowledgement of the received PDU, known by these names, is in
    /// the output, to be sent, and has so many bytes.
    Acknowledged(Names, usize),
}

/// What a node does with one PDU, and what was done with its table.
#[derive(Clone, Debug, PartialEq, Eq)]
pub struct HeardReliably {
    /// The node's answer, whatever the table holds.
    pub answer: Answer,
    /// What was done: the PDU freed a record, or is acknowledged, or neither.
    pub deed: Result<Deed, Refusal>,
}

/// The reliable PDUs that wait for their acknowledgement, at most 16, and the
/// last accepted time, in seconds. It begins empty. If the clock was set back
/// (73), go on with [`Reliable::from_records`]: the same records with `sent_at`
/// set to the time now, and 0 for the last time.
#[derive(Clone, Debug, PartialEq, Eq)]
pub struct Reliable {
    records: [Retained; RECORDS],
    last: u64,
}

impl Reliable {
    /// So many PDUs are retained at most.
    pub const RECORDS: usize = RECORDS;
    /// So many bytes each of them has at most.
    pub const LIMIT: usize = RETAINED_LIMIT;

    /// 16 free records, and no time accepted yet.
    pub const fn new() -> Reliable {
        Reliable::from_records([Retained::FREE; RECORDS], 0)
    }

    /// The table in these records, which `include/mant.h` describes, and the
    /// last accepted time. Any records are a table.
    pub const fn from_records(records: [Retained; RECORDS], last: u64) -> Reliable {
        Reliable { records, last }
    }

    /// The records, to be kept elsewhere.
    pub const fn records(&self) -> &[Retained; RECORDS] {
        &self.records
    }

    /// The last accepted time.
    pub const fn last(&self) -> u64 {
        self.last
    }

    /// Retains a PDU that is sent at this time; nothing may follow it in the
    /// bytes. Refusals: 73, 75, 72, 71, 70. Send it only once it is retained.
    /// Give each command the next ID, over a restart too: a used ID looks like
    /// a copy.
    pub fn retain(&mut self, time: u64, pdu: &[u8]) -> Result<Deed, Refusal> {
        let outcome = raw::retain(&mut self.records, self.last, time, pdu);
        self.after(outcome)
    }

    /// One step over the first PDU that was last sent `delay` or more before
    /// this time. If it was sent again `tries` times or more, it is dropped as
    /// failed. Otherwise it is written to the output. Step while something is
    /// done. Refusals: 73, 77.
    ///
    /// ```
    /// use mant::{originate, Deed, Fresh, Reliable};
    ///
    /// let command = Fresh { source: 1000, destination: Some(1600), reliable: true, ..Fresh::default() };
    /// let (mut sent, mut table) = ([0; Reliable::LIMIT], Reliable::new());
    /// let length = originate(&command, b"", &mut sent)?;
    /// table.retain(100, &sent[..length])?;
    /// assert_eq!(table.retry(129, 30, 2, &mut sent)?, Deed::Nothing);
    /// assert!(matches!(table.retry(130, 30, 2, &mut sent)?, Deed::SentAgain(0, _, 9)));
    /// # Ok::<(), mant::Refusal>(())
    /// ```
    pub fn retry(
        &mut self,
        time: u64,
        delay: u64,
        tries: u64,
        output: &mut [u8],
    ) -> Result<Deed, Refusal> {
        let times = (self.last, time);
        let outcome = raw::retry(&mut self.records, times, (delay, tries), output);
        self.after(outcome)
    }

    /// [`hear`](crate::hear), and what the PDU does to the table. A reliable
    /// PDU that the node delivers frees a record, if ACK is set. Otherwise its
    /// acknowledgement is written to the output, 9 bytes or with a path 10.
    /// Such a PDU is not repeated, so the output has one PDU at most. Refusals:
    /// 10 and 11 if an acknowledgement is due, 77.
    ///
    /// ```
    /// use mant::{Deed, Lists, Node, Reliable, Sending};
    ///
    /// let command = [0x09, 0, 0x10, 0, 0x03, 0xE8, 0x06, 0x40, 7]; // 1000 to 1600, ID 7
    /// let (mut base, mut gate, mut reply) = (Reliable::new(), Reliable::new(), [0; 9]);
    /// base.retain(100, &command)?;
    /// let (lists, sending) = (Lists::none(), Sending { hop_limit: 1, ..Sending::default() });
    /// let heard = gate.hear(&Node::new(1600), &lists, &command, &sending, &mut reply);
    /// assert!(matches!(heard.deed?, Deed::Acknowledged(names, 9) if names.pdu_id == 7));
    /// let heard = base.hear(&Node::new(1000), &lists, &reply, &sending, &mut []);
    /// assert!(matches!(heard.deed?, Deed::Freed(0, names) if names.pdu_id == 7));
    /// # Ok::<(), mant::Refusal>(())
    /// ```
    pub fn hear(
        &mut self,
        node: &Node,
        lists: &Lists,
        received: &[u8],
        sending: &Sending,
        output: &mut [u8],
    ) -> HeardReliably {
        let (node, last) = ((node.raw(), lists.words()), self.last);
        let heard = raw::hear_reliably(node, &mut self.records, last, received, *sending, output);
        HeardReliably {
            answer: Answer::of(heard.answer),
            deed: self.after(heard.outcome),
        }
    }

    /// The second half of [`Reliable::hear`], for a PDU that another call heard
    /// at node `own` with this answer. A PDU for another address or with an
    /// added header does nothing, whatever the answer. Pass only the answer for
    /// these bytes.
    pub fn acknowledge(
        &mut self,
        own: u16,
        received: &[u8],
        answer: &Answer,
        sending: &Sending,
        output: &mut [u8],
    ) -> Result<Deed, Refusal> {
        let (last, heard) = (self.last, (received, answer.raw()));
        let outcome = raw::acknowledge(&mut self.records, last, own, heard, *sending, output);
        self.after(outcome)
    }

    /// Keeps the time, and says what was done.
    fn after(&mut self, outcome: Outcome) -> Result<Deed, Refusal> {
        self.last = outcome.last;
        Refusal::check(outcome.number).map(|()| Deed::of(outcome))
    }
}

impl Default for Reliable {
    fn default() -> Reliable {
        Reliable::new()
    }
}

impl Deed {
    fn of(outcome: Outcome) -> Deed {
        let Outcome {
            place,
            names,
            length,
            ..
        } = outcome;
        match outcome.deed {
            raw::DEED_RETAINED => Deed::Retained(place, names),
            raw::DEED_SENT_AGAIN => Deed::SentAgain(place, names, length),
            raw::DEED_FAILED => Deed::Failed(place, names),
            raw::DEED_FREED => Deed::Freed(place, names),
            raw::DEED_ACKNOWLEDGED => Deed::Acknowledged(names, length),
            _ => Deed::Nothing,
        }
    }
}

impl Retained {
    /// A record of all zeros.
    pub const FREE: Retained = Retained {
        pdu: [0; RETAINED_LIMIT],
        length: 0,
        sent_at: 0,
        count: 0,
    };
}
