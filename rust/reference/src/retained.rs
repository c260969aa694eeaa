//! 02, W-210: the PDUs that are retained until they are acknowledged; numbers
//! 70 to 75 and 77, and 10 and 11 of an acknowledgement.

use crate::header::{read, Header};
use crate::numbers::{
    ABOVE_256_BYTES, ALREADY_RETAINED, DONE, EARLIER_TIME, HOP_SETTING, NOT_16_RECORDS,
    NOT_RETAINABLE, PORT_SETTING, RECORDS_IN_USE, SENDING_TOO_LONG,
};
use crate::writing::write;

/// So many records a table has.
pub const RECORDS: usize = 16;
/// So many bytes a retained PDU has at most.
pub const MOST_RETAINED: usize = 256;

/// A record in use.
#[derive(Clone, Debug, PartialEq, Eq)]
pub struct Retained {
    /// The PDU.
    pub pdu: Vec<u8>,
    /// When it was last sent, in seconds.
    pub sent_at: u64,
    /// How often it was sent again.
    pub count: u64,
}

/// What a PDU is known by: "same source, destination and ID".
#[derive(Clone, Copy, Debug, PartialEq, Eq)]
pub struct Names {
    /// Source address.
    pub source: u16,
    /// Destination address.
    pub destination: u16,
    /// PDU ID.
    pub pdu_id: u8,
}

/// What was done, where nothing was refused.
#[derive(Clone, Copy, Debug, PartialEq, Eq)]
pub enum Done {
    /// Nothing was to be done.
    Nothing,
    /// The PDU is in the record at this place.
    Retained(usize, Names),
    /// The PDU of the record at this place was sent again, of so many bytes.
    SentAgain(usize, Names, usize),
    /// The PDU of the record at this place is reported failed.
    Failed(usize, Names),
    /// The record at this place was freed: its PDU was acknowledged.
    Freed(usize, Names),
    /// A delivered PDU was answered by an acknowledgement of so many bytes.
    Answered(Names, usize),
}

/// The origination settings that an acknowledgement goes by.
#[derive(Clone, Copy, Debug, PartialEq, Eq)]
pub struct Sending {
    /// Hop, refused above 7.
    pub hop: u64,
    /// Port, refused above 15.
    pub port: u64,
    /// The time stamp request bit.
    pub time_stamp_request: bool,
    /// The path bit.
    pub path: bool,
}

/// The records, a free one as `None`, and the last accepted time.
#[derive(Clone, Debug, PartialEq, Eq)]
pub struct Table {
    records: Vec<Option<Retained>>,
    last: u64,
}

impl Table {
    /// 16 free records, and no time accepted yet.
    pub fn free() -> Table {
        Table::of(vec![None; RECORDS], 0)
    }

    /// These records and the last accepted time. One whose PDU 75 or 72 would
    /// refuse is free.
    pub fn of(records: Vec<Option<Retained>>, last: u64) -> Table {
        let in_use = |record: &Retained| fault(&record.pdu) == DONE;
        let records = records.into_iter().map(|record| record.filter(in_use));
        Table {
            records: records.collect(),
            last,
        }
    }

    /// The records.
    pub fn records(&self) -> &[Option<Retained>] {
        &self.records
    }

    /// The last accepted time.
    pub fn last(&self) -> u64 {
        self.last
    }

    /// Retains a PDU that is sent at this time: 74, 73, 75, 72, 71, 70.
    pub fn retain(&mut self, time: u64, pdu: &[u8]) -> Result<Done, u8> {
        self.check_size()?;
        self.check_time(time)?;
        check(fault(pdu))?;
        let names = names(&read(pdu)?);
        if self.first(|record| has_names(record, names)).is_some() {
            return Err(ALREADY_RETAINED);
        }
        let free = self.records.iter().position(Option::is_none);
        let place = free.ok_or(RECORDS_IN_USE)?;
        self.records[place] = Some(Retained {
            pdu: pdu.to_vec(),
            sent_at: time,
            count: 0,
        });
        self.last = time;
        Ok(Done::Retained(place, names))
    }

    /// One step: 74, 73, 77. It takes the first record last sent at least the
    /// delay ago, and drops it where its count isn't below the setting.
    pub fn step(&mut self, time: u64, delay: u64, most: u64, out: &mut [u8]) -> Result<Done, u8> {
        self.check_size()?;
        self.check_time(time)?;
        let done = match self.first(|record| is_due(record, time, delay)) {
            Some(place) => self.take(place, time, most, out)?,
            None => Done::Nothing,
        };
        self.last = time;
        Ok(done)
    }

    /// A record that is due is dropped or sent again.
    fn take(&mut self, place: usize, time: u64, most: u64, out: &mut [u8]) -> Result<Done, u8> {
        let Some(record) = &mut self.records[place] else {
            return Ok(Done::Nothing);
        };
        let names = names(&read(&record.pdu)?);
        if record.count >= most {
            self.records[place] = None;
            return Ok(Done::Failed(place, names));
        }
        let length = record.pdu.len();
        let to = out.get_mut(..length).ok_or(SENDING_TOO_LONG)?;
        to.copy_from_slice(&record.pdu);
        record.sent_at = time;
        record.count += 1;
        Ok(Done::SentAgain(place, names, length))
    }

    /// A PDU at the start of the received bytes that the node with the own
    /// address answered with this delivery number: 10 and 11, if an
    /// acknowledgement is due; 74; 77. A PDU of protocol 1 is delivered at its
    /// destination alone, and not with an added header.
    pub fn heard(
        &mut self,
        own: u16,
        received: &[u8],
        delivery: u8,
        sending: &Sending,
        out: &mut [u8],
    ) -> Result<Done, u8> {
        let delivered = read(received).ok().filter(|_| delivery == DONE);
        let here = |header: &Header| header.destination == Some(own) && !header.added_header;
        let reliable = delivered.filter(|header| header.protocol == 1 && here(header));
        match reliable {
            Some(header) if header.ack => self.free_first(names(&header)),
            Some(header) => self.answer(names(&header), sending, out),
            None => self.check_size().map(|()| Done::Nothing),
        }
    }

    /// Frees the first record with the acknowledgement's ID and its addresses
    /// exchanged; one that matches nothing is ignored.
    fn free_first(&mut self, heard: Names) -> Result<Done, u8> {
        self.check_size()?;
        let sent = exchanged(heard);
        let Some(place) = self.first(|record| has_names(record, sent)) else {
            return Ok(Done::Nothing);
        };
        self.records[place] = None;
        Ok(Done::Freed(place, sent))
    }

    /// Writes the acknowledgement of a PDU.
    fn answer(&self, heard: Names, sending: &Sending, out: &mut [u8]) -> Result<Done, u8> {
        if sending.hop > 7 {
            return Err(HOP_SETTING);
        }
        if sending.port > 15 {
            return Err(PORT_SETTING);
        }
        self.check_size()?;
        match write(&acknowledgement(heard, sending), &[], out) {
            (DONE, length) => Ok(Done::Answered(heard, length)),
            _ => Err(SENDING_TOO_LONG),
        }
    }

    /// The place of the first record in use that is so.
    fn first(&self, is_so: impl Fn(&Retained) -> bool) -> Option<usize> {
        let mut records = self.records.iter();
        records.position(|record| record.as_ref().is_some_and(&is_so))
    }

    fn check_size(&self) -> Result<(), u8> {
        match self.records.len() {
            RECORDS => Ok(()),
            _ => Err(NOT_16_RECORDS),
        }
    }

    fn check_time(&self, time: u64) -> Result<(), u8> {
        match time < self.last {
            true => Err(EARLIER_TIME),
            false => Ok(()),
        }
    }
}

/// A number as a refusal; 0 is none.
fn check(number: u8) -> Result<(), u8> {
    match number {
        DONE => Ok(()),
        _ => Err(number),
    }
}

/// 75, a PDU that isn't exactly one of protocol 1 with ACK clear and no path
/// address; 72, it is above 256 bytes; else 0.
fn fault(pdu: &[u8]) -> u8 {
    let is_one = |header: &Header| {
        let path = header.path.as_deref().unwrap_or(&[]);
        let whole = header.pdu_length() == pdu.len();
        whole && header.protocol == 1 && !header.ack && path.is_empty()
    };
    if !read(pdu).as_ref().is_ok_and(is_one) {
        NOT_RETAINABLE
    } else if pdu.len() > MOST_RETAINED {
        ABOVE_256_BYTES
    } else {
        DONE
    }
}

/// A reliable PDU has a destination and an ID.
fn names(header: &Header) -> Names {
    Names {
        source: header.source,
        destination: header.destination.unwrap_or(0),
        pdu_id: header.pdu_id.unwrap_or(0),
    }
}

/// "Its ID and its addresses exchanged".
fn exchanged(names: Names) -> Names {
    Names {
        source: names.destination,
        destination: names.source,
        ..names
    }
}

/// Is the PDU of a record known by these names?
fn has_names(record: &Retained, wanted: Names) -> bool {
    read(&record.pdu).is_ok_and(|header| names(&header) == wanted)
}

/// "Last sent at least the retry delay ago."
fn is_due(record: &Retained, time: u64, delay: u64) -> bool {
    let ago = time.checked_sub(record.sent_at);
    ago.is_some_and(|ago| ago >= delay)
}

/// "ACK set, addresses exchanged, same ID, encrypted 0, the rest by the
/// origination settings."
fn acknowledgement(heard: Names, sending: &Sending) -> Header {
    let own = exchanged(heard);
    Header {
        protocol: 1,
        time_stamp_request: sending.time_stamp_request,
        port: sending.port as u8,
        encrypted: false,
        reserved: 0,
        ack: true,
        added_header: false,
        hop_limit: sending.hop as u8,
        payload_length: 0,
        source: own.source,
        destination: Some(own.destination),
        pdu_id: Some(own.pdu_id),
        path: sending.path.then(Vec::new),
    }
}
