//! The whole repeater of `examples/box.c` in Rust: what is heard is counted,
//! delivered and repeated, a sealed command opened and acknowledged, what is to
//! be sent waits for the slot, and an alarm is sent again until it is
//! acknowledged. Stored frames stand for the modem, and it prints
//! `examples/box.expected`. In `rust/`:
//!
//! ```sh
//! cargo run --offline -p mant --example box
//! ```

mod modem;

use mant::{
    message_number, originate, read, Answer, Bits, Choice, Deed, EightLists, Fresh, Header, Key,
    ListFault, Lists, Names, Node, Queue, Record, Refusal, Reliable, Sending, Stations, TwoLists,
    EDITION_1_2, PAYLOAD_LIMIT, PDU_LIMIT,
};

// What the box is set to.
const OWN: u16 = 2000;
const BASE: u16 = 1600; // whom it alarms
const HOP_LIMIT: u64 = 3; // of what it sends itself
const SLOT: u64 = 10; // seconds from one slot to the next
const SLOT_BYTES: usize = 32; // what the modem sends in a slot
const DELAY: u64 = 20; // seconds until an alarm that is not acknowledged is sent again
const TRIES: u64 = 2; // times that it is sent again
const KEY: Key = Key {
    bytes: *b"keep me secret!!",
};
const SOURCE_REJECT: TwoLists = TwoLists {
    first: &[1300, 1399],
    second: &[],
};

/// The settings, what the box remembers, all of it empty at first, and room for
/// what a call writes. The record and the ID are kept over a restart (`save`).
struct Repeater {
    node: Node,
    lists: Lists,
    sending: Sending,
    stations: Stations,
    queue: Queue,
    alarms: Reliable,
    record: Record,
    /// Of what was opened last the source, PDU ID and message number.
    last_opened: Option<(u16, Option<u8>, u32)>,
    /// The alarms that wait for a slot, a bit each, and the PDU ID that they get.
    raised: u8,
    alarm_id: u8,
    output: [u8; PDU_LIMIT],
    plain: [u8; PAYLOAD_LIMIT],
    slot: [u8; SLOT_BYTES],
}

impl Repeater {
    fn new() -> Result<Repeater, ListFault> {
        Ok(Repeater {
            node: Node {
                source_reject: Choice::First,
                ..Node::new(OWN)
            },
            lists: Lists::lay(&EightLists {
                source_reject: SOURCE_REJECT,
                ..EightLists::default()
            })?,
            sending: Sending {
                hop_limit: HOP_LIMIT,
                with_path: true,
                ..Sending::default()
            },
            stations: Stations::new(),
            queue: Queue::new(),
            alarms: Reliable::new(),
            record: Record::new(),
            last_opened: None,
            raised: 4,
            alarm_id: 1,
            output: [0; PDU_LIMIT],
            plain: [0; PAYLOAD_LIMIT],
            slot: [0; SLOT_BYTES],
        })
    }

    /// A frame has PDUs back to back. What follows one that cannot be read is
    /// lost.
    fn hear_frame(&mut self, mut frame: &[u8]) {
        while !frame.is_empty() {
            match self.hear(frame) {
                0 => return,
                taken => frame = &frame[taken..],
            }
        }
    }

    /// The PDU at the start of the bytes; gives its length, or 0 where it cannot
    /// be read.
    fn hear(&mut self, bytes: &[u8]) -> usize {
        let (node, lists, output) = (&self.node, &self.lists, &mut self.output);
        let heard = self.stations.hear(node, lists, bytes, output);
        let answer = heard.answer;
        done("table of stations", heard.table);
        if let Some(length) = done("repeat", answer.repeat) {
            self.enqueue("repeat", length);
        }
        let delivered = done("delivery", answer.delivery.clone()).is_some();
        if delivered && self.deliver(bytes, &answer) {
            let (own, sending, output) = (self.node.own, &self.sending, &mut self.output);
            let deed = self
                .alarms
                .acknowledge(own, bytes, &answer, sending, output);
            if let Some(Deed::Acknowledged(_, length)) = note(deed) {
                self.enqueue("acknowledgement", length);
            }
        }
        answer.taken
    }

    /// Puts what is in the output behind the PDUs that wait for the slot. One
    /// that no slot has room for would hold up all the others.
    fn enqueue(&mut self, name: &str, length: usize) {
        let pdu = &self.output[..length];
        if length > SLOT_BYTES {
            println!("    {name} dropped: its {length} bytes are more than a slot has room for");
        } else if done("queue", self.queue.add(pdu)).is_some() {
            print_hex(name, pdu);
        }
    }

    /// What is delivered here; whether to acknowledge it. What is not sealed is
    /// a report: anyone can send it, and it may come twice, by two ways.
    fn deliver(&mut self, bytes: &[u8], answer: &Answer) -> bool {
        let (Ok(header), Ok(payload)) = (read(EDITION_1_2, bytes), answer.delivery.clone()) else {
            return false;
        };
        if let Bits::Flagged {
            encrypted: true, ..
        } = header.bits
        {
            return self.open_sealed(bytes, &header);
        }
        print_hex("payload", &bytes[payload]);
        true
    }

    /// A sealed payload, a command only where the base sends it to this box;
    /// whether to acknowledge it: only what was carried out. Of 82 that is known
    /// of the very last; any other came too late, or is forged. The record is
    /// kept before a command is carried out.
    fn open_sealed(&mut self, bytes: &[u8], header: &Header) -> bool {
        let opened = self.record.open(&KEY, bytes, &mut self.plain);
        done("opening", opened);
        if !matches!(opened, Ok(_) | Err(Refusal::NumberNotGreater)) {
            return false;
        }
        let Ok(number) = message_number(bytes) else {
            return false;
        };
        let message = Some((header.source, header.pdu_id, number));
        if let Ok(length) = opened {
            self.save();
            let command = header.source == BASE && header.destination.is_some();
            let name = if command { "command" } else { "sealed report" };
            print_hex(name, &self.plain[..length]);
            self.last_opened = message;
        }
        message == self.last_opened
    }

    /// Keeps record and `alarm_id` without power, all or nothing.
    fn save(&self) {
        let _kept = (self.record.words(), self.alarm_id);
    }

    /// Begins the slot with the alarms that were raised, and gives their bytes.
    /// What is not retained is not sent, and waits for the next slot.
    fn begin_with_alarms(&mut self, now: u64) -> usize {
        let fresh = Fresh {
            source: OWN,
            destination: Some(BASE),
            hop_limit: HOP_LIMIT,
            with_path: true,
            reliable: true,
            pdu_id: self.alarm_id,
            ..Fresh::default()
        };
        let written = originate(&fresh, &[self.raised], &mut self.slot);
        let Some(length) = done("alarm", written) else {
            return 0;
        };
        if note(self.alarms.retain(now, &self.slot[..length])).is_none() {
            return 0;
        }
        self.raised = 0;
        self.alarm_id = self.alarm_id.wrapping_add(1);
        self.save();
        length
    }

    /// Sends the slot: alarms before all else, those that are late too, then
    /// from the queue what there is room for. What has no room (77, 62) goes out
    /// later.
    fn send_slot(&mut self, now: u64) {
        println!("{now} s: a slot");
        let mut used = match self.raised {
            0 => 0,
            _ => self.begin_with_alarms(now),
        };
        loop {
            let deed = self.alarms.retry(now, DELAY, TRIES, &mut self.slot[used..]);
            match note(deed) {
                Some(Deed::SentAgain(_, _, length)) => used += length,
                None | Some(Deed::Nothing) => break,
                _ => {}
            }
        }
        let taken = done("queue", self.queue.take(&mut self.slot[used..]));
        used += taken.map_or(0, |taken| taken.bytes);
        if used > 0 {
            print_hex("sent", &self.slot[..used]);
        }
    }
}

/// What a call did, or says why it did nothing.
fn done<T>(name: &str, result: Result<T, Refusal>) -> Option<T> {
    result
        .map_err(|refusal| println!("    {name}: {}, {}", refusal.number(), refusal.meaning()))
        .ok()
}

/// What came of a call with the alarms.
fn note(result: Result<Deed, Refusal>) -> Option<Deed> {
    let deed = done("alarms", result)?;
    let told: Option<(Names, &str)> = match deed {
        Deed::Nothing => None,
        Deed::Retained(_, names) => Some((names, "retained")),
        Deed::SentAgain(_, names, _) => Some((names, "sent again")),
        Deed::Failed(_, names) => Some((names, "given up")),
        Deed::Freed(_, names) => Some((names, "known to have arrived")),
        Deed::Acknowledged(names, _) => Some((names, "acknowledged")),
    };
    if let Some((names, words)) = told {
        let (id, from, to) = (names.pdu_id, names.source, names.destination);
        println!("    PDU {id} from {from} to {to} is {words}");
    }
    Some(deed)
}

fn print_hex(name: &str, bytes: &[u8]) {
    let digits: String = bytes.iter().map(|byte| format!("{byte:02X}")).collect();
    let colon = if digits.is_empty() { "" } else { ": " };
    println!("    {name}, {} bytes{colon}{digits}", bytes.len());
}

fn main() -> Result<(), ListFault> {
    let mut repeater = Repeater::new()?;
    for now in 1..=40 {
        for (what, frame) in modem::heard_at(now) {
            println!("{now} s: {what}");
            repeater.hear_frame(&frame);
        }
        if now % SLOT == 0 {
            repeater.send_slot(now);
        }
    }
    for station in repeater.stations.iter() {
        let (address, reads, echoes) = (station.address, station.reads, station.echoes);
        println!("station {address}: {reads} read, {echoes} of them echoes");
    }
    Ok(())
}
