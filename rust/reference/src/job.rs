//! 01, "The program `relay`"; numbers 50 to 54, and 20. 02, W-211: its lists.

use crate::batch::{walk, Step, MOST_BATCH};
use crate::edition::EDITION_1_2;
use crate::header::MOST_PDU;
use crate::lists::{Choice, Lists, MOST_RANGES};
use crate::node::Settings;
use crate::numbers::{
    BATCH_SIZE, JOB_FLAGS, JOB_LEFT_OVER, JOB_LIST_COUNT, JOB_SHORT, LOW_ABOVE_HIGH,
};
use crate::octets::{bit, Cursor};

/// A job that could be read.
#[derive(Clone, Debug, PartialEq, Eq)]
pub struct Job {
    /// Own address and the flags.
    pub settings: Settings,
    /// The four sections, in the order of 01, each its kind's first list.
    pub lists: [Vec<u16>; 4],
    /// The batch.
    pub batch: Vec<u8>,
}

/// Reads a job from left to right; the first fault met gives the answer, 53
/// last.
pub fn read_job(bytes: &[u8]) -> Result<Job, u8> {
    let mut rest = Cursor::new(bytes, 0, JOB_SHORT);
    let settings = read_settings(&mut rest)?;
    let lists = [
        read_list(&mut rest)?,
        read_list(&mut rest)?,
        read_list(&mut rest)?,
        read_list(&mut rest)?,
    ];
    let batch = read_batch(&mut rest)?;
    if rest.left() > 0 {
        return Err(JOB_LEFT_OVER);
    }
    Ok(Job {
        settings,
        lists,
        batch,
    })
}

/// Own address and flags. A job has no edition; its text is the same under
/// both.
fn read_settings(rest: &mut Cursor) -> Result<Settings, u8> {
    let own_address = rest.word()?;
    let flags = rest.byte()?;
    if bit(flags, 6) || bit(flags, 7) {
        return Err(JOB_FLAGS);
    }
    Ok(Settings {
        edition: EDITION_1_2,
        own_address,
        echo: bit(flags, 0),
        repeating: bit(flags, 1),
        source_pass: first_or_none(bit(flags, 2)),
        source_reject: first_or_none(bit(flags, 3)),
        destination_pass: first_or_none(bit(flags, 4)),
        destination_reject: first_or_none(bit(flags, 5)),
    })
}

/// 02, W-211: a section is "its kind's first list".
fn first_or_none(on: bool) -> Choice {
    match on {
        true => Choice::First,
        false => Choice::None,
    }
}

/// "A count byte and that many ranges of 4 bytes", with 20 "when a range has
/// been read".
fn read_list(rest: &mut Cursor) -> Result<Vec<u16>, u8> {
    let count = usize::from(rest.byte()?);
    if count > MOST_RANGES {
        return Err(JOB_LIST_COUNT);
    }
    let mut list = Vec::new();
    for _ in 0..count {
        let mut range = Cursor::new(rest.take(4)?, 0, JOB_SHORT);
        let (low, high) = (range.word()?, range.word()?);
        if low > high {
            return Err(LOW_ABOVE_HIGH);
        }
        list.extend([low, high]);
    }
    Ok(list)
}

/// "The batch, after its length in 2 bytes."
fn read_batch(rest: &mut Cursor) -> Result<Vec<u8>, u8> {
    let length = usize::from(rest.word()?);
    if length > MOST_BATCH {
        return Err(BATCH_SIZE);
    }
    Ok(rest.take(length)?.to_vec())
}

/// All that `relay` prints for a job.
pub fn relay(bytes: &[u8]) -> String {
    match read_job(bytes).and_then(|job| job_text(&job)) {
        Ok(text) => text,
        Err(number) => format!("refused {number}\n"),
    }
}

/// The text of a job that could be read.
fn job_text(job: &Job) -> Result<String, u8> {
    let [a, b, c, d] = &job.lists;
    let lists = Lists::firsts([a, b, c, d]);
    let out = &mut [0; MOST_PDU];
    let walked = walk(&job.settings, &lists, &job.batch, out)?;
    let mut text = format!("relay {}\n", job.settings.own_address);
    for (place, step) in walked.steps.iter().enumerate() {
        text.push_str(&pdu_line(place + 1, step));
    }
    text.push_str(&format!("end {} {}\n", walked.steps.len(), walked.end));
    Ok(text)
}

/// A PDU line: its number from 1, its offset, delivery number, repeat number,
/// the repeated PDU in hex or `-`, the last sender.
fn pdu_line(number: usize, step: &Step) -> String {
    let Step {
        offset,
        answer,
        repeated,
    } = step;
    let repeated = hex_or_dash(repeated);
    let sender = decimal_or_dash(answer.last_sender);
    format!(
        "{number} {offset} {} {} {repeated} {sender}\n",
        answer.delivery, answer.repeat
    )
}

/// 02, W-205: "in decimal", "`-` when unknown or when reading was refused".
fn decimal_or_dash(address: Option<u16>) -> String {
    address.map_or(String::from("-"), |address| address.to_string())
}

/// A PDU has 6 bytes or more, so an empty one means none.
fn hex_or_dash(bytes: &[u8]) -> String {
    if bytes.is_empty() {
        return String::from("-");
    }
    bytes.iter().map(|byte| format!("{byte:02X}")).collect()
}
