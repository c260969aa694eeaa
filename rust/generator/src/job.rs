//! Jobs of `relay`, good and bad (01, "The program `relay`").

use crate::batch::batch;
use crate::lists::good_lists;
use crate::random::Random;
use crate::settings::settings_for;
use reference::numbers::{
    BATCH_SIZE, JOB_FLAGS, JOB_LEFT_OVER, JOB_LIST_COUNT, JOB_SHORT, LOW_ABOVE_HIGH,
};
use reference::{Choice, Settings, EDITION_1_2, MOST_BATCH};

/// A good job before it is laid out in bytes.
#[derive(Clone, Debug, PartialEq, Eq)]
pub struct JobParts {
    /// Own address and what is on; of the lists, the first of a kind or none.
    pub settings: Settings,
    /// Four good lists, one of each kind.
    pub lists: [Vec<u16>; 4],
    /// A batch of up to 16,384 bytes.
    pub batch: Vec<u8>,
}

impl JobParts {
    /// The job's bytes.
    pub fn bytes(&self) -> Vec<u8> {
        let mut bytes = self.settings.own_address.to_be_bytes().to_vec();
        bytes.push(self.flags());
        for list in &self.lists {
            bytes.push((list.len() / 2) as u8);
            bytes.extend(list.iter().flat_map(|value| value.to_be_bytes()));
        }
        bytes.extend((self.batch.len() as u16).to_be_bytes());
        bytes.extend(&self.batch);
        bytes
    }

    /// Bit 0 echo, 1 repeating, 2 to 5 the lists.
    fn flags(&self) -> u8 {
        let on = [
            self.settings.echo,
            self.settings.repeating,
            self.settings.source_pass != Choice::None,
            self.settings.source_reject != Choice::None,
            self.settings.destination_pass != Choice::None,
            self.settings.destination_reject != Choice::None,
        ];
        on.iter()
            .rev()
            .fold(0, |flags, on| flags * 2 + u8::from(*on))
    }

    /// Where the count byte of a list stands, the first list being 0; for 4
    /// it is where the batch length stands.
    fn place_of_list(&self, list: usize) -> usize {
        let before = self.lists[..list].iter();
        3 + before.map(|list| 1 + 2 * list.len()).sum::<usize>()
    }
}

/// A bad job and the number that it is refused with.
#[derive(Clone, Debug, PartialEq, Eq)]
pub struct DamagedJob {
    /// The job's bytes.
    pub bytes: Vec<u8>,
    /// 50 to 54, or 20.
    pub number: u8,
}

/// A good job.
pub fn job(random: &mut Random) -> JobParts {
    let mut batch = batch(random);
    batch.truncate(MOST_BATCH);
    JobParts {
        settings: with_firsts(settings_for(random, &batch)),
        lists: good_lists(random),
        batch,
    }
}

/// The settings with the first list of each kind of which one is chosen (02,
/// W-211: a job's sections are first lists).
fn with_firsts(settings: Settings) -> Settings {
    let first = |choice| match choice {
        Choice::None => Choice::None,
        Choice::First | Choice::Second => Choice::First,
    };
    Settings {
        edition: EDITION_1_2,
        source_pass: first(settings.source_pass),
        source_reject: first(settings.source_reject),
        destination_pass: first(settings.destination_pass),
        destination_reject: first(settings.destination_reject),
        ..settings
    }
}

/// A good job with one fault put in; half of the time any bytes come instead
/// of what follows the fault, which must not matter.
pub fn damaged_job(random: &mut Random) -> DamagedJob {
    let parts = job(random);
    let mut bytes = parts.bytes();
    let number = random.pick(&[
        JOB_SHORT,
        JOB_FLAGS,
        JOB_LIST_COUNT,
        LOW_ABOVE_HIGH,
        BATCH_SIZE,
        JOB_LEFT_OVER,
    ]);
    let met = match number {
        JOB_SHORT => return cut_short(random, &parts),
        JOB_LEFT_OVER => return left_over(random, bytes),
        JOB_FLAGS => flags_fault(random, &mut bytes),
        JOB_LIST_COUNT => count_fault(random, &parts, &mut bytes),
        LOW_ABOVE_HIGH => range_fault(random, &parts, &mut bytes),
        _ => batch_fault(random, &parts, &mut bytes),
    };
    if random.flag() {
        bytes.truncate(met);
        let more = random.between(0, 30);
        bytes.extend(random.bytes(more));
    }
    DamagedJob { bytes, number }
}

/// Any bytes as a job, mostly few.
pub fn random_job(random: &mut Random) -> Vec<u8> {
    let count = random.between(0, 60);
    let mut bytes = random.bytes(count);
    for byte in bytes.iter_mut().skip(2) {
        *byte &= random.pick(&[0, 1, 0x3F, 0xFF]);
    }
    bytes
}

/// A job cut anywhere, often at the end of one of its parts.
fn cut_short(random: &mut Random, parts: &JobParts) -> DamagedJob {
    let mut bytes = parts.bytes();
    let length = match random.below(4) {
        0 => bytes.len() - 1,
        1 => parts.place_of_list(random.between(0, 4)),
        2 => random.between(0, parts.place_of_list(4) + 1),
        _ => random.below(bytes.len()),
    };
    bytes.truncate(length);
    let number = JOB_SHORT;
    DamagedJob { bytes, number }
}

/// A job with bytes after it.
fn left_over(random: &mut Random, mut bytes: Vec<u8>) -> DamagedJob {
    let more = random.between(1, 9);
    bytes.extend(random.bytes(more));
    let number = JOB_LEFT_OVER;
    DamagedJob { bytes, number }
}

/// Sets bit 6 or 7 of the flags. This and the next three give the place after
/// which the fault has been met.
fn flags_fault(random: &mut Random, bytes: &mut [u8]) -> usize {
    bytes[2] |= random.pick(&[0x40, 0x80, 0xC0]);
    3
}

/// Puts a list count above 64.
fn count_fault(random: &mut Random, parts: &JobParts, bytes: &mut [u8]) -> usize {
    let place = parts.place_of_list(random.below(4));
    bytes[place] = random.pick(&[65, 66, 128, 255]);
    place + 1
}

/// Puts a range with low above high at the start of a list; the list counts
/// one range more.
fn range_fault(random: &mut Random, parts: &JobParts, bytes: &mut Vec<u8>) -> usize {
    let place = parts.place_of_list(random.below(4));
    bytes[place] = (bytes[place] + 1).min(64);
    let high = random.below(65_535) as u16;
    let low = random.between(usize::from(high) + 1, 65_535) as u16;
    let range = [low.to_be_bytes(), high.to_be_bytes()].concat();
    bytes.splice(place + 1..place + 1, range);
    place + 5
}

/// Puts a batch length above 16,384.
fn batch_fault(random: &mut Random, parts: &JobParts, bytes: &mut [u8]) -> usize {
    let place = parts.place_of_list(4);
    let any = random.between(MOST_BATCH + 1, 65_535) as u16;
    let length = random.pick(&[16_385, 65_535, any]);
    bytes[place..place + 2].copy_from_slice(&length.to_be_bytes());
    place + 2
}

#[cfg(test)]
mod tests {
    use super::*;
    use reference::read_job;

    #[test]
    fn good_jobs_are_read_as_they_were_made() {
        let mut random = Random::from_seed(1);
        for _ in 0..500 {
            let parts = job(&mut random);
            let read = read_job(&parts.bytes()).unwrap();
            assert_eq!(read.settings, parts.settings);
            assert_eq!(read.lists, parts.lists);
            assert_eq!(read.batch, parts.batch);
        }
    }

    #[test]
    fn bad_jobs_are_refused_with_their_number() {
        let mut random = Random::from_seed(1);
        for _ in 0..2000 {
            let bad = damaged_job(&mut random);
            assert_eq!(read_job(&bad.bytes), Err(bad.number));
        }
    }
}
