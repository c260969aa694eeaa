//! Encrypted payloads: PDUs sealed, histories of openings from an empty
//! record, and records put together by hand.

use crate::output::Output;
use crate::record::Words;
use crate::same::{length_or_number, Input};
use crate::Compared;
use differential::{numbered, written};
use generator::{any_record, empty_record, openings, repeated, to_seal, Random, ToOpen};
use mant::raw::{self, SOURCE_WORDS};
use reference::{message_number, open, read, seal, Accepted, MOST_PAYLOAD};

/// A record in the library, in the reference and in the wrapper.
struct Records {
    library: Words,
    reference: Accepted,
    wrapper: mant::Record,
}

/// Compares the sealing of one PDU, and opens what was sealed after any
/// repeats.
pub fn compare_sealing(random: &mut Random) -> Compared {
    let asked = to_seal(random);
    let input = Input {
        bytes: &asked.bytes,
        rest: &(asked.key, asked.number, asked.room),
    };
    let key = mant::Key { bytes: asked.key };
    let mut library = Output::of(random, asked.room);
    let (mut reference, mut wrapper) = (library.clone(), library.clone());
    let sealed = raw::seal(key, asked.number, &asked.bytes, library.room());
    let wanted = seal(&asked.key, asked.number, &asked.bytes, reference.room());
    input.same("sealing", sealed, written(wanted))?;
    input.same_bytes("output", library.all(), reference.all())?;
    let wrapped = mant::seal(&key, asked.number, &asked.bytes, wrapper.room());
    let wrapped = wrapped.map_err(mant::Refusal::number);
    input.same("wrapped sealing", wrapped, length_or_number(wanted))?;
    input.same_bytes("wrapped output", wrapper.all(), reference.all())?;
    compare_number(&input, &asked.bytes)?;
    match (sealed.number, read(&asked.bytes)) {
        (0, Ok(header)) => {
            let pdu = repeated(random, &library.room()[..sealed.length]);
            let number = mant::message_number(&pdu).map(u64::from);
            input.same("number of what was sealed", number, Ok(asked.number))?;
            compare_given_back(&input, &key, &pdu, header.payload(&asked.bytes))
        }
        _ => Ok(()),
    }
}

/// Compares the message number of any bytes.
fn compare_number(input: &Input, bytes: &[u8]) -> Compared {
    let (number, wanted) = (raw::message_number(bytes), message_number(bytes));
    input.same("message number", number, numbered(wanted))?;
    let wrapped = mant::message_number(bytes).map_err(mant::Refusal::number);
    input.same("wrapped message number", wrapped, wanted)
}

/// A sealed PDU opens to its plain payload against an empty record.
fn compare_given_back(input: &Input, key: &mant::Key, pdu: &[u8], plain: &[u8]) -> Compared {
    let (mut record, mut output) = (mant::Record::new(), [0; MOST_PAYLOAD]);
    let opened = record
        .open(key, pdu, &mut output)
        .map_err(mant::Refusal::number);
    input.same("opened again", opened, Ok(plain.len()))?;
    input.same_bytes("payload given back", &output[..plain.len()], plain)?;
    let again = record
        .open(key, pdu, &mut output)
        .map_err(mant::Refusal::number);
    input.same("opened a second time", again, Err(82))
}

/// Compares a history of openings from an empty record.
pub fn compare_history(random: &mut Random) -> Compared {
    let words = empty_record(random);
    compare(random, &words)
}

/// Compares a history of openings with a record put together by hand.
pub fn compare_by_hand(random: &mut Random) -> Compared {
    let words = any_record(random);
    compare(random, &words)
}

/// Compares all that is answered, and all words after each opening and each
/// source removed. No number is accepted from a source twice, unless the source
/// was removed in between.
fn compare(random: &mut Random, words: &[u32; SOURCE_WORDS]) -> Compared {
    let mut records = Records::of(random, words);
    let openings = openings(random);
    let mut accepted = vec![];
    for turn in 0..openings.turns {
        let asked = openings.next(random, turn, |source| records.reference.get(source));
        let before = records.library.clone();
        let input = Input {
            bytes: &asked.bytes,
            rest: &(asked.key, asked.room, before.words()),
        };
        compare_number(&input, &asked.bytes)?;
        let output = Output::of(random, asked.room);
        let taken = records.opened(&input, &asked, &output)?;
        let left = match taken {
            Some((source, number)) => before.with(source, number),
            None => before.clone(),
        };
        input.same("words", &records.library, &left)?;
        records.compare_wrapper(&input)?;
        let is_replay = taken.is_some_and(|pair| accepted.contains(&pair));
        input.same("a number accepted twice", is_replay, false)?;
        accepted.extend(taken);
        if let Some(source) = openings.removed(random) {
            records.removed(source)?;
            accepted.retain(|pair| pair.0 != source);
        }
    }
    Ok(())
}

impl Records {
    /// The three records in the words.
    fn of(random: &mut Random, words: &[u32; SOURCE_WORDS]) -> Records {
        let library = Words::of(random, words);
        Records {
            reference: library.accepted(),
            wrapper: mant::Record::from_words(*words),
            library,
        }
    }

    /// Opens with all records, and gives source and number where the PDU was
    /// accepted.
    fn opened(
        &mut self,
        input: &Input,
        asked: &ToOpen,
        output: &Output,
    ) -> Result<Option<(u16, u32)>, String> {
        let key = mant::Key { bytes: asked.key };
        let (mut library, mut reference) = (output.clone(), output.clone());
        let mut wrapper = output.clone();
        let opened = raw::open(key, self.library.change(), &asked.bytes, library.room());
        let accepted = &mut self.reference;
        let wanted = open(&asked.key, accepted, &asked.bytes, reference.room());
        input.same("opening", opened, written(wanted))?;
        input.same_bytes("output", library.all(), reference.all())?;
        let wrapped = self.wrapper.open(&key, &asked.bytes, wrapper.room());
        let wrapped = wrapped.map_err(mant::Refusal::number);
        input.same("wrapped opening", wrapped, length_or_number(wanted))?;
        input.same_bytes("wrapped output", wrapper.all(), reference.all())?;
        Ok(match (wanted.0, read(&asked.bytes)) {
            (0, Ok(header)) => {
                let number = self.reference.get(header.source);
                number.map(|number| (header.source, number))
            }
            _ => None,
        })
    }

    /// Removes a source from all records. In malformed memory all its entries
    /// go, and their room is free.
    fn removed(&mut self, source: u16) -> Compared {
        let before = self.library.clone();
        let input = Input {
            bytes: &[],
            rest: &(source, before.words()),
        };
        let held = self.reference.remove(source);
        let removed = raw::remove_source(self.library.change(), source);
        input.same("removing", removed, held)?;
        input.same("words left", &self.library, &before.without(source))?;
        input.same("wrapped removing", self.wrapper.remove(source), held)?;
        self.reference = self.library.accepted();
        input.same("removed", self.reference.get(source), None)?;
        self.compare_wrapper(&input)
    }

    /// The wrapper holds the same.
    fn compare_wrapper(&self, input: &Input) -> Compared {
        let record = &self.wrapper;
        input.same("wrapper's words", record.words(), self.library.words())?;
        for (source, _) in record.iter() {
            if let Ok(source) = u16::try_from(source) {
                let wanted = self.reference.get(source);
                input.same("wrapper's number", record.get(source), wanted)?;
            }
        }
        Ok(())
    }
}
