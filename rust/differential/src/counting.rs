//! Histories of a table of stations: hearings, counts and removals, with all
//! that the table shows after each.

use crate::output::Output;
use crate::same::{lists, node, number, wrapped, wrapped_node, Input};
use crate::table::{answer_for, in_reference, is_read, Table, NOT_HELD};
use crate::Compared;
use differential::answer;
use generator::{address, history, source_near, Deed, Hearing, Random, TABLE_WORDS};
use mant::raw::{self, Found};
use reference::{counts_as_echo, hear, hear_and_count, read, Stations};

/// A table in the library, in the reference and in the wrapper.
struct Tables {
    library: Table,
    reference: Stations,
    wrapper: mant::Stations,
}

/// Compares a whole history.
pub fn compare(random: &mut Random) -> Compared {
    let history = history(random);
    let mut tables = Tables::of(random, &history.words);
    compare_shown(
        random,
        &Input {
            bytes: &[],
            rest: &history.words,
        },
        &tables,
    )?;
    for deed in &history.deeds {
        let before = tables.library.clone();
        let input = Input {
            bytes: &[],
            rest: &(deed, before.words()),
        };
        let changes = tables.done(random, &input, deed)?;
        let left = match changes {
            true => before.holding(&tables.listed()),
            false => before.clone(),
        };
        input.same("words", &tables.library, &left)?;
        compare_shown(random, &input, &tables)?;
    }
    Ok(())
}

impl Tables {
    /// The three tables in the words.
    fn of(random: &mut Random, words: &[u16; TABLE_WORDS]) -> Tables {
        let library = Table::of(random, words);
        let stations: Vec<_> = library.stations().into_iter().map(in_reference).collect();
        Tables {
            reference: Stations::holding(&stations),
            wrapper: mant::Stations::from_words(*words),
            library,
        }
    }

    /// What the reference lists.
    fn listed(&self) -> Vec<raw::Station> {
        self.reference
            .list()
            .into_iter()
            .map(differential::station)
            .collect()
    }

    /// Does a deed in all tables, and tells whether it is one that changes them.
    fn done(&mut self, random: &mut Random, input: &Input, deed: &Deed) -> Result<bool, String> {
        match deed {
            Deed::Hear(hearing) => {
                let output = Output::of(random, hearing.room);
                let at = node(random, &hearing.settings);
                self.heard(input, (at, hearing), &output)
            }
            Deed::Count(source, echo, path_count) => {
                let unused = random.byte();
                self.counted(input, (*source, *echo, *path_count), unused)
            }
            Deed::CountAnswer(bytes, delivery) => self.answered(input, bytes, *delivery),
            Deed::Remove(address) => self.removed(input, *address),
        }
    }

    /// A node hears bytes: what it answers and writes is what it does without
    /// a table, and counting by that answer comes to the same.
    fn heard(
        &mut self,
        input: &Input,
        (at, hearing): (raw::Node, &Hearing),
        output: &Output,
    ) -> Result<bool, String> {
        let (mut library, mut plain) = (output.clone(), output.clone());
        let mut reference = output.clone();
        let mut apart = self.library.clone();
        let (block, bytes) = (&hearing.lists, &hearing.received);
        let table = self.library.change();
        let listened = raw::hear_and_count(at, &block.0, bytes, library.room(), table);
        let answered = raw::hear(at, &block.0, bytes, plain.room());
        input.same("answer with a table", listened.answer, answered)?;
        input.same_bytes("output with a table", library.all(), plain.all())?;
        let (settings, stations) = (&hearing.settings, &mut self.reference);
        let (wanted, number) =
            hear_and_count(settings, &block.lists(), bytes, reference.room(), stations);
        input.same("answer", answered, answer(&wanted))?;
        input.same_bytes("output", library.all(), reference.all())?;
        input.same("table's number", listened.table_number, number)?;
        let by_answer = raw::count_answer(apart.change(), bytes, answered);
        input.same("number by the answer", by_answer, number)?;
        input.same("words by the answer", &apart, &self.library)?;
        self.heard_in_wrapper(input, hearing, (output, &listened))?;
        Ok(number == 0 && wanted.taken != 0)
    }

    /// The wrapper hears the same.
    fn heard_in_wrapper(
        &mut self,
        input: &Input,
        hearing: &Hearing,
        (output, listened): (&Output, &raw::Listened),
    ) -> Compared {
        let stations = &mut self.wrapper;
        let Ok(laid) = lists(&hearing.lists.lists()) else {
            return Ok(());
        };
        let (mut output, mut other) = (output.clone(), output.clone());
        let mut apart = stations.clone();
        let (settings, bytes) = (&hearing.settings, &hearing.received);
        let heard = stations.hear(&wrapped_node(settings), &laid, bytes, output.room());
        let wanted = wrapped(&listened.answer);
        hear(settings, &hearing.lists.lists(), bytes, other.room());
        input.same("wrapped answer", &heard.answer, &wanted)?;
        input.same("wrapped number", number(heard.table), listened.table_number)?;
        input.same_bytes("wrapped output", output.all(), other.all())?;
        let counted = apart.count_answer(bytes, &heard.answer);
        input.same(
            "wrapped by the answer",
            number(counted),
            listened.table_number,
        )?;
        input.same("wrapped words", apart.words(), stations.words())
    }

    /// A PDU that was read; without a path its path count may be anything.
    fn counted(
        &mut self,
        input: &Input,
        (source, echo, path_count): (u16, bool, Option<u8>),
        unused: u8,
    ) -> Result<bool, String> {
        let heard = raw::Heard {
            source,
            echo,
            path_bit: path_count.is_some(),
            path_count: path_count.unwrap_or(unused),
        };
        let counted = raw::count_heard(self.library.change(), heard);
        let wanted = self
            .reference
            .count(source, echo, path_count.map(u16::from));
        input.same("number of a count", counted, wanted)?;
        let heard = mant::Heard {
            source,
            echo,
            path_count,
        };
        let wrapped = number(self.wrapper.count(&heard));
        input.same("wrapped count", wrapped, wanted)?;
        Ok(wanted == 0)
    }

    /// An answer with any delivery number for the valid PDU in these bytes.
    fn answered(&mut self, input: &Input, bytes: &[u8], delivery: u8) -> Result<bool, String> {
        let answer = answer_for(bytes, delivery);
        let number = raw::count_answer(self.library.change(), bytes, answer);
        let is_read = is_read(delivery);
        let wanted = match read(bytes) {
            Ok(header) if is_read => self.reference.read(&header, counts_as_echo(delivery)),
            _ => 0,
        };
        input.same("number of an answer", number, wanted)?;
        let mut words = *self.wrapper.words();
        raw::count_answer(&mut words, bytes, answer);
        self.wrapper = mant::Stations::from_words(words);
        Ok(is_read && wanted == 0)
    }

    /// A removal.
    fn removed(&mut self, input: &Input, address: u16) -> Result<bool, String> {
        let removed = raw::remove_station(self.library.change(), address);
        let wanted = self.reference.remove(address);
        input.same("number of a removal", removed, wanted)?;
        let wrapped = number(self.wrapper.remove(address));
        input.same("wrapped removal", wrapped, wanted)?;
        Ok(wanted == 0)
    }
}

/// All that a table shows: how many it holds, the whole listing, places past
/// it, and stations by address, held and not.
fn compare_shown(random: &mut Random, input: &Input, tables: &Tables) -> Compared {
    let words = tables.library.words();
    let listed = tables.listed();
    let held = raw::stations_held(words);
    input.same("held", held, listed.len())?;
    let mut wanted: Vec<Found> = listed.into_iter().map(found).collect();
    wanted.push(NOT_HELD);
    let shown: Vec<Found> = (0..=held)
        .map(|place| raw::station_at(words, place))
        .collect();
    input.same("listing", shown, wanted)?;
    let past = held.saturating_add(random.draw() as usize >> random.below(64));
    for place in [past, usize::MAX] {
        input.same("past the listing", raw::station_at(words, place), NOT_HELD)?;
    }
    let near = source_near(random, words);
    for address in [near, address(random), random.word()] {
        let wanted = tables.reference.get(address).map(differential::station);
        let wanted = wanted.map_or(NOT_HELD, found);
        input.same("by address", raw::station_of(words, address), wanted)?;
    }
    compare_wrapper(input, tables, near)
}

/// A station that is held, as asking answers it.
fn found(station: raw::Station) -> Found {
    Found { number: 0, station }
}

/// The wrapper shows the same.
fn compare_wrapper(input: &Input, tables: &Tables, near: u16) -> Compared {
    let stations = &tables.wrapper;
    input.same("wrapper's words", stations.words(), tables.library.words())?;
    let listed = tables.reference.list();
    let shown: Vec<mant::Station> = stations.iter().collect();
    let wanted: Vec<mant::Station> = listed.iter().map(in_wrapper).collect();
    input.same("wrapper's length", stations.len(), listed.len())?;
    input.same("wrapper's listing", shown, wanted)?;
    let got = stations.get(near).map_err(mant::Refusal::number);
    let wanted = tables.reference.get(near);
    input.same(
        "wrapper by address",
        got,
        wanted.as_ref().map(in_wrapper).map_err(|n| *n),
    )
}

/// The reference's station as the wrapper gives it.
fn in_wrapper(station: &reference::Station) -> mant::Station {
    mant::Station {
        address: station.address,
        reads: station.reads,
        echoes: station.echoes,
        shortest_path: station.shortest_path,
    }
}
