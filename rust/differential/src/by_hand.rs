//! Tables put together by hand, whose addresses need not rise: any words get
//! an answer, and nothing outside them is touched.

use crate::same::{node, Input};
use crate::table::{answer_for, in_reference, is_read, Table, NOT_HELD};
use crate::Compared;
use generator::{any_table, good_block, settings, source_near, Deed, Hearing, Random};
use mant::raw::{self, Found, Station, STATION_LIMIT};
use reference::{counts_as_echo, Stations};

/// Compares some deeds on any words, each by what the words held before.
pub fn compare(random: &mut Random) -> Compared {
    let words = any_table(random);
    let mut table = Table::of(random, &words);
    let at = (settings(random), good_block(random));
    for _ in 0..random.between(1, 8) {
        let source = source_near(random, table.words());
        let deed = generator::deed(random, &at, source);
        let before = table.clone();
        let input = Input {
            bytes: &[],
            rest: &(&deed, before.words()),
        };
        compare_shown(&input, &before, source)?;
        compare_deed(random, &input, (&mut table, &before), &deed)?;
    }
    Ok(())
}

/// What is held and listed is what stands in the words; what is found by
/// address stands there too.
fn compare_shown(input: &Input, table: &Table, address: u16) -> Compared {
    let words = table.words();
    let stations = table.stations();
    input.same("held", raw::stations_held(words), stations.len())?;
    for (place, station) in stations.iter().enumerate() {
        let found = raw::station_at(words, place);
        input.same("listing", (found.number, found.station), (0, *station))?;
    }
    let past = raw::station_at(words, stations.len());
    input.same("past the listing", past, NOT_HELD)?;
    let found = raw::station_of(words, address);
    match found.number {
        0 => {
            let stands = stations.contains(&found.station) && found.station.address == address;
            input.same("found station stands there", stands, true)
        }
        _ => input.same("by address", found, NOT_HELD),
    }
}

/// A deed, by whether its station is found.
fn compare_deed(
    random: &mut Random,
    input: &Input,
    (table, before): (&mut Table, &Table),
    deed: &Deed,
) -> Compared {
    match deed {
        Deed::Remove(address) => {
            let found = raw::station_of(before.words(), *address);
            let number = raw::remove_station(table.change(), *address);
            input.same("number of a removal", number, found.number)?;
            match number {
                0 => compare_without(input, table, before, &found.station),
                _ => input.same("words", &*table, before),
            }
        }
        Deed::Count(source, echo, path_count) => {
            let heard = raw::Heard {
                source: *source,
                echo: *echo,
                path_bit: path_count.is_some(),
                path_count: path_count.unwrap_or(0),
            };
            let number = raw::count_heard(table.change(), heard);
            compare_count(input, (table, before), heard, number)
        }
        Deed::CountAnswer(bytes, delivery) => {
            let answer = answer_for(bytes, *delivery);
            let number = raw::count_answer(table.change(), bytes, answer);
            compare_answer(input, (table, before), bytes, (*delivery, number))
        }
        Deed::Hear(hearing) => {
            let at = node(random, &hearing.settings);
            let listened = heard(input, table, (at, hearing))?;
            let numbers = (listened.answer.delivery, listened.table_number);
            compare_answer(input, (table, before), &hearing.received, numbers)
        }
    }
}

/// A node hears bytes; its answer and output are those without a table.
fn heard(
    input: &Input,
    table: &mut Table,
    (at, hearing): (raw::Node, &Hearing),
) -> Result<raw::Listened, String> {
    let (mut output, mut plain) = (vec![0; hearing.room], vec![0; hearing.room]);
    let (lists, bytes) = (&hearing.lists.0, &hearing.received);
    let listened = raw::hear_and_count(at, lists, bytes, &mut output, table.change());
    let answer = raw::hear(at, lists, bytes, &mut plain);
    input.same("answer with a table", listened.answer, answer)?;
    input.same_bytes("output with a table", &output, &plain)?;
    Ok(listened)
}

/// A PDU counted by a delivery number.
fn compare_answer(
    input: &Input,
    (table, before): (&Table, &Table),
    bytes: &[u8],
    (delivery, number): (u8, u8),
) -> Compared {
    match reference::read(bytes) {
        Ok(header) if is_read(delivery) => {
            let heard = raw::Heard {
                source: header.source,
                echo: counts_as_echo(delivery),
                path_bit: header.path.is_some(),
                path_count: header.path.map_or(0, |path| path.len() as u8),
            };
            compare_count(input, (table, before), heard, number)
        }
        _ => {
            input.same("number of what was not read", number, 0)?;
            input.same("words", table, before)
        }
    }
}

/// A count changes the station that is found, or puts a new one in, or is
/// refused where there is no room for one.
fn compare_count(
    input: &Input,
    (table, before): (&Table, &Table),
    heard: raw::Heard,
    number: u8,
) -> Compared {
    let Found {
        number: missing,
        station,
    } = raw::station_of(before.words(), heard.source);
    if missing != 0 && before.stations().len() == STATION_LIMIT {
        input.same("number of a count without room", number, 55)?;
        return input.same("words", table, before);
    }
    input.same("number of a count", number, 0)?;
    let known = (missing == 0).then_some(station);
    let after = counted(known, heard);
    let ways = ways(&before.stations(), known, after);
    let is_one = ways.iter().any(|way| before.holding(way) == *table);
    input.same("one station counted, all else kept", is_one, true)
}

/// The station after the count.
fn counted(known: Option<Station>, heard: raw::Heard) -> Station {
    let held: Vec<_> = known.into_iter().map(in_reference).collect();
    let mut stations = Stations::holding(&held);
    let path_count = heard.path_bit.then_some(u16::from(heard.path_count));
    stations.count(heard.source, heard.echo, path_count);
    differential::station(stations.list()[0])
}

/// The stations with the counted one in the place of one that is as it was
/// known, or, where none is known, put in at any place.
fn ways(stations: &[Station], known: Option<Station>, counted: Station) -> Vec<Vec<Station>> {
    let mut ways = vec![];
    for place in 0..=stations.len() {
        let mut way = stations.to_vec();
        match known {
            None => way.insert(place, counted),
            Some(known) if stations.get(place) == Some(&known) => way[place] = counted,
            Some(_) => continue,
        }
        ways.push(way);
    }
    ways
}

/// A removal takes one such station out.
fn compare_without(input: &Input, table: &Table, before: &Table, removed: &Station) -> Compared {
    let stations = before.stations();
    let mut places = (0..stations.len()).filter(|place| stations[*place] == *removed);
    let is_one = places.any(|place| {
        let mut left = stations.clone();
        left.remove(place);
        before.holding(&left) == *table
    });
    input.same("one station out, all else kept", is_one, true)
}
