//! Networks of which it is known who hears whom: chains with and without a
//! failed node, the least hop limit, and how often a report goes out.

use crate::same::Input;
use crate::Compared;
use generator::Random;
use mant::raw::{
    chain_lengths, least_hop_limit, network_bytes, network_transmissions, Airtime, Lent, NO_CHAIN,
    NO_HOP_LIMIT,
};
use reference::numbers::HOP_SETTING;
use reference::{chains, count};

/// The reference counts no more transmissions than these.
const MOST_COUNTED: u64 = 20_000;

/// A larger size is not served.
const MOST_SIZE: u64 = 65_535;

/// What is asked.
#[derive(Debug)]
struct Asked {
    pairs: Vec<u8>,
    marks: Vec<u8>,
    from: usize,
    failed: usize,
    hop_limit: u64,
    size: u64,
    /// How many numbers and how many bytes the caller lends.
    places: usize,
    room: usize,
}

/// Compares on one network.
pub fn compare(random: &mut Random) -> Compared {
    let asked = asked(random);
    compare_chains(random, &asked)?;
    compare_counts(random, &asked)
}

/// A network, mostly one that is served; pairs may name a place that no node
/// has, and end with half a pair.
fn asked(random: &mut Random) -> Asked {
    let nodes = match random.below(8) {
        0 => random.between(0, 260),
        1..=3 => random.between(1, 40),
        _ => random.between(1, 7),
    };
    let places = (nodes + usize::from(random.one_in(4))).clamp(1, 256);
    let often = random.pick(&[2, 6, 9]);
    let said = random.below(often * nodes + 2);
    let beyond = usize::from(random.one_in(8));
    let pairs = (0..said).map(|_| random.below(places) as u8).collect();
    let marks = (0..nodes).map(|_| if random.one_in(4) { random.byte() } else { 0 });
    Asked {
        pairs,
        marks: marks.collect(),
        from: random.below((nodes + beyond).max(1)),
        failed: random.below(nodes + 20),
        hop_limit: if random.one_in(16) {
            random.draw()
        } else {
            random.below(8) as u64
        },
        size: size(random),
        places: nodes + usize::from(random.one_in(16)),
        room: nodes * 256 + random.below(300) - usize::from(nodes > 0 && random.one_in(16)),
    }
}

/// A size, mostly one that is served; else often one whose low 16 bits are.
fn size(random: &mut Random) -> u64 {
    let served = random.between(1, MOST_SIZE as usize) as u64;
    match random.below(16) {
        0 => served + (1 << random.between(16, 63)),
        1 => random.pick(&[0, MOST_SIZE, MOST_SIZE + 1, u64::MAX]),
        _ => served,
    }
}

impl Asked {
    /// At most 255 nodes, the originator one of them.
    fn is_network(&self) -> bool {
        self.marks.len() <= 255 && self.from < self.marks.len()
    }

    fn hearings(&self) -> Vec<(usize, usize)> {
        let pairs = self.pairs.chunks_exact(2);
        pairs.map(|pair| (pair[0].into(), pair[1].into())).collect()
    }

    fn mute(&self) -> Vec<bool> {
        self.marks.iter().map(|mark| *mark != 0).collect()
    }
}

/// The lengths, by the failure of a node too, and the least hop limit that they
/// say.
fn compare_chains(random: &mut Random, asked: &Asked) -> Compared {
    let Asked {
        pairs,
        marks,
        from,
        failed,
        ..
    } = asked;
    let input = Input {
        bytes: pairs,
        rest: asked,
    };
    let before = random.bytes(asked.places);
    let mut lengths = before.clone();
    let done = chain_lengths(pairs, marks, *from, *failed, &mut lengths);
    let served = asked.is_network() && asked.places == marks.len();
    input.same("served", done, served)?;
    if !served {
        return input.same_bytes("lengths", &lengths, &before);
    }
    let found = chains(&asked.mute(), &asked.hearings(), *from, *failed);
    let byte = |length: &Option<usize>| length.map_or(NO_CHAIN, |length| length as u8);
    let wanted: Vec<u8> = found.iter().map(byte).collect();
    input.same_bytes("lengths", &lengths, &wanted)?;
    let least = reference::least_hop_limit(&found).map_or(NO_HOP_LIMIT, |least| least as u8);
    input.same("least hop limit", least_hop_limit(&lengths), least)
}

/// The transmissions and their bytes, in all and of each node, and what is left
/// in the memory that was lent.
fn compare_counts(random: &mut Random, asked: &Asked) -> Compared {
    let (from, hop_limit, size) = (asked.from, asked.hop_limit, asked.size);
    let has_room = asked.places == asked.marks.len() && asked.room >= 256 * asked.marks.len();
    let served = hop_limit <= 7 && asked.is_network() && has_room;
    let found = served.then(|| {
        let (marks, hearings) = (asked.mute(), asked.hearings());
        count(
            &marks,
            &hearings,
            from,
            hop_limit as usize,
            size.min(MOST_SIZE),
            MOST_COUNTED,
        )
    });
    let enough = enough_of(
        random,
        found.as_ref().map(|found| found.as_ref().map(|f| f.times)),
    );
    let wanted = |value: Option<Option<(u64, Vec<u64>)>>| wanted(hop_limit, enough, value);
    let times = found
        .clone()
        .map(|found| found.map(|found| (found.times, found.times_by)));
    lent(random, asked, wanted(times), |lent| {
        network_transmissions(&asked.pairs, from, hop_limit, enough, lent)
    })?;
    let found = found.filter(|_| size <= MOST_SIZE);
    let bytes = found.map(|found| found.map(|found| (found.bytes, found.bytes_by)));
    let enough = enough_of(
        random,
        bytes.as_ref().map(|found| found.as_ref().map(|f| f.0)),
    );
    let wanted = self::wanted(hop_limit, enough, bytes);
    lent(random, asked, wanted, |lent| {
        network_bytes(&asked.pairs, from, hop_limit, size, enough, lent)
    })
}

/// What is enough, mostly near the number itself.
fn enough_of(random: &mut Random, number: Option<Option<u64>>) -> u64 {
    match (number, random.below(4)) {
        (Some(Some(number)), 0) => number,
        (Some(Some(number)), 1) => number + 1,
        (Some(Some(_)), 2) => u64::MAX,
        (Some(Some(number)), _) => random.below(2 * number as usize + 1) as u64,
        _ => random.below(MOST_COUNTED as usize + 1) as u64,
    }
}

/// What the library answers, and what stands in the counts, where they are
/// written.
fn wanted(
    hop_limit: u64,
    enough: u64,
    found: Option<Option<(u64, Vec<u64>)>>,
) -> (Airtime, Option<Vec<u64>>) {
    let number = if hop_limit > 7 { HOP_SETTING } else { 0 };
    let Some(found) = found else {
        let refused = Airtime {
            number,
            ..Airtime::default()
        };
        return (refused, None);
    };
    let told = found.filter(|found| found.0 < enough);
    let answer = Airtime {
        number,
        served: true,
        enough: told.is_none(),
        value: told.as_ref().map_or(0, |told| told.0),
    };
    (answer, Some(told.map_or(vec![], |told| told.1)))
}

/// Asks with lent memory, and compares the answer and what is left there.
fn lent(
    random: &mut Random,
    asked: &Asked,
    (answer, each): (Airtime, Option<Vec<u64>>),
    ask: impl FnOnce(Lent) -> Airtime,
) -> Compared {
    let input = Input {
        bytes: &asked.pairs,
        rest: asked,
    };
    let mut marks = asked.marks.clone();
    let before: Vec<u64> = (0..asked.places).map(|_| random.draw()).collect();
    let bytes = random.bytes(asked.room);
    let (mut counts, mut table) = (before.clone(), bytes.clone());
    let found = ask(Lent {
        marks: &mut marks,
        counts: &mut counts,
        table: &mut table,
    });
    input.same("airtime", found, answer)?;
    input.same_bytes("marks", &marks, &asked.marks)?;
    let (left, cleared) = match each {
        None => (before, bytes),
        Some(each) if each.is_empty() => (vec![0; asked.places], vec![0; asked.room]),
        Some(each) => (each, vec![0; asked.room]),
    };
    input.same("counts", counts, left)?;
    input.same("table", table == cleared, true)
}
