//! Editions, settings of a node and of origination.

use crate::random::Random;
use crate::shape::address;
use reference::{read, Choice, Header, Origination, Settings, EDITION_1_1, EDITION_1_2};

/// Numbers that are no edition: beside the two, and those that would be one of
/// them in fewer bits.
const NO_EDITIONS: [u64; 10] = [
    0,
    1,
    2,
    10,
    13,
    256 + 11,
    65_536 + 12,
    (1 << 32) + 11,
    (1 << 32) + 12,
    u64::MAX,
];

/// One of the two editions.
pub fn good_edition(random: &mut Random) -> u64 {
    random.pick(&[EDITION_1_1, EDITION_1_2])
}

/// The number of an edition, once in eight times of none.
pub fn edition(random: &mut Random) -> u64 {
    match random.one_in(8) {
        true => random.pick(&NO_EDITIONS),
        false => good_edition(random),
    }
}

/// Settings of a node under one of the two editions; repeating is mostly on and
/// each kind of list mostly off, so that many PDUs come through.
pub fn settings(random: &mut Random) -> Settings {
    Settings {
        edition: good_edition(random),
        own_address: address(random),
        echo: random.flag(),
        repeating: !random.one_in(5),
        source_pass: choice(random),
        source_reject: choice(random),
        destination_pass: choice(random),
        destination_reject: choice(random),
    }
}

/// A list of a kind, mostly none.
fn choice(random: &mut Random) -> Choice {
    match random.below(8) {
        0 => Choice::First,
        1 => Choice::Second,
        _ => Choice::None,
    }
}

/// Settings of a node that hears these bytes: its own address is often one of
/// the PDU at their start, mostly the source.
pub fn settings_for(random: &mut Random, received: &[u8]) -> Settings {
    let settings = settings(random);
    let met = match read(received) {
        Ok(header) => address_of(random, &header),
        Err(_) => None,
    };
    Settings {
        own_address: met.unwrap_or(settings.own_address),
        ..settings
    }
}

/// An address of a PDU: source, destination, or one of the path's, if it has
/// such a one; now and then none.
fn address_of(random: &mut Random, header: &Header) -> Option<u16> {
    let path = header.path.as_deref().unwrap_or(&[]);
    match random.below(8) {
        0..=1 => Some(header.source),
        2 => header.destination,
        3 => path.first().copied(),
        4 if !path.is_empty() => Some(random.pick(path)),
        5 => path.last().copied(),
        _ => None,
    }
}

/// Settings of origination, some to be refused.
pub fn origination(random: &mut Random) -> Origination {
    Origination {
        edition: edition(random),
        encrypted: random.one_in(3),
        reliable: random.one_in(3),
        time_stamp_request: random.flag(),
        path: random.flag(),
        port: setting(random, 15),
        hop: setting(random, 7),
        source: address(random),
        destination: (!random.one_in(3)).then(|| address(random)),
        pdu_id: random.byte(),
    }
}

/// A number up to the most allowed, or once in eight times one above it,
/// among them those that look allowed when trimmed.
pub fn setting(random: &mut Random, most: u64) -> u64 {
    if !random.one_in(8) {
        return random.below(most as usize + 1) as u64;
    }
    let low = random.below(most as usize + 1) as u64;
    match random.below(5) {
        0 => most + 1,
        1 => most + 1 + low,
        2 => 256 + low,
        3 => (1 << 32) + low,
        _ => u64::MAX,
    }
}

/// A payload to send, some too long.
pub fn payload_to_send(random: &mut Random) -> Vec<u8> {
    let length = match random.below(16) {
        0..=1 => 0,
        2..=9 => random.between(1, 40),
        10..=11 => random.between(0, 4_095),
        12..=13 => 4_095,
        14 => 4_096,
        _ => random.between(4_090, 5_000),
    };
    random.bytes(length)
}

#[cfg(test)]
mod tests {
    use super::*;
    use crate::lists::good_eight_lists;
    use crate::received::received;
    use reference::{hear, originate};

    /// Reports of the node itself, with its settings and what was received.
    fn own_reports(random: &mut Random) -> Vec<(Settings, Header, Vec<u8>)> {
        let mut reports = vec![];
        for _ in 0..20_000 {
            let bytes = received(random);
            let settings = settings_for(random, &bytes);
            let Ok(header) = read(&bytes) else {
                continue;
            };
            if header.source == settings.own_address {
                reports.push((settings, header, bytes));
            }
        }
        reports
    }

    #[test]
    fn own_reports_of_every_kind_arise() {
        let mut counts = [[[0; 8]; 3]; 2];
        for (settings, header, _) in own_reports(&mut Random::from_seed(1)) {
            let path = match &header.path {
                None => 0,
                Some(path) if !path.contains(&header.source) => 1,
                Some(_) => 2,
            };
            let hop_limit = usize::from(header.hop_limit);
            counts[usize::from(settings.echo)][path][hop_limit] += 1;
        }
        let least = counts.iter().flatten().flatten().min();
        assert!(least.is_some_and(|least| *least > 5), "{counts:?}");
    }

    #[test]
    fn every_number_of_origination_arises() {
        let mut random = Random::from_seed(1);
        let mut counts = [[0; 18]; 3];
        for _ in 0..20_000 {
            let settings = origination(&mut random);
            let payload = payload_to_send(&mut random);
            let (number, _) = originate(&settings, &payload, &mut [0; 60]);
            let edition = match settings.edition {
                EDITION_1_1 => 1,
                EDITION_1_2 => 2,
                _ => 0,
            };
            counts[edition][usize::from(number)] += 1;
        }
        for number in [0, 10, 11, 12, 13, 14] {
            assert!(counts[1][number].min(counts[2][number]) > 100, "{counts:?}");
        }
        assert!(counts[1][16] > 100 && counts[2][16] == 0, "{counts:?}");
        assert_eq!(counts[0].iter().sum::<usize>(), counts[0][17]);
        assert!(counts[0][17] > 1_000, "{counts:?}");
    }

    #[test]
    fn lists_would_drop_own_reports() {
        let mut random = Random::from_seed(1);
        let mut counts = [0; 256];
        for (settings, _, bytes) in own_reports(&mut random) {
            let lists = good_eight_lists(&mut random);
            let [off, on] = [false, true].map(|echo| {
                let settings = Settings { echo, ..settings };
                hear(&settings, &lists.lists(), &bytes, &mut []).delivery
            });
            counts[usize::from(off)] += usize::from(on == 42);
        }
        for number in [31, 32, 33, 34] {
            assert!(counts[number] > 50, "{number}: {counts:?}");
        }
    }
}
