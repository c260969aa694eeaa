//! Generated inputs of the library's functions with the model's results, a
//! line each, for a wrapper in another language.
//!
//! A line is a verb, what is asked, `=`, and what is answered: a number, and
//! with number 0 what else there is. Bytes are in hex, `.` for none; what is
//! not there is `-`; a list has `,` between its values, eight lists have `;`.
//! `record` empties the record that each `open` after it is asked with.

use crate::words::{answer, choice, eight, flag, header, hex, list, node, some, written};
use generator::{
    address, any_eight_lists, batch, edition, eight_lists, exchange, exchanged_pdu, network,
    openings, origination, payload_to_send, received, settings, settings_for, to_seal, EightLists,
    Random,
};
use reference::{
    bound, bytes_bound, hear, holds, list_fault, open, originate, reach, read_exchange, read_under,
    seal, walk, write_exchange, Accepted, Choice, Settings, MOST_EXCHANGE, MOST_PDU,
};

/// A kind of line: its share, and what makes it.
type Kind = (usize, fn(&mut Random) -> String);

/// The kinds of line.
const KINDS: [Kind; 11] = [
    (23, read_line),
    (14, originate_line),
    (6, lists_line),
    (1, change_line),
    (30, hear_line),
    (6, walk_line),
    (5, bound_line),
    (6, exchange_line),
    (3, pack_line),
    (5, seal_line),
    (1, open_lines),
];

/// Up to so many nodes in a network.
const NODES: usize = 40;

/// The lines of so many inputs, and of one network in a hundred of them.
pub fn lines(seed: u64, count: u64) -> impl Iterator<Item = String> {
    (0..count).map(move |case| {
        let mut random = Random::for_case(seed, case);
        match case % 100 {
            99 => reach_line(&mut random),
            _ => line(&mut random),
        }
    })
}

/// A line of any kind, by the shares.
fn line(random: &mut Random) -> String {
    let mut drawn = random.below(KINDS.iter().map(|kind| kind.0).sum());
    for (share, made) in KINDS {
        if drawn < share {
            return made(random);
        }
        drawn -= share;
    }
    String::new()
}

/// Reading.
fn read_line(random: &mut Random) -> String {
    let (edition, bytes) = (edition(random), received(random));
    let answered = read_words(edition, &bytes);
    format!("read {edition} {} = {answered}", hex(&bytes))
}

/// What is read.
pub fn read_words(edition: u64, bytes: &[u8]) -> String {
    match read_under(edition, bytes) {
        Ok(shown) => format!("0 {}", header(&shown, bytes)),
        Err(number) => number.to_string(),
    }
}

/// Origination.
fn originate_line(random: &mut Random) -> String {
    let (asked, payload) = (origination(random), payload_to_send(random));
    let mut output = [0; MOST_PDU];
    let answered = written(originate(&asked, &payload, &mut output), &output);
    let (stamp, path) = (flag(asked.time_stamp_request), flag(asked.path));
    let (reliable, encrypted) = (flag(asked.reliable), flag(asked.encrypted));
    let destination = some(asked.destination);
    format!(
        "originate {} {} {destination} {} {} {stamp} {path} {reliable} {} {encrypted} {} = {answered}",
        asked.edition,
        asked.source,
        asked.hop,
        asked.port,
        asked.pdu_id,
        hex(&payload)
    )
}

/// The fault of eight lists with the place of the list that has it, and whether
/// the first of them holds an address.
fn lists_line(random: &mut Random) -> String {
    let lists = match random.one_in(8) {
        true => any_eight_lists(random),
        false => eight_lists(random),
    };
    let address = address(random);
    let held = flag(holds(&lists.0[0], address));
    let fault = list_fault(&lists.lists());
    let number = fault.map_or(0, |fault| fault.number);
    let place = some(fault.map(|fault| fault.list));
    format!(
        "lists {} {address} = {number} {place} {held}",
        eight(&lists)
    )
}

/// A node that changes over.
fn change_line(random: &mut Random) -> String {
    let settings = of_any_edition(random, settings);
    let to = random.pick(&[Choice::None, Choice::First, Choice::Second]);
    let changed = node(&settings.changed_over(to));
    format!("change {} {} = {changed}", node(&settings), choice(to))
}

/// Settings with the number of an edition or of none.
fn of_any_edition(random: &mut Random, made: impl Fn(&mut Random) -> Settings) -> Settings {
    Settings {
        edition: edition(random),
        ..made(random)
    }
}

/// One PDU at one node.
fn hear_line(random: &mut Random) -> String {
    let (bytes, lists) = (received(random), eight_lists(random));
    let settings = of_any_edition(random, |random| settings_for(random, &bytes));
    let mut output = [0; MOST_PDU];
    let heard = hear(&settings, &lists.lists(), &bytes, &mut output);
    let (node, lists) = (node(&settings), eight(&lists));
    let answer = answer(&heard, &bytes, &output[..heard.repeated_length]);
    format!("hear {node} {lists} {} = {answer}", hex(&bytes))
}

/// A batch.
fn walk_line(random: &mut Random) -> String {
    let (bytes, lists) = (batch(random), eight_lists(random));
    let settings = of_any_edition(random, |random| settings_for(random, &bytes));
    let answered = walk_words(&settings, &lists, &bytes);
    let (node, lists) = (node(&settings), eight(&lists));
    format!("walk {node} {lists} {} = {answered}", hex(&bytes))
}

/// Each answer to a batch after its offset, or the number that refuses it.
pub fn walk_words(settings: &Settings, lists: &EightLists, bytes: &[u8]) -> String {
    match walk(settings, &lists.lists(), bytes, &mut [0; MOST_PDU]) {
        Ok(walked) => {
            let steps = walked.steps.iter().map(|step| {
                let answer = answer(&step.answer, &bytes[step.offset..], &step.repeated);
                format!(" {} {answer}", step.offset)
            });
            format!("0{}", steps.collect::<String>())
        }
        Err(number) => number.to_string(),
    }
}

/// The bounds, `-` where 64 bits do not hold one.
fn bound_line(random: &mut Random) -> String {
    let shift = random.below(64);
    let many = random.draw() >> shift;
    let few = random.below(31) as u64;
    let nodes = random.pick(&[few, few, few, many, u64::MAX]);
    let hop = random.pick(&[0, 1, 2, 3, 4, 5, 6, 7, 8, 263, u64::MAX]);
    let size = random.pick(&[6, 20, 4_615, many]);
    let asked = format!("bound {nodes} {hop} {size}");
    let held = |value: Option<u128>| some(value.and_then(|value| u64::try_from(value).ok()));
    match hop {
        0..=7 => {
            let most = held(bound(nodes, hop));
            format!("{asked} = 0 {most} {}", held(bytes_bound(nodes, hop, size)))
        }
        _ => format!("{asked} = 10"),
    }
}

/// An exchange read.
fn exchange_line(random: &mut Random) -> String {
    let bytes = exchange(random);
    format!("exchange {} = {}", hex(&bytes), exchange_words(&bytes))
}

/// The parts of an exchange, and where they lie.
pub fn exchange_words(bytes: &[u8]) -> String {
    match read_exchange(bytes) {
        Ok(parts) => format!(
            "0 {} {} {} {}",
            hex(&bytes[parts.header.clone()]),
            hex(&bytes[parts.payload.clone()]),
            parts.header.start,
            parts.payload.start
        ),
        Err(number) => number.to_string(),
    }
}

/// An exchange written.
fn pack_line(random: &mut Random) -> String {
    let bytes = exchanged_pdu(random);
    let mut output = [0; MOST_EXCHANGE];
    let answered = written(write_exchange(&bytes, &mut output), &output);
    format!("pack {} = {answered}", hex(&bytes))
}

/// A PDU sealed.
fn seal_line(random: &mut Random) -> String {
    let asked = to_seal(random);
    let mut output = [0; MOST_PDU];
    let sealed = seal(&asked.key, asked.number, &asked.bytes, &mut output);
    let answered = written(sealed, &output);
    let (key, bytes) = (hex(&asked.key), hex(&asked.bytes));
    format!("seal {key} {} {bytes} = {answered}", asked.number)
}

/// Openings one after the other from an empty record.
fn open_lines(random: &mut Random) -> String {
    let (mut accepted, openings) = (Accepted::empty(), openings(random));
    let mut lines = String::from("record =");
    for turn in 0..openings.turns {
        let asked = openings.next(random, turn, |source| accepted.get(source));
        let mut output = [0; MOST_PDU];
        let opened = open(&asked.key, &mut accepted, &asked.bytes, &mut output);
        let (key, bytes) = (hex(&asked.key), hex(&asked.bytes));
        let answered = written(opened, &output);
        lines += &format!("\nopen {key} {bytes} = {answered}");
    }
    lines
}

/// A network, and the lines that the program `reach` prints of it, `/` between
/// them.
fn reach_line(random: &mut Random) -> String {
    let network = network(random, NODES);
    let size = random.between(7, 4_105) as u64;
    let lines: Vec<String> = network.lines.iter().map(|line| list(line)).collect();
    let answered = reach(&network, Some(size)).trim_end().replace('\n', "/");
    let (hop_limit, lines, mute) = (network.hop_limit, lines.join(";"), list(&network.mute));
    format!("reach {hop_limit} {lines} {mute} {size} = {answered}")
}

#[cfg(test)]
mod tests {
    use super::*;

    #[test]
    fn every_kind_arises_with_refusals() {
        let text: Vec<String> = lines(1, 3_000).collect();
        let text = text.join("\n");
        for verb in ["read", "originate", "exchange", "pack", "seal", "open"] {
            let of_verb = |line: &&str| line.split(' ').next() == Some(verb);
            let lines = text.lines().filter(of_verb);
            let (good, bad): (Vec<&str>, Vec<&str>) = lines.partition(|line| line.contains(" = 0"));
            assert!(good.len() > 20 && bad.len() > 10, "{verb}");
        }
        for number in [17, 20, 21, 22, 30, 31, 32, 33, 34, 35, 39, 42] {
            assert!(text.contains(&format!(" = {number} ")), "{number}");
        }
        for number in [36, 37, 38, 41] {
            assert!(text.contains(&format!(" = 0 {number} ")), "{number}");
        }
        for number in [1, 2, 3, 4, 5, 6, 10, 11, 12, 13, 16, 17, 54, 57, 58, 59, 63] {
            assert!(text.contains(&format!(" = {number}\n")), "{number}");
        }
        for number in [80, 81, 82, 83, 84, 85, 86, 88] {
            assert!(text.contains(&format!(" = {number}\n")), "{number}");
        }
    }
}
