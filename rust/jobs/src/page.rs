//! Generated inputs of the planner's page with the reference model's answers,
//! a line each, for tests/run_page.
//!
//! The form is that of `lines.rs`, without a verb: what is asked, `=`, and what
//! is answered. A table is one word, with `;` between its rows and `,` between
//! their values.

use crate::lines::{exchange_words, read_words, walk_words};
use crate::words::{eight, flag, hex, list, node, some};
use generator::{
    batch, eight_lists, exchange, good_edition, network, received, settings_for, Random,
};
use reference::{
    bound, bytes_bound, chains, command_bound, count, delivered, failures, least_hop_limit,
    list_fault, read_exchange, walk, Airtime, Lists, Network, Settings,
};

/// A kind of input: its name, and what makes a line of it.
type Kind = (&'static str, fn(&mut Random) -> String);

/// The kinds of input.
const KINDS: [Kind; 5] = [
    ("network", network_line),
    ("pdu", pdu_line),
    ("batch", batch_line),
    ("exchange", exchange_line),
    ("box", box_line),
];

/// The page counts so far at once, and says that it stopped there.
const ENOUGH: u64 = 100_000;

/// Up to so many nodes: above 40 the drawing has no names, above 60 the rows
/// are made later.
const NODES: [usize; 4] = [3, 9, 25, 80];

/// The lines of so many inputs of a kind; None where there is no such kind.
pub fn lines(kind: &str, seed: u64, count: u64) -> Option<impl Iterator<Item = String>> {
    let (_, made) = KINDS.into_iter().find(|(name, _)| *name == kind)?;
    Some((0..count).map(move |case| made(&mut Random::for_case(seed, case))))
}

/// A PDU under one of the two editions.
fn pdu_line(random: &mut Random) -> String {
    let (edition, bytes) = (good_edition(random), received(random));
    let answered = read_words(edition, &bytes);
    format!("{edition} {} = {answered}", hex(&bytes))
}

/// A batch: each PDU after its offset, or the number that refuses it.
fn batch_line(random: &mut Random) -> String {
    let (edition, bytes) = (good_edition(random), batch(random));
    let settings = Settings {
        edition,
        ..Settings::default()
    };
    let answered = match walk(&settings, &Lists::EMPTY, &bytes, &mut []) {
        Ok(walked) => {
            let pdus = walked.steps.iter().map(|step| {
                let read = read_words(edition, &bytes[step.offset..]);
                format!(" {} {read}", step.offset)
            });
            format!("0{}", pdus.collect::<String>())
        }
        Err(number) => number.to_string(),
    };
    format!("{edition} {} = {answered}", hex(&bytes))
}

/// An exchange, and the PDU that its two parts are.
fn exchange_line(random: &mut Random) -> String {
    let (edition, bytes) = (good_edition(random), exchange(random));
    let pdu = read_exchange(&bytes).map_or(String::new(), |parts| {
        let joined = [&bytes[parts.header], &bytes[parts.payload]].concat();
        format!(" {}", read_words(edition, &joined))
    });
    let answered = exchange_words(&bytes);
    format!("{edition} {} = {answered}{pdu}", hex(&bytes))
}

/// A box that hears a batch. Its lists are ranges, so none has an odd number of
/// values. A list at fault is answered with its number and its place.
fn box_line(random: &mut Random) -> String {
    let (bytes, mut lists) = (batch(random), eight_lists(random));
    let settings = settings_for(random, &bytes);
    for list in &mut lists.0 {
        list.truncate(list.len() / 2 * 2);
    }
    let asked = format!("{} {} {}", node(&settings), eight(&lists), hex(&bytes));
    match list_fault(&lists.lists()) {
        Some(fault) => format!("{asked} = {} {}", fault.number, fault.list),
        None => format!("{asked} = {}", walk_words(&settings, &lists, &bytes)),
    }
}

/// A network with a report's size, and a command: its destination if there is
/// another node, how often it is sent again, and the acknowledgement's hop
/// limit. The answers are the least hop limit, the bytes in the worst network,
/// and the tables of nodes, hop limits, originators, failures and the command.
fn network_line(random: &mut Random) -> String {
    let plan = Plan::countable(random);
    let size = random.between(7, 4_105) as u64;
    let others = plan.nodes.len() - 1;
    let to = (others > 0).then(|| random.between(1, others));
    let (tries, back) = (random.below(256) as u64, random.below(8));
    let lines: Vec<String> = plan.network.lines.iter().map(|line| list(line)).collect();
    let worst = bytes_bound(plan.repeaters(&[0]), plan.hop_limit() as u64, size);
    format!(
        "{} {} {} {size} {} {tries} {back} = {} {} {} {} {} {} {}",
        plan.hop_limit(),
        lines.join(";"),
        list(&plan.network.mute),
        some(to.map(|to| plan.nodes[to])),
        some(least_hop_limit(&plan.lengths(0))),
        in_64_bits(worst),
        plan.node_rows(size),
        plan.hop_rows(),
        plan.originator_rows(),
        plan.failure_rows(),
        some(to.map(|to| plan.command(to, tries, back))),
    )
}

/// A network, and the same by its nodes' places.
struct Plan {
    network: Network,
    nodes: Vec<u16>,
    marks: Vec<bool>,
    hearings: Vec<(usize, usize)>,
}

impl Plan {
    /// A network on which every originator's report is counted to its end.
    fn countable(random: &mut Random) -> Plan {
        loop {
            let most = random.pick(&NODES);
            let network = network(random, most);
            let plan = Plan {
                nodes: network.nodes(),
                marks: network.marks(),
                hearings: network.hearings(),
                network,
            };
            if (0..plan.nodes.len()).all(|from| plan.sent(from, 0).is_some()) {
                return plan;
            }
        }
    }

    fn hop_limit(&self) -> usize {
        self.network.hop_limit
    }

    /// What a report of an originator leads to.
    fn sent(&self, from: usize, size: u64) -> Option<Airtime> {
        let (marks, hearings) = (&self.marks, &self.hearings);
        count(marks, hearings, from, self.hop_limit(), size, ENOUGH)
    }

    /// How often a report goes out at a hop limit; a destination does not
    /// repeat it.
    fn times(&self, from: usize, hop_limit: usize, to: Option<usize>) -> Option<u64> {
        let mut marks = self.marks.clone();
        if let Some(to) = to {
            marks[to] = true;
        }
        count(&marks, &self.hearings, from, hop_limit, 0, ENOUGH).map(|found| found.times)
    }

    /// The shortest chains from an originator.
    fn lengths(&self, from: usize) -> Vec<Option<usize>> {
        chains(&self.marks, &self.hearings, from, usize::MAX)
    }

    /// How many nodes repeat, besides some.
    fn repeaters(&self, besides: &[usize]) -> u64 {
        let places = (0..self.nodes.len()).filter(|place| !besides.contains(place));
        places.filter(|place| !self.marks[*place]).count() as u64
    }

    /// Of each node: its address, its shortest chain, whether it is delivered
    /// the report, how often it sends it, and how many bytes.
    fn node_rows(&self, size: u64) -> String {
        let (lengths, sent) = (self.lengths(0), self.sent(0, size));
        rows((0..self.nodes.len()).map(|place| {
            let is_delivered = flag(delivered(self.hop_limit(), lengths[place]));
            let (times, bytes) = sent
                .as_ref()
                .map_or((0, 0), |sent| (sent.times_by[place], sent.bytes_by[place]));
            let (node, length) = (self.nodes[place], some(lengths[place]));
            format!("{node},{length},{is_delivered},{times},{bytes}")
        }))
    }

    /// At each hop limit: how many are delivered the report, how often it goes
    /// out, and how often in the worst network.
    fn hop_rows(&self) -> String {
        let (lengths, repeaters) = (self.lengths(0), self.repeaters(&[0]));
        rows((0..8).map(|hop_limit| {
            let times = some(self.times(0, hop_limit, None));
            let worst = in_64_bits(bound(repeaters, hop_limit as u64));
            format!("{},{times},{worst}", reached(hop_limit, &lengths))
        }))
    }

    /// Of each originator: its address, how many are delivered its report, the
    /// least hop limit, and how often the report goes out.
    fn originator_rows(&self) -> String {
        rows((0..self.nodes.len()).map(|from| {
            let lengths = self.lengths(from);
            let (heard, least) = (
                reached(self.hop_limit(), &lengths),
                least_hop_limit(&lengths),
            );
            let times = some(self.times(from, self.hop_limit(), None));
            format!("{},{heard},{},{times}", self.nodes[from], some(least))
        }))
    }

    /// Of each node whose failure takes something away: its address, whom it
    /// cuts off, and whom it puts out of reach, with `:` between them.
    fn failure_rows(&self) -> String {
        let failures = failures(&self.network);
        rows(failures.iter().map(|failure| {
            let (cut, far) = (list(&failure.cut), list(&failure.far));
            format!("{}:{cut}:{far}", failure.node)
        }))
    }

    /// How often a command and its acknowledgements go out, here and in the
    /// worst network, and one sending of each.
    fn command(&self, to: usize, tries: u64, back: usize) -> String {
        let there = self.times(0, self.hop_limit(), Some(to));
        let answer = self.times(to, back, Some(0));
        let here = there
            .zip(answer)
            .map(|(there, answer)| (tries + 1) * there * (1 + answer));
        let repeaters = self.repeaters(&[0, to]);
        let (command, acknowledgement) = (
            (repeaters, self.hop_limit() as u64),
            (repeaters, back as u64),
        );
        let worst = in_64_bits(command_bound(tries, command, acknowledgement));
        format!("{},{worst},{},{}", some(here), some(there), some(answer))
    }
}

/// How many nodes of these lengths are delivered the report.
fn reached(hop_limit: usize, lengths: &[Option<usize>]) -> usize {
    let is_reached = |length: &&Option<usize>| delivered(hop_limit, **length);
    lengths.iter().filter(is_reached).count()
}

/// A bound, `-` where 64 bits do not hold it.
fn in_64_bits(bound: Option<u128>) -> String {
    some(bound.and_then(|bound| u64::try_from(bound).ok()))
}

/// The rows of a table.
fn rows(rows: impl Iterator<Item = String>) -> String {
    let rows: Vec<String> = rows.collect();
    match rows.is_empty() {
        true => String::from("."),
        false => rows.join(";"),
    }
}

#[cfg(test)]
mod tests {
    use super::*;

    /// The answers to so many inputs of a kind.
    fn answers(kind: &str, count: u64) -> Vec<String> {
        let lines: Vec<String> = lines(kind, 1, count).into_iter().flatten().collect();
        let answer = |line: &String| line.split_once(" = ").map(|(_, answer)| answer.to_string());
        lines.iter().filter_map(answer).collect()
    }

    #[test]
    fn refusals_of_every_number_arise() {
        let numbers: [(&str, &[u8]); 4] = [
            ("pdu", &[0, 1, 2, 3, 4, 5, 6]),
            ("batch", &[0, 54]),
            ("exchange", &[0, 1, 2, 3, 5, 6, 57, 58, 59, 63]),
            ("box", &[0, 20, 22, 54]),
        ];
        for (kind, numbers) in numbers {
            let answers = answers(kind, 1_000);
            assert_eq!(answers.len(), 1_000);
            for number in numbers {
                let number = number.to_string();
                let is_it = |answer: &String| answer.split(' ').next() == Some(number.as_str());
                assert!(answers.iter().any(is_it), "{kind}: {number}");
            }
        }
    }

    #[test]
    fn networks_of_every_kind_arise() {
        let answers = answers("network", 200);
        let tables: Vec<Vec<&str>> = answers
            .iter()
            .map(|line| line.split(' ').collect())
            .collect();
        for place in [0, 1, 3, 6] {
            let found = tables.iter().filter(|table| table[place].contains('-'));
            assert!((1..200).contains(&found.count()), "{place}");
        }
        let unharmed = tables.iter().filter(|table| table[5] == ".");
        assert!((1..200).contains(&unharmed.count()));
        let mut originators = tables.iter().flat_map(|table| table[4].split(';'));
        assert!(originators.all(|row| !row.ends_with('-')));
    }

    #[test]
    fn no_other_kind_is_known() {
        assert!(lines("reach", 1, 1).is_none());
    }
}
