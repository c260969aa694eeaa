//! Compares the library, through its C boundary, with the reference on
//! generated inputs: every number, field, delivered part and output byte.
//!
//! `differential [seed [count [first]]]`: the seed of the inputs (1), how many
//! (2,000 for each share of a kind), and the first (0), so that one input can
//! be run alone.

mod bounding;
mod by_hand;
mod counting;
mod exchanging;
mod flooding;
mod guarded;
mod hearing;
mod lent;
mod listing;
mod lossy;
mod memory;
mod networking;
mod originating;
mod output;
mod queueing;
mod reading;
mod record;
mod retaining;
mod same;
mod sealing;
mod table;
mod walking;

use generator::Random;
use std::panic::{catch_unwind, AssertUnwindSafe};
use std::process::ExitCode;
use std::time::Instant;

/// What a comparison answers: nothing, or what differs and the input in hex.
type Compared = Result<(), String>;

/// After so many differences the run stops.
const MOST_DIFFERENCES: u64 = 10;

/// A kind of input: its name, its share, and its comparison.
type Kind = (&'static str, usize, fn(&mut Random) -> Compared);

/// The kinds of input.
const KINDS: [Kind; 22] = [
    ("reading and writing again", 25, reading::compare),
    ("origination", 11, originating::compare),
    ("blocks of lists", 6, listing::compare),
    ("lists laid into a block", 4, listing::compare_laying),
    ("nodes that change over", 1, listing::compare_choosing),
    ("one PDU at one node", 38, hearing::compare),
    ("batches", 9, walking::compare),
    ("bounds", 5, bounding::compare),
    ("networks", 1, networking::compare),
    ("floods", 1, flooding::compare),
    ("histories of a table of stations", 6, counting::compare),
    ("tables put together by hand", 1, by_hand::compare),
    ("exchanges read", 6, exchanging::compare_reading),
    ("exchanges written", 3, exchanging::compare_writing),
    ("walks over elements", 3, exchanging::compare_walk),
    ("histories of retained PDUs", 6, retaining::compare),
    ("two nodes and a channel that loses", 1, lossy::compare),
    ("histories of a queue", 6, queueing::compare_history),
    ("arbitrary memory of a queue", 2, queueing::compare_by_hand),
    ("PDUs sealed", 6, sealing::compare_sealing),
    ("histories of openings", 6, sealing::compare_history),
    ("records put together by hand", 1, sealing::compare_by_hand),
];

/// What the arguments ask for.
struct Asked {
    seed: u64,
    count: u64,
    first: u64,
}

fn main() -> ExitCode {
    match asked() {
        Ok(asked) if compare_all(&asked) == 0 => ExitCode::SUCCESS,
        Ok(_) => ExitCode::FAILURE,
        Err(words) => {
            eprintln!("differential: {words}");
            ExitCode::FAILURE
        }
    }
}

/// Reads the arguments.
fn asked() -> Result<Asked, String> {
    let mut numbers = [1, 2_000 * shares() as u64, 0];
    let mut arguments = std::env::args().skip(1);
    for (number, argument) in numbers.iter_mut().zip(arguments.by_ref()) {
        *number = argument
            .parse()
            .map_err(|_| format!("`{argument}` is not a number; [seed [count [first]]]"))?;
    }
    if arguments.next().is_some() {
        return Err(String::from("at most [seed [count [first]]]"));
    }
    let [seed, count, first] = numbers;
    Ok(Asked { seed, count, first })
}

/// Compares on all inputs and gives how many differ.
fn compare_all(asked: &Asked) -> u64 {
    let started = Instant::now();
    println!("seed {}", asked.seed);
    let mut counts = [0_u64; KINDS.len()];
    let (mut done, mut differ) = (0, 0);
    while done < asked.count && differ < MOST_DIFFERENCES {
        let case = asked.first.wrapping_add(done);
        let mut random = Random::for_case(asked.seed, case);
        let kind = kind(&mut random);
        counts[kind] += 1;
        if let Err(words) = compare_one(kind, &mut random) {
            differ += 1;
            let again = format!("differential {} 1 {case}", asked.seed);
            println!("{}: {words}\nagain with `{again}`", KINDS[kind].0);
        }
        done += 1;
        show_progress(done, asked.count);
    }
    for (count, kind) in counts.iter().zip(KINDS) {
        println!("{count:>9} of {}", kind.0);
    }
    println!("{:.1} s", started.elapsed().as_secs_f64());
    println!("differential: {done} inputs, {differ} differ");
    differ
}

/// Compares on one input; a panic is a difference like another.
fn compare_one(kind: usize, random: &mut Random) -> Compared {
    let run = AssertUnwindSafe(|| KINDS[kind].2(random));
    catch_unwind(run).unwrap_or_else(|_| Err(String::from("it panicked")))
}

/// The shares of all kinds.
fn shares() -> usize {
    KINDS.iter().map(|kind| kind.1).sum()
}

/// The kind of an input, by the shares.
fn kind(random: &mut Random) -> usize {
    let mut drawn = random.below(shares());
    for (place, kind) in KINDS.iter().enumerate() {
        if drawn < kind.1 {
            return place;
        }
        drawn -= kind.1;
    }
    0
}

/// A line at every twentieth of the way.
fn show_progress(done: u64, count: u64) {
    let step = (count / 20).max(1);
    if done.is_multiple_of(step) {
        eprintln!("{done} of {count}");
    }
}
