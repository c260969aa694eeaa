//! Compares the built programs with the reference model.
//!
//! - `jobs print` prints what `relay` must print for the job on standard input.
//! - `jobs compare PROGRAM [seed [count [first]]]` relays generated jobs by the
//!   program and compares its whole text with the model's. The defaults are seed
//!   1, 1,000 jobs, and 0 for the first, so that one job can be run alone.
//! - `jobs reach PROGRAM [seed [count [first]]]` does the same with the program
//!   `reach` and generated networks.
//! - `jobs lines SEED COUNT` prints generated inputs of the library's functions,
//!   with what the model returns.
//! - `jobs page KIND SEED COUNT` does so for the planner's page: `network`, `pdu`,
//!   `batch`, `exchange` or `box`.

mod compare;
mod lines;
mod networks;
mod page;
mod relaying;
mod words;

use compare::Asked;
use networks::compare_networks;
use relaying::compare_jobs;
use std::io::{self, BufWriter, Read, Write};
use std::process::ExitCode;

const USE: &str = "use: jobs print, or jobs compare PROGRAM [seed [count [first]]], \
or jobs reach and the same, or jobs lines SEED COUNT, or jobs page KIND SEED COUNT";

fn main() -> ExitCode {
    let words: Vec<String> = std::env::args().skip(1).collect();
    let done = match words.first().map(String::as_str) {
        Some("print") if words.len() == 1 => print().map_err(|error| error.to_string()),
        Some("compare") => asked(&words[1..]).and_then(|asked| compare_jobs(&asked)),
        Some("reach") => asked(&words[1..]).and_then(|asked| compare_networks(&asked)),
        Some("lines") if words.len() == 3 => {
            inputs(&words[1..], |seed, count| Some(lines::lines(seed, count)))
        }
        Some("page") if words.len() == 4 => inputs(&words[2..], |seed, count| {
            page::lines(&words[1], seed, count)
        }),
        _ => Err(String::from(USE)),
    };
    match done {
        Ok(()) => ExitCode::SUCCESS,
        Err(words) => {
            eprintln!("jobs: {words}");
            ExitCode::FAILURE
        }
    }
}

/// Prints the reading's text for the job on standard input.
fn print() -> io::Result<()> {
    let mut job = vec![];
    io::stdin().read_to_end(&mut job)?;
    io::stdout().write_all(reference::relay(&job).as_bytes())
}

/// Prints the lines of generated inputs, by their seed and how many.
fn inputs<L: Iterator<Item = String>>(
    words: &[String],
    lines: impl Fn(u64, u64) -> Option<L>,
) -> Result<(), String> {
    let lines = lines(number(&words[0])?, number(&words[1])?).ok_or(USE)?;
    let mut output = BufWriter::new(io::stdout().lock());
    for line in lines {
        writeln!(output, "{line}").map_err(|error| error.to_string())?;
    }
    output.flush().map_err(|error| error.to_string())
}

/// Reads a number.
fn number(word: &str) -> Result<u64, String> {
    word.parse()
        .map_err(|_| format!("`{word}` is not a number; {USE}"))
}

/// Reads the arguments of a comparison.
fn asked(words: &[String]) -> Result<Asked, String> {
    let (program, words) = words.split_first().ok_or(USE)?;
    let mut numbers = [1, 1_000, 0];
    if words.len() > numbers.len() {
        return Err(String::from(USE));
    }
    for (place, word) in numbers.iter_mut().zip(words) {
        *place = number(word)?;
    }
    let [seed, count, first] = numbers;
    let program = program.clone();
    Ok(Asked {
        program,
        seed,
        count,
        first,
    })
}
