//! A built program and the reference model on generated inputs.

use generator::Random;
use std::io::{self, Write};
use std::process::{Command, Stdio};
use std::thread;

/// After so many differences the run stops.
const MOST_DIFFERENCES: u64 = 10;

/// A comparison.
pub struct Asked {
    /// The program's file.
    pub program: String,
    /// The seed of the inputs.
    pub seed: u64,
    /// How many inputs.
    pub count: u64,
    /// The first input.
    pub first: u64,
}

/// An input.
pub struct Case {
    /// Its bytes.
    pub input: Vec<u8>,
    /// The program's arguments.
    pub words: Vec<String>,
    /// What the model prints for it.
    pub wanted: String,
    /// What is said of it where the program prints something else, a line.
    pub shown: String,
}

/// How many inputs there were.
pub struct Counted {
    /// In all.
    pub done: u64,
    /// Of them those whose text is as was asked for.
    pub such: u64,
    /// On which the program and the model differ.
    pub differ: u64,
}

/// Compares on all inputs; the verb is the one of `jobs` that asks for it.
pub fn compare(
    asked: &Asked,
    verb: &str,
    case_of: impl Fn(&mut Random) -> Case,
    is_such: impl Fn(&str) -> bool,
) -> Result<Counted, String> {
    let (mut done, mut such, mut differ) = (0, 0, 0);
    while done < asked.count && differ < MOST_DIFFERENCES {
        let number = asked.first.wrapping_add(done);
        let case = case_of(&mut Random::for_case(asked.seed, number));
        let printed = printed_for(&asked.program, &case)
            .map_err(|error| format!("{} cannot be run: {error}", asked.program))?;
        if let Some(words) = difference(&printed, &case.wanted) {
            differ += 1;
            let again = format!("jobs {verb} {} {} 1 {number}", asked.program, asked.seed);
            println!("{words}\n{}again with `{again}`", case.shown);
        }
        such += u64::from(is_such(&case.wanted));
        done += 1;
    }
    Ok(Counted { done, such, differ })
}

/// What the program prints for an input; its status, where that is not 0, is
/// taken as text too.
fn printed_for(program: &str, case: &Case) -> io::Result<Vec<u8>> {
    let mut child = Command::new(program)
        .args(&case.words)
        .stdin(Stdio::piped())
        .stdout(Stdio::piped())
        .spawn()?;
    let input = child.stdin.take();
    let output = thread::scope(|scope| {
        // A program that ends before it has read all is told by its text.
        scope.spawn(move || input.map(|mut input| input.write_all(&case.input)));
        child.wait_with_output()
    })?;
    let mut printed = output.stdout;
    if !output.status.success() {
        printed.extend(output.status.to_string().bytes());
    }
    Ok(printed)
}

/// The first line that differs, if one does.
fn difference(printed: &[u8], wanted: &str) -> Option<String> {
    if printed == wanted.as_bytes() {
        return None;
    }
    let printed = String::from_utf8_lossy(printed);
    let (mut lines, mut right) = (printed.split('\n'), wanted.split('\n'));
    for number in 1.. {
        let (line, other) = (lines.next(), right.next());
        if line != other || line.is_none() {
            let (line, other) = (shown(line), shown(other));
            return Some(format!("line {number}: {line}, should be {other}"));
        }
    }
    None
}

/// The first characters of a line, if there is one.
fn shown(line: Option<&str>) -> String {
    line.map_or(String::from("no line"), |line| {
        format!("{:?}", line.chars().take(80).collect::<String>())
    })
}

#[cfg(test)]
mod tests {
    use super::*;

    #[test]
    fn texts_are_told_apart() {
        assert_eq!(
            difference(b"relay 1\nend 0 0\n", "relay 1\nend 0 0\n"),
            None
        );
        let wanted = "line 2: \"end 1 0\", should be \"end 0 0\"";
        let found = difference(b"relay 1\nend 1 0\n", "relay 1\nend 0 0\n");
        assert_eq!(found.as_deref(), Some(wanted));
        for short in [&b""[..], b"relay 1\n", b"relay 1\nend 0 0"] {
            assert!(difference(short, "relay 1\nend 0 0\n").is_some());
        }
        assert!(difference(b"relay 1\nend 0 0\n\n", "relay 1\nend 0 0\n").is_some());
    }
}
