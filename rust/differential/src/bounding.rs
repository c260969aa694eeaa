//! The bounds on transmissions and bytes.

use crate::same::Input;
use crate::Compared;
use generator::Random;
use mant::raw::{most_bytes, most_for_command, most_transmissions, Bound};
use reference::numbers::HOP_SETTING;
use reference::{bound, bytes_bound, command_bound};

/// Compares for few nodes and for very many.
pub fn compare(random: &mut Random) -> Compared {
    let (nodes, hop) = network(random);
    let length = number(random, 4_700);
    let input = Input {
        bytes: &[],
        rest: &format!("{nodes} nodes, hop limit {hop}, length {length}"),
    };
    let most = most_transmissions(nodes, hop);
    input.same("transmissions", most, wanted(hop, bound(nodes, hop)))?;
    let most = most_bytes(nodes, hop, length);
    let reference = bytes_bound(nodes, hop, length);
    input.same("bytes", most, wanted(hop, reference))?;
    commands(random, (nodes, hop))
}

/// Compares what a command and its acknowledgements come to.
fn commands(random: &mut Random, command: (u64, u64)) -> Compared {
    let tries = number(random, 5);
    let answer = network(random);
    let input = Input {
        bytes: &[],
        rest: &format!("{tries} tries, command {command:?}, answer {answer:?}"),
    };
    let most = most_for_command(tries, command.0, command.1, answer.0, answer.1);
    let reference = command_bound(tries, command, answer);
    input.same("command", most, wanted(command.1.max(answer.1), reference))
}

/// A number of nodes, and a hop limit that is mostly one.
fn network(random: &mut Random) -> (u64, u64) {
    let hop = match random.one_in(8) {
        true => number(random, 20),
        false => random.below(8) as u64,
    };
    (number(random, 30), hop)
}

/// A number up to so much, or of any size, often near a power of two.
fn number(random: &mut Random, small: usize) -> u64 {
    let shift = random.below(64) as u32;
    match random.below(8) {
        0..=3 => random.below(small + 1) as u64,
        4 => random.below(1_000_000) as u64,
        5 => (1 << shift) - u64::from(random.flag()),
        6 => random.draw() >> shift,
        _ => u64::MAX - random.below(3) as u64,
    }
}

/// The reference's bound as the library gives it. The reference ends the
/// longest path at 255 addresses for hop limit 7, where the definition has all
/// N; that differs only above 255 nodes, where both are far above 64 bits.
fn wanted(hop: u64, value: Option<u128>) -> Bound {
    if hop > 7 {
        return Bound {
            number: HOP_SETTING,
            ..Bound::default()
        };
    }
    let value = value.and_then(|value| u64::try_from(value).ok());
    Bound {
        number: 0,
        too_large: value.is_none(),
        value: value.unwrap_or(0),
    }
}
