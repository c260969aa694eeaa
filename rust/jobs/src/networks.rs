//! The built program `reach` and the reference model on generated networks.

use crate::compare::{compare, Asked, Case, Counted};
use generator::{network, Random};
use reference::reach;

/// As many nodes as the program serves.
const MOST_NODES: usize = 255;

/// Compares on all networks, and says how many differ.
pub fn compare_networks(asked: &Asked) -> Result<(), String> {
    let is_whole = |text: &str| text.contains("\n0 nodes out of reach\n");
    let counted = compare(asked, "reach", case, is_whole)?;
    let Counted { done, such, differ } = counted;
    println!(
        "generated networks, seed {}: {done} asked and compared, {such} of them reached whole, {differ} differ",
        asked.seed
    );
    match differ {
        0 => Ok(()),
        _ => Err(String::from("the program and the model differ")),
    }
}

fn case(random: &mut Random) -> Case {
    let most = [6, 20, 60, MOST_NODES][random.below(4)];
    let network = network(random, most);
    let size = random.flag().then(|| random.between(7, 4_105) as u64);
    Case {
        input: network.text().into_bytes(),
        words: size.map(|size| size.to_string()).into_iter().collect(),
        wanted: reach(&network, size),
        shown: String::new(),
    }
}

#[cfg(test)]
mod tests {
    use super::*;

    #[test]
    fn networks_of_every_kind_arise() {
        let texts: Vec<String> = (0..400)
            .map(|case| reach(&network(&mut Random::for_case(1, case), 20), Some(20)))
            .collect();
        for words in [
            "no chain",
            "hearings, out of reach",
            "path count 3",
            "no hop limit reaches all",
            "all is 4",
            "all is 7",
            "does not repeat",
            "sends it 3 times",
            "no chain leads to",
            "does not reach",
            "no single failure",
        ] {
            let found = texts.iter().filter(|text| text.contains(words)).count();
            assert!((1..400).contains(&found), "{words}: {found} of 400");
        }
    }
}
