//! A network (02, W-208): who hears whom, and who does not repeat the report.

/// A network. The first node of the first line is the originator.
#[derive(Clone, Debug, Default, PartialEq, Eq)]
pub struct Network {
    /// The report's hop limit.
    pub hop_limit: usize,
    /// For each line a node, and then the nodes that hear it.
    pub lines: Vec<Vec<u16>>,
    /// The nodes that do not repeat the report; each has a line.
    pub mute: Vec<u16>,
}

impl Network {
    /// The text of the network, as the program `reach` reads it.
    pub fn text(&self) -> String {
        let mut text = format!("{}\n", self.hop_limit);
        for line in &self.lines {
            let mut words: Vec<String> = line.iter().map(u16::to_string).collect();
            if self.mute.contains(&line[0]) {
                words.insert(1, String::from("-"));
            }
            text += &(words.join(" ") + "\n");
        }
        text
    }

    /// The nodes in the order in which they are named.
    pub fn nodes(&self) -> Vec<u16> {
        let mut nodes = vec![];
        for node in self.lines.iter().flatten() {
            if !nodes.contains(node) {
                nodes.push(*node);
            }
        }
        nodes
    }

    /// Each sender and a node that hears it, by their places among the nodes,
    /// as they are said.
    pub fn hearings(&self) -> Vec<(usize, usize)> {
        let nodes = self.nodes();
        let place = |node: &u16| nodes.iter().position(|other| other == node).unwrap_or(0);
        let line = |line: &Vec<u16>| -> Vec<(usize, usize)> {
            let sender = place(&line[0]);
            line[1..].iter().map(|node| (sender, place(node))).collect()
        };
        self.lines.iter().flat_map(line).collect()
    }

    /// Of each node whether it does not repeat the report.
    pub fn marks(&self) -> Vec<bool> {
        let nodes = self.nodes();
        nodes.iter().map(|node| self.mute.contains(node)).collect()
    }
}
