//! Floods: one fresh PDU with a path among nodes with echo on (01, "Checked
//! by hand", last line), run with the library. A node hears a transmission at
//! most once, the node at the source address too, which the bound does not
//! count (02, W-203), and has edition 1.1 or 1.2 (W-209). Each answer is
//! compared with the reference's.

use crate::same::{hex, lists, wrapped, wrapped_node};
use crate::Compared;
use differential::{answer, fresh};
use generator::{address, good_block, good_edition, origination, settings, Block, Random};
use mant::{most_bytes, most_transmissions};
use reference::{hear, Origination, Settings, EDITION_1_2, MOST_PDU};
use std::collections::{HashSet, VecDeque};

/// A node of the network.
struct Node {
    settings: Settings,
    lists: Block,
}

/// How the next reception is chosen from those that wait.
#[derive(Clone, Copy)]
enum Order {
    Newest,
    Oldest,
    Any,
}

/// A run of the network.
struct Flood {
    nodes: Vec<Node>,
    /// The source address of the fresh PDU.
    source: u16,
    order: Order,
    /// Some receptions are missed.
    lossy: bool,
    /// What went out, in order.
    sent: Vec<Vec<u8>>,
    /// Receptions that wait: the node and the transmission, by place.
    waiting: VecDeque<(usize, usize)>,
    most: u64,
}

/// Refuses with the words where the condition doesn't hold.
fn hold(condition: bool, words: &str) -> Compared {
    if condition {
        Ok(())
    } else {
        Err(String::from(words))
    }
}

/// A flood never passes the bound, never sends the same path twice, and where
/// all nodes repeat and hear everything it reaches the bound.
pub fn compare(random: &mut Random) -> Compared {
    let open = random.flag();
    let asked = origination(random);
    let nodes = network(random, asked.source, open);
    let fresh = fresh_pdu(random, &nodes, asked, open)?;
    let addresses = nodes.iter().map(|node| node.settings.own_address);
    let addresses: Vec<u16> = addresses.collect();
    let shown = format!(
        "fresh PDU {}, nodes {addresses:?}, open {open}",
        hex(&fresh)
    );
    run(random, nodes, open, fresh).map_err(|words| format!("{words}; {shown}"))
}

/// Runs one flood and checks what went out.
fn run(random: &mut Random, nodes: Vec<Node>, open: bool, fresh: Vec<u8>) -> Compared {
    let header = mant::read(EDITION_1_2, &fresh).map_err(|refusal| refusal.to_string())?;
    let (hop, length) = (u64::from(header.hop_limit), fresh.len() as u64);
    let count = others(&nodes, header.source) as u64;
    let most = of(most_transmissions(count, hop))?;
    let most_bytes = of(most_bytes(count, hop, length))?;
    let mut flood = Flood {
        nodes,
        source: header.source,
        order: random.pick(&[Order::Newest, Order::Oldest, Order::Any]),
        lossy: !open && random.flag(),
        sent: vec![],
        waiting: VecDeque::new(),
        most,
    };
    flood.run(random, fresh)?;
    check_paths(&flood.sent)?;
    let bytes: u64 = flood.sent.iter().map(|pdu| pdu.len() as u64).sum();
    hold(bytes <= most_bytes, "the bytes bound was passed")?;
    if open {
        hold(flood.sent.len() as u64 == most, "bound not reached")?;
        hold(bytes == most_bytes, "bytes bound not reached")?;
    }
    Ok(())
}

/// A bound that is there.
fn of(bound: Result<Option<u64>, mant::Refusal>) -> Result<u64, String> {
    let bound = bound.map_err(|refusal| refusal.to_string())?;
    bound.ok_or(String::from("no bound"))
}

/// Up to six nodes with echo on and addresses of their own, and mostly the
/// node at the source address among them; in an open network all repeat and no
/// list is on.
fn network(random: &mut Random, source: u16, open: bool) -> Vec<Node> {
    let count = random.between(0, 6);
    let mut nodes: Vec<Node> = vec![];
    if !random.one_in(4) {
        nodes.push(node(random, source, open));
    }
    while others(&nodes, source) < count {
        let own_address = address(random);
        if own_address != source && !has(&nodes, own_address) {
            let place = random.between(0, nodes.len());
            nodes.insert(place, node(random, own_address, open));
        }
    }
    nodes
}

/// How many nodes the bound counts: those that are not at the source address.
fn others(nodes: &[Node], source: u16) -> usize {
    let counts = |node: &&Node| node.settings.own_address != source;
    nodes.iter().filter(counts).count()
}

/// Is one of the nodes at the address?
fn has(nodes: &[Node], address: u16) -> bool {
    nodes
        .iter()
        .any(|node| node.settings.own_address == address)
}

/// One node.
fn node(random: &mut Random, own_address: u16, open: bool) -> Node {
    let chosen = match open || random.flag() {
        true => Settings {
            repeating: true,
            ..Settings::default()
        },
        false => settings(random),
    };
    Node {
        settings: Settings {
            edition: good_edition(random),
            own_address,
            echo: true,
            ..chosen
        },
        lists: good_block(random),
    }
}

/// A fresh PDU with the path bit; in an open network it is for none of the
/// nodes.
fn fresh_pdu(
    random: &mut Random,
    nodes: &[Node],
    asked: Origination,
    open: bool,
) -> Result<Vec<u8>, String> {
    let wanted = asked.destination;
    let destination = wanted.filter(|address| !(open && has(nodes, *address)));
    let edition = good_edition(random);
    let asked = Origination {
        edition,
        encrypted: edition == EDITION_1_2 && asked.encrypted,
        reliable: destination.is_some() && random.flag(),
        path: true,
        port: random.below(16) as u64,
        hop: random.below(8) as u64,
        destination,
        ..asked
    };
    let payload_length = random.below(12);
    let mut out = [0; MOST_PDU];
    let payload = random.bytes(payload_length);
    let written = mant::raw::originate(fresh(&asked, 0), &payload, &mut out);
    hold(written.number == 0, "the fresh PDU was refused")?;
    Ok(out[..written.length].to_vec())
}

impl Flood {
    /// Runs until no reception waits, or the bound is passed.
    fn run(&mut self, random: &mut Random, fresh: Vec<u8>) -> Compared {
        self.send(fresh)?;
        while let Some((node, transmission)) = self.next(random) {
            if self.lossy && random.one_in(4) {
                continue;
            }
            if let Some(repeated) = self.heard(node, transmission)? {
                let own_address = self.nodes[node].settings.own_address;
                hold(own_address != self.source, "it repeated its own report")?;
                self.send(repeated)?;
            }
        }
        Ok(())
    }

    /// A transmission, which each node may hear once.
    fn send(&mut self, pdu: Vec<u8>) -> Compared {
        let transmission = self.sent.len();
        self.sent.push(pdu);
        let nodes = 0..self.nodes.len();
        self.waiting.extend(nodes.map(|node| (node, transmission)));
        let within = self.sent.len() as u64 <= self.most;
        hold(within, "the bound was passed")
    }

    /// The next reception.
    fn next(&mut self, random: &mut Random) -> Option<(usize, usize)> {
        match self.order {
            Order::Newest => self.waiting.pop_back(),
            Order::Oldest => self.waiting.pop_front(),
            Order::Any => {
                let place = random.below(self.waiting.len().max(1));
                self.waiting.swap_remove_back(place)
            }
        }
    }

    /// What a node sends on after hearing a transmission, if it does.
    fn heard(&self, node: usize, transmission: usize) -> Result<Option<Vec<u8>>, String> {
        let Node {
            settings,
            lists: eight,
        } = &self.nodes[node];
        let (eight, received) = (eight.lists(), &self.sent[transmission]);
        let (mut out, mut other) = ([0; 64], [0; 64]);
        let laid = lists(&eight).map_err(|fault| fault.to_string())?;
        let heard = mant::hear(&wrapped_node(settings), &laid, received, &mut out);
        let wanted = answer(&hear(settings, &eight, received, &mut other));
        if heard != wrapped(&wanted) || out != other {
            return Err(format!(
                "library {heard:?} {}, reference {wanted:?} {}; input {}, {settings:?}, {eight:?}",
                hex(&out),
                hex(&other),
                hex(received)
            ));
        }
        Ok(heard.repeat.ok().map(|length| out[..length].to_vec()))
    }
}

/// No path goes out twice, and none has an address twice.
fn check_paths(sent: &[Vec<u8>]) -> Compared {
    let mut paths = HashSet::new();
    for pdu in sent {
        let header = mant::read(EDITION_1_2, pdu).map_err(|refusal| refusal.to_string())?;
        let count = header.path_count.ok_or("sent without a path")?;
        let places = 0..usize::from(count);
        let path: Vec<u16> = places
            .filter_map(|place| mant::path_address(pdu, place))
            .collect();
        let addresses: HashSet<&u16> = path.iter().collect();
        hold(addresses.len() == path.len(), "an address twice in a path")?;
        hold(paths.insert(path), "the same path sent twice")?;
    }
    Ok(())
}
