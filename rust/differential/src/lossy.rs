//! Two nodes that send each other commands over a channel that loses some of
//! them (02, W-210), run with the library. Every command ends, acknowledged or
//! reported failed, none is sent more often than set, and none is reported
//! acknowledged that was not delivered.

use crate::Compared;
use generator::{address, good_edition, Random};
use mant::{Deed, Lists, Names, Node, Refusal, Reliable, Sending};
use std::collections::HashSet;

/// How a run goes.
#[derive(Clone, Copy, Debug)]
struct Channel {
    /// Of so many sendings one arrives.
    lost: usize,
    /// A PDU is on its way for so many seconds.
    way: u64,
    delay: u64,
    tries: u64,
}

/// One of the two.
struct Site {
    node: Node,
    other: u16,
    table: Reliable,
    /// The next ID.
    next: u8,
    /// Commands still to be given.
    left: usize,
    /// Those given and not ended: what they are known by, and how often each
    /// was sent.
    open: Vec<(Names, u64)>,
    /// Commands that were delivered here.
    delivered: HashSet<(u16, u8)>,
    /// Commands that ended.
    ended: usize,
}

/// A run of the two.
struct Run {
    channel: Channel,
    sites: [Site; 2],
    /// What is on its way: when it arrives, at which site, and its bytes.
    air: Vec<(u64, usize, Vec<u8>)>,
}

/// One run, to its end.
pub fn compare(random: &mut Random) -> Compared {
    let channel = Channel {
        lost: random.between(1, 4),
        way: random.below(5) as u64,
        delay: random.between(1, 20) as u64,
        tries: random.below(5) as u64,
    };
    let own = address(random);
    let other = own.wrapping_add(random.between(1, 9) as u16);
    let mut run = Run {
        channel,
        sites: [site(random, own, other), site(random, other, own)],
        air: vec![],
    };
    let start = random.below(1_000_000) as u64;
    run.run(random, start)
        .map_err(|words| format!("{words}; {channel:?}, nodes {own} and {other}, from {start}"))
}

/// A site with some commands to give.
fn site(random: &mut Random, own: u16, other: u16) -> Site {
    Site {
        node: Node {
            edition: good_edition(random),
            echo: random.flag(),
            repeating: random.flag(),
            ..Node::new(own)
        },
        other,
        table: Reliable::new(),
        next: random.byte(),
        left: random.between(1, 40),
        open: vec![],
        delivered: HashSet::new(),
        ended: 0,
    }
}

impl Run {
    /// Second after second until both have given and ended all commands.
    fn run(&mut self, random: &mut Random, start: u64) -> Compared {
        let wanted = self.sites.each_ref().map(|site| site.left);
        let longest = 500 + 40 * (self.channel.tries + 2) * self.channel.delay;
        for time in start..=start + longest {
            for site in 0..2 {
                self.give(random, site, time)?;
                self.steps(random, site, time)?;
            }
            self.arrive(random, time)?;
        }
        let ended = self.sites.each_ref().map(|site| site.ended);
        hold(ended == wanted, "a command has not ended")?;
        let free = |site: &Site| *site.table.records() == *Reliable::new().records();
        hold(self.sites.iter().all(free), "a record is in use at the end")
    }

    /// A command is given, retained and sent, unless 16 are retained.
    fn give(&mut self, random: &mut Random, place: usize, time: u64) -> Compared {
        let site = &mut self.sites[place];
        if site.left == 0 || random.one_in(3) {
            return Ok(());
        }
        let fresh = mant::Fresh {
            source: site.node.own,
            destination: Some(site.other),
            hop_limit: random.below(8) as u64,
            with_path: random.flag(),
            reliable: true,
            pdu_id: site.next,
            ..mant::Fresh::default()
        };
        let mut output = [0; Reliable::LIMIT];
        let length = random.below(20);
        let payload = random.bytes(length);
        let length = mant::originate(&fresh, &payload, &mut output).map_err(said)?;
        match site.table.retain(time, &output[..length]) {
            Ok(Deed::Retained(_, names)) => {
                site.left -= 1;
                site.next = site.next.wrapping_add(1);
                site.open.push((names, 1));
                self.send(random, place, time, &output[..length]);
                Ok(())
            }
            Err(Refusal::RecordsInUse) => hold(site.open.len() == 16, "70 with fewer than 16"),
            answered => Err(format!("retaining answered {answered:?}")),
        }
    }

    /// Steps until none is due.
    fn steps(&mut self, random: &mut Random, place: usize, time: u64) -> Compared {
        let Channel { delay, tries, .. } = self.channel;
        for _ in 0..=Reliable::RECORDS {
            let mut output = [0; Reliable::LIMIT];
            let site = &mut self.sites[place];
            match site
                .table
                .retry(time, delay, tries, &mut output)
                .map_err(said)?
            {
                Deed::Nothing => return Ok(()),
                Deed::SentAgain(_, names, length) => {
                    let sent = site.sent(names)?;
                    hold(sent <= 1 + tries, "sent more often than set")?;
                    self.send(random, place, time, &output[..length]);
                }
                Deed::Failed(_, names) => {
                    let sent = site.end(names)?;
                    hold(sent == 1 + tries, "failed before it was sent so often")?;
                }
                deed => return Err(format!("a step did {deed:?}")),
            }
        }
        Err(String::from("more than 16 steps at one moment"))
    }

    /// A transmission, which may be lost.
    fn send(&mut self, random: &mut Random, from: usize, time: u64, pdu: &[u8]) {
        if random.one_in(self.channel.lost) {
            self.air
                .push((time + self.channel.way, 1 - from, pdu.to_vec()));
        }
    }

    /// What arrives now is heard, and its acknowledgement sent.
    fn arrive(&mut self, random: &mut Random, time: u64) -> Compared {
        let air = std::mem::take(&mut self.air);
        let (now, later) = air.into_iter().partition(|(due, ..)| *due <= time);
        self.air = later;
        let now: Vec<(u64, usize, Vec<u8>)> = now;
        for (_, place, pdu) in now {
            self.heard(random, place, time, &pdu)?;
        }
        Ok(())
    }

    /// A site hears a PDU that is for it.
    fn heard(&mut self, random: &mut Random, place: usize, time: u64, pdu: &[u8]) -> Compared {
        let sending = Sending {
            hop_limit: random.below(8) as u64,
            port: random.below(16) as u64,
            time_stamp_request: random.flag(),
            with_path: random.flag(),
        };
        let mut output = [0; 10];
        let site = &mut self.sites[place];
        let (node, lists) = (&site.node, Lists::none());
        let heard = site.table.hear(node, &lists, pdu, &sending, &mut output);
        hold(heard.answer.delivery.is_ok(), "not delivered")?;
        match heard.deed.map_err(said)? {
            Deed::Nothing => Ok(()),
            Deed::Acknowledged(names, length) => {
                site.delivered.insert((names.source, names.pdu_id));
                self.send(random, place, time, &output[..length]);
                Ok(())
            }
            Deed::Freed(_, names) => {
                site.end(names)?;
                let key = (names.source, names.pdu_id);
                let reached = self.sites[1 - place].delivered.contains(&key);
                hold(reached, "acknowledged and not delivered")
            }
            deed => Err(format!("hearing did {deed:?}")),
        }
    }
}

impl Site {
    /// A command was sent again: how often it was sent in all.
    fn sent(&mut self, names: Names) -> Result<u64, String> {
        let mut open = self.open.iter_mut();
        let command = open.find(|command| command.0 == names);
        let command = command.ok_or("a command that is not open was sent")?;
        command.1 += 1;
        Ok(command.1)
    }

    /// A command has ended: how often it was sent in all.
    fn end(&mut self, names: Names) -> Result<u64, String> {
        let place = self.open.iter().position(|command| command.0 == names);
        let command = self.open.remove(place.ok_or("a command ended twice")?);
        self.ended += 1;
        Ok(command.1)
    }
}

/// Refuses with the words where the condition doesn't hold.
fn hold(condition: bool, words: &str) -> Compared {
    match condition {
        true => Ok(()),
        false => Err(String::from(words)),
    }
}

/// A refusal in words.
fn said(refusal: Refusal) -> String {
    refusal.to_string()
}
