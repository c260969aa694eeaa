//! The stations that a box has heard (02, W-201).

use crate::raw::{self, STATION_LIMIT, STATION_WORDS};
use crate::{Answer, Lists, Node, Refusal};
use std::fmt;

/// A station that was heard. The counts stop at 65,535, each by itself.
#[derive(Clone, Copy, Debug, PartialEq, Eq)]
pub struct Station {
    /// Its address.
    pub address: u16,
    /// The PDUs read from it.
    pub reads: u16,
    /// Those of them that echo dropped.
    pub echoes: u16,
    /// The least path count of those that had the path bit; none while none
    /// had it.
    pub shortest_path: Option<u16>,
}

/// What a table counts of a PDU that was read.
#[derive(Clone, Copy, Debug, Default, PartialEq, Eq)]
pub struct Heard {
    /// Source address.
    pub source: u16,
    /// The node returned 30 or 42 for it.
    pub echo: bool,
    /// How many addresses its path has, if there is a path.
    pub path_count: Option<u8>,
}

/// What a node does with one PDU, and what its table does.
#[derive(Clone, Debug, PartialEq, Eq)]
pub struct Listened {
    /// The node's answer, whatever the table holds.
    pub answer: Answer,
    /// 55, if the source is new and the table full.
    pub table: Result<(), Refusal>,
}

/// The stations that a box has heard, at most 128, by rising address. It begins
/// empty. Two tables are equal if they list the same stations.
#[derive(Clone)]
pub struct Stations {
    words: [u16; STATION_WORDS],
}

impl Stations {
    /// So many stations are held at most.
    pub const LIMIT: usize = STATION_LIMIT;
    /// So many words hold them.
    pub const WORDS: usize = STATION_WORDS;

    /// An empty table.
    pub const fn new() -> Stations {
        Stations::from_words([0; STATION_WORDS])
    }

    /// The table in these words, which `include/mant.h` describes. Any words
    /// are a table. If the addresses do not rise, a station may not be found by
    /// its address.
    pub const fn from_words(words: [u16; STATION_WORDS]) -> Stations {
        Stations { words }
    }

    /// The words that hold the table, to be kept elsewhere.
    pub const fn words(&self) -> &[u16; STATION_WORDS] {
        &self.words
    }

    /// How many stations are held.
    pub fn len(&self) -> usize {
        raw::stations_held(&self.words)
    }

    /// Is none held?
    pub fn is_empty(&self) -> bool {
        self.len() == 0
    }

    /// The station with this address. Refusal: 56, if it is not held.
    pub fn get(&self, address: u16) -> Result<Station, Refusal> {
        Station::found(raw::station_of(&self.words, address))
    }

    /// The station at a place by rising address, the first at 0. None past the
    /// last one.
    pub fn at(&self, place: usize) -> Option<Station> {
        Station::found(raw::station_at(&self.words, place)).ok()
    }

    /// The stations by rising address.
    pub fn iter(&self) -> impl Iterator<Item = Station> + '_ {
        (0..self.len()).filter_map(|place| self.at(place))
    }

    /// Removes a station. Refusal: 56, if it is not held. Heard again, it
    /// starts anew.
    pub fn remove(&mut self, address: u16) -> Result<(), Refusal> {
        Refusal::check(raw::remove_station(&mut self.words, address))
    }

    /// Counts a PDU that was read. Refusal: 55, if its source is new and the
    /// table full.
    pub fn count(&mut self, heard: &Heard) -> Result<(), Refusal> {
        Refusal::check(raw::count_heard(&mut self.words, heard.raw()))
    }

    /// Counts the PDU at the start of the received bytes by the node's answer
    /// for it, as after a step of a walk. If none was read, it counts nothing.
    /// Pass only the answer for these bytes: that is not checked. Refusal: 55,
    /// if its source is new and the table full.
    pub fn count_answer(&mut self, received: &[u8], answer: &Answer) -> Result<(), Refusal> {
        let answer = answer.raw();
        Refusal::check(raw::count_answer(&mut self.words, received, answer))
    }

    /// [`crate::hear`], then [`Stations::count_answer`]. Every PDU that was
    /// read counts, also a dropped one. A full table changes nothing in the
    /// node's answer.
    ///
    /// ```
    /// use mant::{Lists, Node, Refusal, Stations};
    ///
    /// let (node, lists) = (Node::new(2000), Lists::none());
    /// let report = [0x02, 0x00, 0x10, 0x01, 0x03, 0xE8, 0x00, 0x2A];
    /// let (mut stations, mut repeated) = (Stations::new(), [0; 10]);
    /// let heard = stations.hear(&node, &lists, &report, &mut repeated);
    /// assert_eq!((heard.answer.repeat, heard.table), (Ok(10), Ok(())));
    /// let echo = stations.hear(&node, &lists, &repeated, &mut []);
    /// assert_eq!(echo.answer.delivery, Err(Refusal::Echo));
    /// let station = stations.get(1000)?;
    /// assert_eq!((station.reads, station.echoes, station.shortest_path), (2, 1, Some(0)));
    /// # Ok::<(), mant::Refusal>(())
    /// ```
    pub fn hear(
        &mut self,
        node: &Node,
        lists: &Lists,
        received: &[u8],
        output: &mut [u8],
    ) -> Listened {
        let (node, lists) = (node.raw(), lists.words());
        let listened = raw::hear_and_count(node, lists, received, output, &mut self.words);
        Listened {
            answer: Answer::of(listened.answer),
            table: Refusal::check(listened.table_number),
        }
    }
}

impl Default for Stations {
    fn default() -> Stations {
        Stations::new()
    }
}

impl PartialEq for Stations {
    fn eq(&self, other: &Stations) -> bool {
        self.iter().eq(other.iter())
    }
}

impl Eq for Stations {}

impl fmt::Debug for Stations {
    fn fmt(&self, f: &mut fmt::Formatter) -> fmt::Result {
        f.debug_list().entries(self.iter()).finish()
    }
}

impl Station {
    fn found(found: raw::Found) -> Result<Station, Refusal> {
        Refusal::check(found.number).map(|()| Station::of(found.station))
    }

    fn of(station: raw::Station) -> Station {
        Station {
            address: station.address,
            reads: station.reads,
            echoes: station.echoes,
            shortest_path: station.has_path.then_some(station.shortest_path),
        }
    }
}

impl Heard {
    fn raw(&self) -> raw::Heard {
        raw::Heard {
            source: self.source,
            echo: self.echo,
            path_bit: self.path_count.is_some(),
            path_count: self.path_count.unwrap_or(0),
        }
    }
}

#[cfg(test)]
mod tests {
    use super::*;

    const STATION: raw::Station = raw::Station {
        address: 1000,
        reads: 7,
        echoes: 2,
        has_path: true,
        shortest_path: 0,
    };

    #[test]
    fn absent_is_not_0() {
        assert_eq!(Station::of(STATION).shortest_path, Some(0));
        let without = raw::Station {
            has_path: false,
            ..STATION
        };
        assert_eq!(Station::of(without).shortest_path, None);
        let found = raw::Found {
            number: 0,
            station: without,
        };
        assert_eq!(Station::found(found), Ok(Station::of(without)));
    }

    #[test]
    fn a_path_of_none_is_a_path() {
        let heard = |path_count| {
            let heard = Heard {
                source: 1000,
                echo: true,
                path_count,
            };
            let raw = heard.raw();
            assert_eq!((raw.source, raw.echo), (1000, true));
            (raw.path_bit, raw.path_count)
        };
        assert_eq!(heard(None), (false, 0));
        assert_eq!(heard(Some(0)), (true, 0));
        assert_eq!(heard(Some(255)), (true, 255));
    }

    #[test]
    fn it_begins_empty() {
        assert_eq!(Stations::WORDS, 1 + 4 * Stations::LIMIT);
        assert_eq!(Stations::default().words(), &[0; Stations::WORDS]);
    }

    #[test]
    fn answers_go_back_as_they_came() {
        let delivered = raw::Answer {
            delivery: 0,
            repeat: 37,
            has_last_sender: true,
            last_sender: 0,
            delivered_place: 9,
            delivered_length: 11,
            repeated_length: 0,
            taken: 20,
        };
        let repeated = raw::Answer {
            delivery: 39,
            repeat: 0,
            has_last_sender: false,
            last_sender: 0,
            delivered_place: 0,
            delivered_length: 0,
            repeated_length: 22,
            taken: 20,
        };
        for answer in [delivered, repeated] {
            assert_eq!(Answer::of(answer).raw(), answer);
        }
    }
}
