//! Valid PDUs of all shapes (01, "Header, byte by byte" and "Sizes").

use crate::random::Random;

/// A valid PDU before it is laid out in bytes.
#[derive(Clone, Debug, PartialEq, Eq)]
pub struct Shape {
    /// Protocol 1; there is a destination then.
    pub reliable: bool,
    /// The time stamp request bit.
    pub time_stamp_request: bool,
    /// 0 to 15.
    pub port: u8,
    /// The encrypted bit.
    pub encrypted: bool,
    /// The reserved bits, 0 to 3.
    pub reserved: u8,
    /// The ACK bit.
    pub ack: bool,
    /// The added header bit.
    pub added_header: bool,
    /// 0 to 7.
    pub hop_limit: u8,
    /// Source address.
    pub source: u16,
    /// Destination address, if there is one.
    pub destination: Option<u16>,
    /// PDU ID, laid out if the PDU is reliable.
    pub pdu_id: u8,
    /// Path of up to 255 addresses, if there is one.
    pub path: Option<Vec<u16>>,
    /// Payload of up to 4,095 bytes.
    pub payload: Vec<u8>,
}

impl Shape {
    /// The PDU's bytes.
    pub fn bytes(&self) -> Vec<u8> {
        let mut bytes = Vec::with_capacity(self.length());
        bytes.extend(self.fixed_bytes());
        if let Some(destination) = self.destination {
            bytes.extend(two_bytes(destination));
        }
        if self.reliable {
            bytes.push(self.pdu_id);
        }
        if let Some(path) = &self.path {
            bytes.push(path.len() as u8);
            path.iter()
                .for_each(|entry| bytes.extend(two_bytes(*entry)));
        }
        bytes.extend(&self.payload);
        bytes
    }

    /// Bytes 0 to 5 of the byte table.
    fn fixed_bytes(&self) -> [u8; 6] {
        let on = u8::from;
        let [length_high, length_low] = two_bytes(self.payload.len() as u16);
        let [source_high, source_low] = two_bytes(self.source);
        [
            on(self.reliable) * 8
                + on(self.time_stamp_request) * 4
                + on(self.path.is_some()) * 2
                + on(self.destination.is_some()),
            self.port * 16 + on(self.encrypted) * 8 + self.reserved * 2 + on(self.ack),
            on(self.added_header) * 128 + self.hop_limit * 16 + length_high,
            length_low,
            source_high,
            source_low,
        ]
    }

    /// The header's length.
    pub fn header_length(&self) -> usize {
        let destination = 2 * usize::from(self.destination.is_some());
        let path = self.path.as_ref().map_or(0, |path| 1 + 2 * path.len());
        6 + destination + usize::from(self.reliable) + path
    }

    /// The whole PDU's length.
    pub fn length(&self) -> usize {
        self.header_length() + self.payload.len()
    }
}

/// Most significant byte first.
fn two_bytes(word: u16) -> [u8; 2] {
    [(word / 256) as u8, (word % 256) as u8]
}

/// A valid PDU.
pub fn shape(random: &mut Random) -> Shape {
    let reliable = random.one_in(3);
    let with_destination = reliable || random.flag();
    let payload_length = payload_length(random);
    let source = address(random);
    Shape {
        reliable,
        time_stamp_request: random.flag(),
        port: random.below(16) as u8,
        encrypted: random.flag(),
        reserved: random.below(4) as u8,
        ack: random.flag(),
        added_header: random.one_in(4),
        hop_limit: random.below(8) as u8,
        source,
        destination: with_destination.then(|| address(random)),
        pdu_id: random.byte(),
        path: random.flag().then(|| path(random, source)),
        payload: random.bytes(payload_length),
    }
}

/// An address, mostly one of a few that meet often, among them both ends and
/// words whose bytes show when they are exchanged.
pub fn address(random: &mut Random) -> u16 {
    const OFTEN: [u16; 10] = [0, 1, 255, 256, 1000, 1600, 2000, 0xD007, 65_534, 65_535];
    if random.one_in(4) {
        random.word()
    } else {
        random.pick(&OFTEN)
    }
}

/// A path, at times with the source in it; long ones are mostly of any
/// addresses, lest all be echoes.
fn path(random: &mut Random, source: u16) -> Vec<u16> {
    let count = path_count(random);
    let often = count < 4 || random.one_in(4);
    let mut path: Vec<u16> = (0..count)
        .map(|_| match often {
            true => address(random),
            false => random.word(),
        })
        .collect();
    if count > 0 && random.one_in(8) {
        path[random.below(count)] = source;
    }
    path
}

/// 0 to 255, biased to small and to the most.
fn path_count(random: &mut Random) -> usize {
    match random.below(10) {
        0 => 0,
        1..=4 => random.between(1, 4),
        5 => random.between(252, 255),
        6 => 254,
        7 => 255,
        _ => random.between(0, 255),
    }
}

/// 0 to 4,095, biased to small and to the most.
fn payload_length(random: &mut Random) -> usize {
    match random.below(20) {
        0..=2 => 0,
        3..=9 => random.between(1, 16),
        10..=14 => random.between(0, 300),
        15 => random.pick(&[255, 256, 257, 511, 512]),
        16..=17 => random.between(0, 4_095),
        18 => random.between(4_090, 4_095),
        _ => 4_095,
    }
}

#[cfg(test)]
mod tests {
    use super::*;

    #[test]
    fn the_example_of_document_002() {
        let example = Shape {
            reliable: false,
            time_stamp_request: false,
            port: 0,
            encrypted: false,
            reserved: 0,
            ack: false,
            added_header: false,
            hop_limit: 1,
            source: 1000,
            destination: Some(1600),
            pdu_id: 0xFF,
            path: Some(vec![]),
            payload: vec![
                0x70, 0x01, 0x08, 0x12, 0x12, 0x03, 0x24, 0x13, 0x22, 0x02, 0x76,
            ],
        };
        let bytes = example.bytes();
        assert_eq!(bytes[..9], [0x03, 0, 0x10, 0x0B, 0x03, 0xE8, 0x06, 0x40, 0]);
        assert_eq!((bytes.len(), example.length()), (20, 20));
    }

    #[test]
    fn every_shape_arises() {
        let mut random = Random::from_seed(1);
        let shapes: Vec<Shape> = (0..5000).map(|_| shape(&mut random)).collect();
        let some = |wanted: &dyn Fn(&Shape) -> bool| assert!(shapes.iter().any(wanted));
        for count in [0, 1, 2, 253, 254, 255] {
            let has = |path: &Vec<u16>| path.len() == count;
            some(&|shape| shape.path.as_ref().is_some_and(has));
        }
        for length in [0, 1, 256, 4_094, 4_095] {
            some(&|shape| shape.payload.len() == length);
        }
        some(&|shape| shape.length() == 6);
        some(&|shape| shape.reliable && shape.path.is_some());
        some(&|shape| shape.reliable && shape.path.is_none());
        some(&|shape| shape.destination.is_none() && shape.path.is_some());
    }
}
