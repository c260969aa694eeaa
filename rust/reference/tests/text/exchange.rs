//! 02, W-202, sentence by sentence, and the example of document 003.

use reference::*;

/// The MANT PDU of document 003, appendix D, time stamp and its quality beside
/// it.
const EXAMPLE: [u8; 38] = [
    0x14, 0x24, 0x84, 0x00, 0x06, 0x00, 0x00, 0x70, 0x0D, 0x11, 0x33, 0x84, 0x01, 0x0D, 0xA4, 0x08,
    0x3F, 0x03, 0xA3, 0x08, 0x3B, 0x03, 0xA5, 0x28, 0x0A, 0x04, 0x99, 0x84, 0x02, 0x04, 0x4D, 0x1C,
    0x4A, 0x10, 0x84, 0x03, 0x01, 0x31,
];

/// The shortest header, and that of a payload of one byte.
const HEADER: [u8; 6] = [0, 0, 0, 0, 0, 5];
const HEADER_OF_1: [u8; 6] = [0, 0, 0, 1, 0, 5];

/// An element, its type and length in the form that has the bytes given.
fn element(type_bytes: &[u8], value: &[u8]) -> Vec<u8> {
    [type_bytes, &[value.len() as u8], value].concat()
}

fn header(value: &[u8]) -> Vec<u8> {
    element(&[0x84, 0x00], value)
}

fn payload(value: &[u8]) -> Vec<u8> {
    element(&[0x84, 0x01], value)
}

/// An exchange of these elements.
fn exchange(elements: &[Vec<u8>]) -> Vec<u8> {
    element(&[20], &elements.concat())
}

fn number(bytes: &[u8]) -> u8 {
    read_exchange(bytes).map_or_else(|number| number, |_| 0)
}

/// An exchange with this beside its parts.
fn beside(other: &[u8]) -> Vec<u8> {
    exchange(&[header(&HEADER), other.to_vec(), payload(&[])])
}

/// The header and the payload in the input.
fn parts(bytes: &[u8]) -> (Vec<u8>, Vec<u8>) {
    let shown = read_exchange(bytes).unwrap();
    (bytes[shown.header].to_vec(), bytes[shown.payload].to_vec())
}

#[test]
fn the_example_of_document_003() {
    let wanted = Exchange {
        header: 5..11,
        payload: 14..27,
    };
    assert_eq!(read_exchange(&EXAMPLE), Ok(wanted));
    let (header, payload) = parts(&EXAMPLE);
    let pdu = [header, payload].concat();
    let mut out = [0xAA; 28];
    assert_eq!(write_exchange(&pdu, &mut out), (0, 27));
    assert_eq!((out[0], out[1], out[27]), (0x14, 25, 0xAA));
    assert_eq!(out[2..27], EXAMPLE[2..27]);
    for length in 1..EXAMPLE.len() {
        assert_eq!(number(&EXAMPLE[..length]), 57);
    }
}

#[test]
fn what_document_003_has_before_the_example() {
    let front = [&[0x75, 1, 1, 0x18, 2, 0x1F, 0x40, 0x77, 5], &b"SACCO"[..]].concat();
    let run = [&front[..], &EXAMPLE].concat();
    assert_eq!(number(&run), 59);
    let mut place = 0;
    for (type_number, value) in [(117, 2..3), (24, 5..7), (119, 9..14), (20, 16..52)] {
        let wanted = Element { type_number, value };
        assert_eq!(element_at(&run, place), Ok(wanted.clone()));
        place = wanted.value.end;
    }
    assert_eq!(element_at(&run, place), Err(57));
    assert_eq!(element_at(&run[..51], 14), Err(57));
    assert_eq!(element_at(&run, usize::MAX), Err(57));
}

#[test]
fn either_order_and_either_form() {
    let parts_of = (HEADER_OF_1.to_vec(), vec![9]);
    let straight = exchange(&[header(&HEADER_OF_1), payload(&[9])]);
    let turned = exchange(&[payload(&[9]), header(&HEADER_OF_1)]);
    assert_eq!(parts(&straight), parts_of);
    assert_eq!(parts(&turned), parts_of);
    let long_type = [&[0x80, 20], &straight[1..]].concat();
    let long_length = [&[20, 0x80], &straight[1..]].concat();
    assert_eq!(parts(&long_type), parts_of);
    assert_eq!(parts(&long_length), parts_of);
}

#[test]
fn others_beside_are_passed_over() {
    for other in [
        &[0, 0][..],
        &[127, 1, 0xFF],
        &[0x80, 0x80, 2, 1, 2],
        &[21, 1, 0xFF],
    ] {
        assert_eq!(number(&beside(other)), 0);
    }
    assert_eq!(number(&beside(&element(&[10], &header(&HEADER)))), 0);
    let inside = exchange(&[element(&[11], &header(&HEADER)), payload(&[])]);
    assert_eq!(number(&inside), 59);
}

#[test]
fn four_levels_and_no_fifth() {
    let level_3 = |value: &[u8]| beside(&element(&[10], &element(&[11], value)));
    assert_eq!(number(&level_3(&[0, 1, 7])), 0);
    assert_eq!(number(&level_3(&[20, 0])), 0);
    assert_eq!(number(&level_3(&[0x80, 20, 0x80, 0])), 0);
    assert_eq!(number(&level_3(&[20, 2, 0, 0])), 58);
    assert_eq!(number(&level_3(&[0x80, 20, 2, 0, 0])), 58);
    assert_eq!(
        number(&level_3(&[20, 1, 0])),
        58,
        "a level 5 element that is cut"
    );
    assert_eq!(
        number(&level_3(&[20, 3, 0, 0])),
        57,
        "a level 4 element that is cut"
    );
    assert_eq!(number(&level_3(&[21, 2, 0x80, 0])), 0);
}

#[test]
fn the_fault_that_begins_first() {
    let deep = element(&[10], &element(&[10], &element(&[10], &[0, 0])));
    let cut = element(&[10], &[5, 9, 1]);
    let both = |one: &[u8], other: &[u8]| beside(&[one, other].concat());
    assert_eq!(number(&both(&deep, &cut)), 58);
    assert_eq!(number(&both(&cut, &deep)), 57);
    let after = [exchange(&[deep]), vec![1]].concat();
    assert_eq!(number(&after), 58);
    let within_a_cut_one = [20, 9, 10, 7, 10, 5, 10, 3, 10, 1];
    assert_eq!(number(&within_a_cut_one), 57);
}

#[test]
fn a_cut_is_judged_by_its_run() {
    let past_its_run = [20, 4, 0x84, 0, 2, 1, 1, 1];
    assert_eq!(number(&past_its_run), 57);
    assert_eq!(number(&[20, 1, 0x84, 0, 0]), 57);
    assert_eq!(number(&[20, 2, 0x84, 0, 0, 0]), 57);
    for bytes in [
        &[0x80][..],
        &[5],
        &[5, 0x80],
        &[0x80, 20],
        &[5, 1],
        &[5, 0x80, 1],
    ] {
        assert_eq!(number(bytes), 57);
    }
}

#[test]
fn not_such_an_exchange() {
    let good = exchange(&[header(&HEADER), payload(&[])]);
    assert_eq!(number(&good), 0);
    assert_eq!(number(&[]), 59);
    assert_eq!(number(&[20, 0]), 59);
    assert_eq!(number(&[&[10], &good[1..]].concat()), 59);
    assert_eq!(number(&[&good[..], &[0, 0]].concat()), 59);
    assert_eq!(number(&[&[0, 0], &good[..]].concat()), 59);
    assert_eq!(number(&[&good[..], &good].concat()), 59);
    assert_eq!(number(&[&good[..], &[0]].concat()), 57);
    assert_eq!(number(&exchange(&[header(&HEADER)])), 59);
    assert_eq!(number(&exchange(&[payload(&[])])), 59);
    assert_eq!(number(&beside(&header(&HEADER))), 59);
    assert_eq!(number(&beside(&payload(&[]))), 59);
    assert_eq!(number(&beside(&payload(&[1]))), 59);
}

#[test]
fn faults_of_the_pdu_before_the_split() {
    let split = |one: &[u8], other: &[u8]| number(&exchange(&[header(one), payload(other)]));
    assert_eq!(split(&[], &[]), 1);
    assert_eq!(split(&[0x40, 0, 0, 0, 0], &[0]), 2);
    assert_eq!(split(&[0x10, 0, 0, 0, 0, 0, 0], &[]), 3);
    assert_eq!(split(&[], &[0x08, 0, 0, 0, 0, 0]), 4);
    assert_eq!(split(&[0x01, 0, 0, 0, 0, 0], &[0]), 5);
    assert_eq!(split(&HEADER_OF_1, &[]), 6);
    assert_eq!(split(&HEADER_OF_1, &[9]), 0);
    assert_eq!(split(&HEADER_OF_1, &[9, 9]), 63);
    assert_eq!(split(&[0, 0, 0, 1, 0, 5, 9], &[]), 63);
    assert_eq!(split(&HEADER_OF_1[..5], &[5, 9]), 63);
    assert_eq!(split(&HEADER, &[0]), 63);
}

/// A PDU with a path of so many addresses, reliable or not, and this payload.
fn pdu(reliable: bool, path: u8, payload: usize) -> Vec<u8> {
    let length = (payload as u16).to_be_bytes();
    let mut bytes = vec![0x03, 0, length[0], length[1], 0, 5, 0, 6];
    if reliable {
        bytes[0] = 0x0B;
        bytes.push(1);
    }
    bytes.push(path);
    bytes.extend(vec![7; 2 * usize::from(path) + payload]);
    bytes
}

#[test]
fn what_is_written_is_read_back() {
    let cases = [
        (false, 0, 0),
        (true, 58, 1),
        (false, 59, 1),
        (true, 59, 127),
        (false, 0, 128),
    ];
    for (reliable, path, count) in cases {
        let pdu = pdu(reliable, path, count);
        let mut out = [0xAA; 5_000];
        let (number, length) = write_exchange(&pdu, &mut out);
        assert_eq!(
            (number, &out[length..]),
            (0, &vec![0xAA; 5_000 - length][..])
        );
        let (header, payload) = parts(&out[..length]);
        assert_eq!(payload.len(), count);
        assert_eq!([header, payload].concat(), pdu);
    }
}

#[test]
fn the_shorter_form_up_to_127() {
    let mut out = [0; 300];
    write_exchange(&pdu(false, 59, 0), &mut out);
    assert_eq!(out[..7], [20, 0x80, 133, 0x84, 0, 127, 0x03]);
    write_exchange(&pdu(true, 59, 0), &mut out);
    assert_eq!(out[..8], [20, 0x80, 135, 0x84, 0, 0x80, 128, 0x0B]);
    write_exchange(&pdu(false, 0, 112), &mut out);
    assert_eq!(out[..4], [20, 127, 0x84, 0]);
    write_exchange(&pdu(false, 0, 113), &mut out);
    assert_eq!(out[..4], [20, 0x80, 128, 0x84]);
}

#[test]
fn room_by_the_exchange() {
    let longest = pdu(true, 255, 4_095);
    assert_eq!(longest.len(), MOST_PDU);
    let mut out = [0xAA; MOST_EXCHANGE];
    let refused = write_exchange(&longest, &mut out[..MOST_EXCHANGE - 1]);
    assert_eq!((refused, out), ((14, 0), [0xAA; MOST_EXCHANGE]));
    assert_eq!(write_exchange(&longest, &mut out), (0, MOST_EXCHANGE));
    assert_eq!(number(&out), 0);
    assert_eq!(write_exchange(&longest[..4_614], &mut out), (6, 0));
    let followed = [&HEADER[..], &[1, 2]].concat();
    assert_eq!(write_exchange(&followed, &mut out), (0, 14));
}
