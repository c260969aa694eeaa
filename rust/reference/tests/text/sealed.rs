//! 02, W-212, sentence by sentence; the published vectors, and document 002's
//! example.

use crate::bytes;
use reference::*;

/// 16 bytes from hex digits.
fn block(hex: &str) -> [u8; 16] {
    bytes(hex).try_into().unwrap()
}

/// FIPS 197, appendix B and C.1.
#[test]
fn aes_vectors() {
    for (key, plain, enciphered) in [
        (
            "2b7e151628aed2a6abf7158809cf4f3c",
            "3243f6a8885a308d313198a2e0370734",
            "3925841d02dc09fbdc118597196a0b32",
        ),
        (
            "000102030405060708090a0b0c0d0e0f",
            "00112233445566778899aabbccddeeff",
            "69c4e0d86a7b0430d8cdb78070b4c55a",
        ),
    ] {
        assert_eq!(encipher(&block(key), &block(plain)), block(enciphered));
    }
}

/// SP 800-38A, F.5.1.
#[test]
fn counter_mode_vectors() {
    let key = block("2b7e151628aed2a6abf7158809cf4f3c");
    let first = block("f0f1f2f3f4f5f6f7f8f9fafbfcfdfeff");
    let plain = bytes(
        "6bc1bee22e409f96e93d7e117393172a ae2d8a571e03ac9c9eb76fac45af8e51
         30c81c46a35ce411e5fbc1191a0a52ef f69f2445df4f9b17ad2b417be66c3710",
    );
    let enciphered = bytes(
        "874d6191b620e3261bef6864990db6ce 9806f66b7970fdff8617187bb9fffdff
         5ae4df3edbd5d35e5b4f09020db03eab 1e031dda2fbe03d1792170a0f3009cee",
    );
    for length in 0..=64 {
        let result = counter_mode(&key, &first, &plain[..length]);
        assert_eq!(result, enciphered[..length]);
        assert_eq!(counter_mode(&key, &first, &result), plain[..length]);
    }
}

/// FIPS 180-4's published messages.
#[test]
fn sha1_vectors() {
    let long = "abcdbcdecdefdefgefghfghighijhijkijkljklmklmnlmnomnopnopq";
    let million = "a".repeat(1_000_000);
    for (message, digest) in [
        ("", "da39a3ee5e6b4b0d3255bfef95601890afd80709"),
        ("abc", "a9993e364706816aba3e25717850c26c9cd0d89d"),
        (long, "84983e441c3bd26ebaae4aa1f95129e5e54670f1"),
        (&million, "34aa973cd4c4daa4f61eeb2bdbad27316534016f"),
    ] {
        assert_eq!(sha1(message.as_bytes()).to_vec(), bytes(digest));
    }
}

const KEY: &Key = b"keep me secret!!";
const PLAIN: &str = "0300100b03e8064000 7001081212032413220276";
const SEALED: &str = "0308101203e8064000 000352 1146df21a1e0fb1e425c93 1a7c6250";

/// A PDU from 1000 with these first two bytes, fields after byte 5 and payload.
fn pdu(flags: [u8; 2], fields: &[u8], payload: &[u8]) -> Vec<u8> {
    let [high, low] = (payload.len() as u16).to_be_bytes();
    let start = [flags[0], flags[1], 0x50 | high, low, 0x03, 0xE8];
    [&start[..], fields, payload].concat()
}

/// A PDU sealed with enough room.
fn sealed(number: u64, plain: &[u8]) -> Vec<u8> {
    let mut out = [0xAA; MOST_PDU];
    let (answer, length) = seal(KEY, number, plain, &mut out);
    assert_eq!((answer, length), (0, plain.len() + 7));
    assert!(out[length..].iter().all(|byte| *byte == 0xAA));
    out[..length].to_vec()
}

/// What opening answers with enough room, and the payload.
fn opened(accepted: &mut Accepted, bytes: &[u8]) -> (u8, Vec<u8>) {
    let mut out = [0xAA; MOST_PAYLOAD];
    let (number, length) = open(KEY, accepted, bytes, &mut out);
    assert!(out[length..].iter().all(|byte| *byte == 0xAA));
    (number, out[..length].to_vec())
}

/// The number of a sealing that is refused and writes nothing.
fn seal_refused(number: u64, plain: &[u8], room: usize) -> u8 {
    let mut out = vec![0xAA; room];
    let (answer, length) = seal(KEY, number, plain, &mut out);
    assert_eq!((length, out), (0, vec![0xAA; room]));
    answer
}

/// The number of an opening that is refused, writes nothing and leaves the
/// record.
fn open_refused(accepted: &Accepted, bytes: &[u8], room: usize) -> u8 {
    let (mut after, mut out) = (accepted.clone(), vec![0xAA; room]);
    let (answer, length) = open(KEY, &mut after, bytes, &mut out);
    assert_eq!((length, out), (0, vec![0xAA; room]));
    assert_eq!(&after, accepted);
    answer
}

/// A record that has accepted this number from source 1000.
fn accepted(number: u32) -> Accepted {
    Accepted::holding(MOST_SOURCES, &[(1000, number)])
}

#[test]
fn the_example_of_document_002() {
    assert_eq!(sealed(850, &bytes(PLAIN)), bytes(SEALED));
    let mut record = Accepted::empty();
    let plain = bytes("7001081212032413220276");
    assert_eq!(opened(&mut record, &bytes(SEALED)), (0, plain));
    assert_eq!(record, accepted(850));
    assert_eq!(open_refused(&record, &bytes(SEALED), 99), 82);
}

/// What document 002 shows on the way: the bytes that enter the hash, the
/// hash, the first counter, and what is enciphered.
#[test]
fn the_steps_of_document_002() {
    let hashed = bytes("0308001203e80640 000352 7001081212032413220276");
    assert_eq!(sha1(&hashed)[..4], bytes("725db2b2"));
    let first = block("03e80003520000000000000000000000");
    let plain = bytes("7001081212032413220276 725db2b2");
    let enciphered = bytes("1146df21a1e0fb1e425c93 1a7c6250");
    assert_eq!(counter_mode(KEY, &first, &plain), enciphered);
}

#[test]
fn the_message_number_lies_in_clear() {
    assert_eq!(message_number(&bytes(SEALED)), Ok(850));
    assert_eq!(message_number(&bytes(SEALED)[..5]), Err(1));
    assert_eq!(message_number(&bytes(PLAIN)), Err(80));
    assert_eq!(message_number(&pdu([2, 8], &[0], &[9; 6])), Err(81));
}

#[test]
fn a_removed_source_is_new() {
    let mut record = accepted(850);
    assert!(!record.remove(1001) && record.remove(1000) && !record.remove(1000));
    assert_eq!(opened(&mut record, &bytes(SEALED)).0, 0);
}

#[test]
fn sealing_and_opening_give_the_payload_back() {
    for (flags, fields) in [
        ([0x00, 0x00], vec![]),
        ([0x01, 0xF7], vec![1, 2]),
        ([0x03, 0x01], vec![1, 2, 0]),
        ([0x0B, 0x06], vec![1, 2, 9, 2, 5, 6, 7, 8]),
    ] {
        for length in [0, 1, 11, 12, 13, 28, 55, 64, 300, 4_088] {
            let payload = vec![length as u8; length];
            let sealed = sealed(0, &pdu(flags, &fields, &payload));
            assert_eq!(opened(&mut Accepted::empty(), &sealed), (0, payload));
        }
    }
}

#[test]
fn only_three_fields_and_the_payload_change() {
    let plain = pdu([0x0F, 0x97], &[1, 2, 9, 1, 5, 6], &[7; 3]);
    let sealed = sealed(0x010203, &plain);
    let header = [0x0B, 0x9F, 0x50, 10, 0x03, 0xE8, 1, 2, 9, 1, 5, 6];
    assert_eq!(sealed[..12], header);
    assert_eq!(sealed[12..15], [1, 2, 3]);
    assert_eq!(sealed.len(), plain.len() + 7);
}

#[test]
fn sealing_is_refused_in_this_order() {
    let most = pdu([0, 0], &[], &[1; 4_088]);
    let above = pdu([0, 0], &[], &[1; 4_089]);
    let set = pdu([0, 8], &[], &[1; 4_089]);
    assert_eq!(seal_refused(1 << 24, &set[..5], 0), 1);
    assert_eq!(seal_refused(1 << 24, &set[..99], 0), 6);
    assert_eq!(seal_refused(1 << 24, &set, 0), 88);
    assert_eq!(seal_refused(1 << 24, &above, 0), 85);
    assert_eq!(seal_refused(1 << 24, &most, 0), 86);
    assert_eq!(seal_refused(u64::MAX, &most, 9_999), 86);
    assert_eq!(seal_refused((1 << 24) - 1, &most, 4_100), 87);
    assert_eq!(sealed((1 << 24) - 1, &most).len(), 4_101);
}

#[test]
fn opening_is_refused_in_this_order() {
    let full: Vec<(u16, u32)> = (2000..2064).map(|source| (source, 0)).collect();
    let full = Accepted::holding(MOST_SOURCES, &full);
    let whole = bytes(SEALED);
    let mut changed = whole.clone();
    changed[26] ^= 1;
    let clear = pdu([0, 0], &[], &[0; 6]);
    let short = pdu([0, 8], &[], &[0; 6]);
    assert_eq!(open_refused(&accepted(900), &whole[..5], 0), 1);
    assert_eq!(open_refused(&accepted(900), &whole[..26], 0), 6);
    assert_eq!(open_refused(&accepted(900), &clear, 0), 80);
    assert_eq!(open_refused(&accepted(900), &short, 0), 81);
    for last in [850, 851, 0xFF_FFFF] {
        assert_eq!(open_refused(&accepted(last), &changed, 0), 82);
    }
    assert_eq!(open_refused(&accepted(849), &changed, 0), 83);
    assert_eq!(open_refused(&full, &changed, 0), 83);
    assert_eq!(open_refused(&full, &whole, 0), 84);
    assert_eq!(open_refused(&accepted(849), &whole, 10), 87);
    assert_eq!(opened(&mut accepted(849), &whole).0, 0);
}

#[test]
fn any_number_serves_as_a_sources_first() {
    let first = sealed(0, &bytes(PLAIN));
    let mut record = Accepted::empty();
    assert_eq!(opened(&mut record, &first).0, 0);
    assert_eq!(record, accepted(0));
    assert_eq!(open_refused(&record, &first, 99), 82);
    assert_eq!(opened(&mut record, &sealed(1, &bytes(PLAIN))).0, 0);
    assert_eq!(
        opened(&mut record, &sealed(MOST_NUMBER, &bytes(PLAIN))).0,
        0
    );
    assert_eq!(record, accepted(0xFF_FFFF));
}

#[test]
fn a_held_source_is_opened_in_a_full_record() {
    let mut held: Vec<(u16, u32)> = (2000..2063).map(|source| (source, 0)).collect();
    held.push((1000, 849));
    let mut record = Accepted::holding(MOST_SOURCES, &held);
    assert!(record.is_full());
    assert_eq!(opened(&mut record, &bytes(SEALED)).0, 0);
    assert_eq!((record.get(1000), record.len()), (Some(850), 64));
}

#[test]
fn another_key_or_a_changed_bit_is_refused() {
    let mut other = *KEY;
    other[15] ^= 1;
    let mut out = [0; 99];
    let answer = open(&other, &mut Accepted::empty(), &bytes(SEALED), &mut out);
    assert_eq!((answer, out), ((83, 0), [0; 99]));
    let at = |place: usize, bit: u8| {
        let mut changed = bytes(SEALED);
        changed[place] ^= bit;
        open_refused(&Accepted::empty(), &changed, 99)
    };
    for place in [4, 5, 6, 7].into_iter().chain(9..27) {
        for bit in 0..8 {
            assert_eq!(at(place, 1 << bit), 83, "{place} {bit}");
        }
    }
    assert_eq!(
        (at(0, 4), at(1, 0x10), at(1, 4), at(1, 1), at(2, 0x80)),
        (83, 83, 83, 83, 83)
    );
}

/// After any repeats it opens to the same payload as before them.
#[test]
fn repeats_do_not_matter() {
    let mut pdu = bytes(SEALED);
    for (hop_limit, nodes) in [(0x10, 1), (0x60, 6), (0x70, 9)] {
        pdu[2] = hop_limit;
        let mut heard = pdu.clone();
        for own_address in 2000..2000 + nodes {
            let settings = Settings {
                own_address,
                repeating: true,
                ..Settings::default()
            };
            let mut out = [0; 99];
            let answer = hear(&settings, &Lists::EMPTY, &heard, &mut out);
            heard = out[..answer.repeated_length].to_vec();
        }
        assert_eq!(
            read(&heard).unwrap().path.unwrap().len(),
            usize::from(nodes)
        );
        let plain = bytes("7001081212032413220276");
        assert_eq!(opened(&mut Accepted::empty(), &heard), (0, plain));
    }
}

#[test]
fn a_payload_of_exactly_7_opens_to_an_empty_one() {
    let sealed = sealed(5, &pdu([0, 0], &[], &[]));
    assert_eq!(sealed.len(), 13);
    let mut record = Accepted::empty();
    assert_eq!(open(KEY, &mut record, &sealed, &mut []), (0, 0));
    assert_eq!(record, accepted(5));
}
