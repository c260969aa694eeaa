use super::*;

/// Document 002's key and its example, sealed under number 850.
const KEY: Key = Key {
    bytes: *b"keep me secret!!",
};
const SEALED: [u8; 27] = [
    0x03, 0x08, 0x10, 0x12, 0x03, 0xE8, 0x06, 0x40, 0x00, 0x00, 0x03, 0x52, 0x11, 0x46, 0xDF, 0x21,
    0xA1, 0xE0, 0xFB, 0x1E, 0x42, 0x5C, 0x93, 0x1A, 0x7C, 0x62, 0x50,
];

#[test]
fn the_example_is_sealed() {
    let mut output = [0xAA; 28];
    assert_eq!(seal(&KEY, 850, &example(), &mut output), Ok(27));
    assert_eq!((&output[..27], output[27]), (&SEALED[..], 0xAA));
    let refused = [
        seal(&KEY, 850, &SEALED, &mut output),
        seal(&KEY, 1 << 24, &example(), &mut output),
        seal(&KEY, 850, &example(), &mut output[..26]),
    ];
    assert_eq!(
        refused.map(|answer| answer.map_err(Refusal::number)),
        [Err(88), Err(86), Err(87)]
    );
}

#[test]
fn the_example_is_opened_once() {
    let (mut record, mut output) = (Record::new(), [0xAA; 12]);
    let short = record.open(&KEY, &SEALED, &mut output[..10]);
    assert_eq!(short.map_err(Refusal::number), Err(87));
    assert_eq!((record.get(1000), output), (None, [0xAA; 12]));
    assert_eq!(record.open(&KEY, &SEALED, &mut output), Ok(11));
    assert_eq!((&output[..11], output[11]), (&PAYLOAD[..], 0xAA));
    let sources: Vec<_> = record.iter().collect();
    assert_eq!((sources, record.get(1000)), (vec![(1000, 850)], Some(850)));
    let again = record.open(&KEY, &SEALED, &mut output);
    assert_eq!(again.map_err(Refusal::number), Err(82));
    let kept = Record::from_words(*record.words());
    assert_eq!(kept, record);
    assert_ne!(kept, Record::default());
}

#[test]
fn a_key_is_not_shown() {
    assert_eq!(format!("{KEY:?}"), "Key(..)");
}
