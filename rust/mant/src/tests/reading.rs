use super::*;

#[test]
fn the_example_is_read() {
    let header = read(EDITION, &example()).unwrap();
    assert_eq!((header.protocol, header.port, header.hop_limit), (0, 0, 1));
    assert_eq!((header.source, header.destination), (1000, Some(1600)));
    assert_eq!((header.pdu_id, header.path_count), (None, Some(0)));
    assert_eq!(header.last_sender, Some(1000));
    assert_eq!(read(EDITION, &repeated()).unwrap().last_sender, Some(2000));
    assert_eq!(
        read(EDITION, &[0, 0, 0, 0, 0, 5]).unwrap().last_sender,
        None
    );
    assert_eq!(
        read(EDITION, &[2, 0, 0, 0, 0, 0, 0]).unwrap().last_sender,
        Some(0)
    );
    assert_eq!(header.payload, 9..20);
    assert_eq!(read(EDITION, &example()[..19]), Err(Refusal::PayloadCut));
    assert_eq!(read(EDITION, &[]), Err(Refusal::TooShort));
}

#[test]
fn the_example_is_written_again() {
    let mut output = [0xAA; 21];
    assert_eq!(write_again(EDITION, &example(), &mut output), Ok(20));
    assert_eq!((&output[..20], output[20]), (&example()[..], 0xAA));
    let refused = write_again(EDITION, &example(), &mut output[..19]);
    assert_eq!(refused, Err(Refusal::OutputTooShort));
}

#[test]
fn editions_show_three_bits() {
    let pdu = [0, 0xBA, 0x20, 0, 0, 5];
    let bits = |edition| read(edition, &pdu).map(|header| header.bits);
    assert_eq!(bits(EDITION_1_1), Ok(Bits::Reserved(5)));
    let flagged = Bits::Flagged {
        encrypted: true,
        reserved: 1,
    };
    assert_eq!(bits(EDITION_1_2), Ok(flagged));
    for edition in [EDITION_1_1, EDITION_1_2] {
        let mut output = [0xAA; 7];
        assert_eq!(write_again(edition, &pdu, &mut output), Ok(6));
        assert_eq!(output, [0, 0xBA, 0x20, 0, 0, 5, 0xAA]);
        let node = Node {
            edition,
            ..Node::new(2000)
        };
        let answer = hear(&node, &Lists::none(), &pdu, &mut output);
        assert_eq!((answer.repeat, output[2]), (Ok(6), 0x10));
    }
}

#[test]
fn paths() {
    assert_eq!(path_address(&repeated(), 0), Some(2000));
    assert_eq!(path_address(&repeated(), 1), None);
    assert_eq!(path_address(&[], 0), None);
    assert!(path_has(&repeated(), 2000));
    assert!(!path_has(&example(), 2000));
}
