use super::*;

/// The MANT PDU of document 003, appendix D.
const EXCHANGE: [u8; 38] = [
    0x14, 0x24, 0x84, 0x00, 0x06, 0x00, 0x00, 0x70, 0x0D, 0x11, 0x33, 0x84, 0x01, 0x0D, 0xA4, 0x08,
    0x3F, 0x03, 0xA3, 0x08, 0x3B, 0x03, 0xA5, 0x28, 0x0A, 0x04, 0x99, 0x84, 0x02, 0x04, 0x4D, 0x1C,
    0x4A, 0x10, 0x84, 0x03, 0x01, 0x31,
];

#[test]
fn the_exchange_of_document_003() {
    let exchange = read_exchange(&EXCHANGE).unwrap();
    assert_eq!(exchange.header, &EXCHANGE[5..11]);
    assert_eq!(exchange.payload, &EXCHANGE[14..27]);
    let pdu = [exchange.header, exchange.payload].concat();
    let mut output = [0xAA; 28];
    assert_eq!(write_exchange(&pdu, &mut output), Ok(27));
    assert_eq!((output[..2].to_vec(), output[27]), (vec![20, 25], 0xAA));
    assert_eq!(output[2..27], EXCHANGE[2..27]);
    let refused = write_exchange(&pdu, &mut output[..26]);
    assert_eq!(refused, Err(Refusal::OutputTooShort));
    assert_eq!(
        write_exchange(&pdu[..18], &mut output),
        Err(Refusal::PayloadCut)
    );
}

#[test]
fn the_elements_of_document_003() {
    let front = [&[0x75, 1, 1, 0x18, 2, 0x1F, 0x40, 0x77, 5], &b"SACCO"[..]].concat();
    let run = [&front[..], &EXCHANGE].concat();
    assert_eq!(read_exchange(&run), Err(Refusal::NotAnExchange));
    let found: Vec<Element> = elements(&run).map(Result::unwrap).collect();
    let types: Vec<u16> = found.iter().map(|element| element.type_number).collect();
    assert_eq!(types, [117, 24, 119, Exchange::TYPE]);
    assert_eq!(found[1].value, [0x1F, 0x40]);
    assert_eq!(found[2].value, b"SACCO");
    assert_eq!(found[3].bytes, EXCHANGE);
    assert_eq!(found[3].value, &EXCHANGE[2..]);
    let inner: Vec<u16> = elements(found[3].value)
        .map(|element| element.unwrap().type_number)
        .collect();
    assert_eq!(inner, [1024, 1025, 1026, 1027]);
}

#[test]
fn a_walk_ends() {
    assert_eq!(elements(&[]).next(), None);
    let mut cut = elements(&[0x80, 5, 0, 20, 2, 9]);
    let whole = Element {
        type_number: 5,
        value: &[],
        bytes: &[0x80, 5, 0],
    };
    assert_eq!(cut.next(), Some(Ok(whole)));
    assert_eq!(cut.next(), Some(Err(Refusal::ElementCut)));
    assert_eq!(cut.next(), None);
}

#[test]
fn exchanges_that_are_none() {
    let refused = |bytes: &[u8]| read_exchange(bytes).map_or_else(Refusal::number, |_| 0);
    assert_eq!(refused(&EXCHANGE[..37]), 57);
    assert_eq!(refused(&[10, 8, 10, 6, 10, 4, 10, 2, 0, 0]), 58);
    assert_eq!(refused(&[]), 59);
    assert_eq!(refused(&[20, 6, 0x84, 0, 0, 0x84, 1, 0]), 1);
    let joined = [&[20, 12, 0x84, 0, 0, 0x84, 1, 6], &[0; 6][..]].concat();
    assert_eq!(refused(&joined), 63);
}

#[test]
fn the_longest_exchange() {
    let mut pdu = [0; 4615];
    pdu[..4].copy_from_slice(&[0x0B, 0x00, 0x0F, 0xFF]);
    pdu[9] = 255;
    let mut output = [0; Exchange::LIMIT];
    assert_eq!(write_exchange(&pdu, &mut output), Ok(Exchange::LIMIT));
    let exchange = read_exchange(&output).unwrap();
    assert_eq!((exchange.header, exchange.payload), pdu.split_at(520));
}
