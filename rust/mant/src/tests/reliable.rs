use super::*;

/// A command from 1000 to 1600 with ID 7, and what it is known by.
const COMMAND: [u8; 10] = [0x09, 0, 0x30, 1, 0x03, 0xE8, 0x06, 0x40, 7, 99];
const NAMES: Names = Names {
    source: 1000,
    destination: 1600,
    pdu_id: 7,
};

/// A table that has retained the command at 100 seconds.
fn retaining() -> Reliable {
    let mut table = Reliable::new();
    assert_eq!(table.retain(100, &COMMAND), Ok(Deed::Retained(0, NAMES)));
    table
}

#[test]
fn a_command_is_sent_again_and_fails() {
    let (mut table, mut output) = (retaining(), [0xAA; 11]);
    assert_eq!(table.retry(129, 30, 1, &mut output), Ok(Deed::Nothing));
    assert_eq!(table.last(), 129);
    let before = table.clone();
    let earlier = table.retry(128, 0, 1, &mut output);
    assert_eq!(earlier.map_err(Refusal::number), Err(73));
    let short = table.retry(130, 30, 1, &mut output[..9]);
    assert_eq!(short.map_err(Refusal::number), Err(77));
    assert_eq!((&table, output), (&before, [0xAA; 11]));
    let sent = table.retry(130, 30, 1, &mut output);
    assert_eq!(sent, Ok(Deed::SentAgain(0, NAMES, 10)));
    assert_eq!((&output[..10], output[10]), (&COMMAND[..], 0xAA));
    let record = table.records()[0];
    assert_eq!((record.sent_at, record.count), (130, 1));
    let failed = table.retry(160, 30, 1, &mut []);
    assert_eq!(failed, Ok(Deed::Failed(0, NAMES)));
    assert_eq!(
        table,
        Reliable::from_records(*Reliable::new().records(), 160)
    );
}

#[test]
fn a_command_is_acknowledged() {
    let (mut base, mut gate) = (retaining(), Reliable::default());
    let (lists, mut output) = (Lists::none(), [0xAA; 10]);
    let sending = Sending {
        hop_limit: 3,
        ..Sending::default()
    };
    let answer = hear(&Node::new(1600), &lists, &COMMAND, &mut []);
    let wrong = Sending {
        hop_limit: 8,
        ..sending
    };
    let refused = gate.acknowledge(1600, &COMMAND, &answer, &wrong, &mut output);
    assert_eq!(refused, Err(Refusal::HopLimitAbove7));
    let acknowledged = gate.acknowledge(1600, &COMMAND, &answer, &sending, &mut output);
    assert_eq!(acknowledged, Ok(Deed::Acknowledged(NAMES, 9)));
    let wanted = [0x09, 1, 0x30, 0, 0x06, 0x40, 0x03, 0xE8, 7, 0xAA];
    assert_eq!((gate, output), (Reliable::new(), wanted));
    let answer = hear(&Node::new(1000), &lists, &output[..9], &mut []);
    let freed = base.acknowledge(1000, &output[..9], &answer, &sending, &mut []);
    assert_eq!(freed, Ok(Deed::Freed(0, NAMES)));
    let again = base.acknowledge(1000, &output[..9], &answer, &sending, &mut []);
    assert_eq!((again, base.last()), (Ok(Deed::Nothing), 100));
}

#[test]
fn no_other_is_acknowledged() {
    let (mut gate, sending, mut output) = (Reliable::new(), Sending::default(), [0xAA; 10]);
    let answer = hear(&Node::new(1600), &Lists::none(), &COMMAND, &mut []);
    assert!(answer.delivery.is_ok());
    let mut added = COMMAND;
    added[2] |= 0x80;
    for (own, bytes) in [
        (2000, &COMMAND[..]),
        (1600, &added[..]),
        (0, &[8][..]),
        (1600, &[]),
    ] {
        let deed = gate.acknowledge(own, bytes, &answer, &sending, &mut output);
        assert_eq!((deed, output), (Ok(Deed::Nothing), [0xAA; 10]));
    }
}

#[test]
fn a_node_hears_reliably() {
    let (mut base, mut gate) = (retaining(), Reliable::new());
    let (lists, sending, mut output) = (Lists::none(), Sending::default(), [0xAA; 10]);
    let elsewhere = gate.hear(&Node::new(2000), &lists, &COMMAND, &sending, &mut [0; 10]);
    assert_eq!(elsewhere.answer.delivery, Err(Refusal::ForAnother));
    assert_eq!(elsewhere.deed, Ok(Deed::Nothing));
    let heard = gate.hear(&Node::new(1600), &lists, &COMMAND, &sending, &mut output);
    assert_eq!(
        heard.answer,
        hear(&Node::new(1600), &lists, &COMMAND, &mut [])
    );
    assert_eq!(heard.deed, Ok(Deed::Acknowledged(NAMES, 9)));
    let heard = base.hear(&Node::new(1000), &lists, &output[..9], &sending, &mut []);
    assert_eq!(heard.deed, Ok(Deed::Freed(0, NAMES)));
}

#[test]
fn what_is_not_retained() {
    let mut table = retaining();
    let before = table.clone();
    for (bytes, number) in [(&COMMAND[..9], 75), (&example(), 75), (&COMMAND, 71)] {
        let refused = table.retain(100, bytes).map_err(Refusal::number);
        assert_eq!((refused, &table), (Err(number), &before));
    }
}

/// How many transmissions there are where a command is sent once among so many
/// repeaters, besides originator and destination, and all hear one another.
fn commanded(repeaters: u16, hop_limit: u64) -> Result<u64, Refusal> {
    let command = Fresh {
        reliable: true,
        hop_limit,
        ..fresh()
    };
    let sending = Sending {
        hop_limit,
        with_path: true,
        ..Sending::default()
    };
    let mut output = [0; 64];
    let length = originate(&command, &[], &mut output)?;
    let mut on_the_air = vec![output[..length].to_vec()];
    let mut place = 0;
    while let Some(pdu) = on_the_air.get(place).cloned() {
        for own in [1000, 1600].into_iter().chain(1..=repeaters) {
            let (node, lists) = (Node::new(own), Lists::none());
            let heard = Reliable::new().hear(&node, &lists, &pdu, &sending, &mut output);
            let length = match heard.deed? {
                Deed::Acknowledged(_, length) => length,
                _ => heard.answer.repeat.unwrap_or(0),
            };
            if length > 0 {
                on_the_air.push(output[..length].to_vec());
            }
        }
        place += 1;
    }
    Ok(on_the_air.len() as u64)
}

#[test]
fn a_command_reaches_its_bound() {
    for (nodes, hop) in [(0, 3), (1, 1), (2, 1), (2, 7), (3, 2), (3, 3)] {
        let most = most_for_command(0, nodes.into(), hop, nodes.into(), hop);
        assert_eq!(most, commanded(nodes, hop).map(Some));
    }
    assert_eq!(commanded(3, 3), Ok(272));
}
