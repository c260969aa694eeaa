use super::*;

#[test]
fn the_example_at_node_2000() {
    let mut output = [0xAA; 30];
    let (node, lists) = (Node::new(2000), Lists::none());
    let answer = hear(&node, &lists, &example(), &mut output);
    assert_eq!(answer.delivery, Err(Refusal::ForAnother));
    assert_eq!((answer.repeat, answer.taken), (Ok(22), 20));
    assert_eq!(answer.last_sender, Some(1000));
    assert_eq!(output[..22], repeated());
    assert_eq!(output[22..], [0xAA; 8]);
    let again = hear(&node, &lists, &repeated(), &mut output);
    assert_eq!(again.repeat, Err(Refusal::Echo));
    assert_eq!(again.last_sender, Some(2000));
    let unread = hear(&node, &lists, &example()[..19], &mut output);
    assert_eq!(unread.last_sender, None);
}

#[test]
fn the_example_at_its_destination() {
    let answer = hear(&Node::new(1600), &Lists::none(), &example(), &mut []);
    assert_eq!(answer.delivery, Ok(9..20));
    assert_eq!(answer.repeat, Err(Refusal::ForThisNode));
}

#[test]
fn the_job_of_01_is_walked() {
    let batch = [&example()[..], &[0, 0, 0, 0, 0, 5]].concat();
    let (answers, end) = walked(&batch);
    let numbers: Vec<_> = answers
        .into_iter()
        .map(|(place, answer)| (place, answer.delivery.is_ok(), answer.repeat))
        .collect();
    let wanted = [(0, false, Ok(22)), (20, true, Err(Refusal::HopLimit0))];
    assert_eq!((numbers, end), (wanted.to_vec(), 26));
    let long = [0; 16_385];
    let refused = step(
        &Node::new(1),
        &Lists::none(),
        &long,
        Cursor::default(),
        &mut [],
    );
    assert_eq!(refused, Step::Refused(Refusal::BatchTooLong));
}

#[test]
fn other_editions_are_refused() {
    let (unknown, pdu) = (Refusal::UnknownEdition, example());
    let lists = source_pass(&[], &[1, 1]).unwrap();
    for edition in [0, 1, 10, 13, (1 << 32) + 11, (1 << 32) + 12, u64::MAX] {
        let mut output = [0xAA; 30];
        assert_eq!(read(edition, &pdu), Err(unknown));
        assert_eq!(write_again(edition, &[], &mut output), Err(unknown));
        let fresh = Fresh {
            edition,
            hop_limit: 8,
            ..fresh()
        };
        assert_eq!(originate(&fresh, &PAYLOAD, &mut output), Err(unknown));
        let node = Node {
            edition,
            ..Node::new(2000)
        };
        let at_fault = raw::hear(node.raw(), &[1, 0, 0, 0, 0, 0, 0, 0, 7], &pdu, &mut output);
        assert_eq!((at_fault.delivery, at_fault.repeat), (17, 17));
        let answer = hear(&node, &lists, &pdu, &mut output);
        assert_eq!(answer.delivery, Err(unknown));
        assert_eq!((answer.repeat, answer.taken), (Err(unknown), 0));
        let mut stations = Stations::new();
        let listened = stations.hear(&node, &lists, &pdu, &mut output);
        assert_eq!((&listened.answer, listened.table), (&answer, Ok(())));
        assert!(stations.is_empty());
        let long = [0; 16_385];
        let walked = |cursor| step(&node, &lists, &long, cursor, &mut [0; 30]);
        let next = Cursor {
            place: 0,
            ended: true,
        };
        assert_eq!(walked(Cursor::default()), Step::Answered(answer, next));
        assert_eq!(walked(next), Step::Ended);
        assert_eq!(output, [0xAA; 30]);
    }
}
