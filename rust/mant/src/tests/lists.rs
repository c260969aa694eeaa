use super::*;

#[test]
fn lists() {
    let laid = source_pass(&[], &[1, 2, 2, 2]).unwrap();
    assert_eq!(laid.words(), [0, 4, 0, 0, 0, 0, 0, 0, 1, 2, 2, 2]);
    let fault = |second: &[u16]| source_pass(&[], second).unwrap_err();
    assert_eq!(fault(&[2, 1]).refusal, Refusal::LowAboveHigh);
    assert_eq!(fault(&[1]).refusal, Refusal::ListOdd);
    for length in [129, 130, 65_536, 65_538, 70_000] {
        let fault = fault(&vec![1; length]);
        assert_eq!(fault.refusal, Refusal::ListTooLong);
        assert_eq!(fault.list, List::SourcePassSecond);
    }
    assert_eq!(
        fault(&[1]).to_string(),
        "second source pass list: 21 (the last value of a list has no partner)"
    );
    assert_eq!(Refusal::from(fault(&[2, 1])), Refusal::LowAboveHigh);
    assert!(Lists::none().words().is_empty());
    assert!(list_holds(&[1, 3], 3));
    assert!(!list_holds(&[1, 3], 4));
}

const NAMES: [List; 8] = [
    List::SourcePassFirst,
    List::SourcePassSecond,
    List::SourceRejectFirst,
    List::SourceRejectSecond,
    List::DestinationPassFirst,
    List::DestinationPassSecond,
    List::DestinationRejectFirst,
    List::DestinationRejectSecond,
];

#[test]
fn the_first_fault_of_eight_lists() {
    let (bad, odd): (&[u16], &[u16]) = (&[2, 1], &[1]);
    let of = |place: usize, list| {
        let mut eight: raw::Lists = [&[]; 8];
        eight[place] = list;
        eight[place + 1..].fill(odd);
        eight
    };
    for (place, name) in NAMES.into_iter().enumerate() {
        let [a, b, c, d, e, f, g, h] = of(place, bad);
        let two = |first, second| TwoLists { first, second };
        let fault = Lists::lay(&EightLists {
            source_pass: two(a, b),
            source_reject: two(c, d),
            destination_pass: two(e, f),
            destination_reject: two(g, h),
        })
        .unwrap_err();
        assert_eq!((fault.refusal, fault.list), (Refusal::LowAboveHigh, name));
        let mut block = [0xAAAA; raw::LIST_WORDS];
        let fault = raw::lay_eight(&mut block, of(place, bad));
        assert_eq!((fault.number, usize::from(fault.list)), (20, place));
        assert_eq!(raw::list_fault(&block), fault);
        let answer = raw::hear(Node::new(2000).raw(), &block, &example(), &mut [0; 30]);
        assert_eq!((answer.delivery, answer.repeat), (20, 20));
        let later = if place == 7 { (0, 8) } else { (21, place + 1) };
        let fault = raw::lay_eight(&mut block, of(place, &[]));
        assert_eq!((fault.number, usize::from(fault.list)), later);
    }
    assert_eq!(raw::list_fault(&[]), raw::ListFault { number: 0, list: 8 });
}

#[test]
fn the_list_chosen_is_read() {
    let lists = source_pass(&[1000, 1000], &[1001, 1001]).unwrap();
    let heard = |source_pass| {
        let node = Node {
            source_pass,
            ..Node::new(2000)
        };
        hear(&node, &lists, &example(), &mut [0; 30]).repeat
    };
    assert_eq!(heard(Choice::None), Ok(22));
    assert_eq!(heard(Choice::First), Ok(22));
    assert_eq!(heard(Choice::Second), Err(Refusal::SourceNotPassed));
    for number in [0, 1, 3, 255] {
        let node = raw::Node {
            source_reject: number,
            ..Node::new(2000).raw()
        };
        let block = [0, 0, 0, 2, 0, 0, 0, 0, 1000, 1000];
        let answer = raw::hear(node, &block, &example(), &mut [0; 30]);
        assert_eq!(answer.repeat, 0);
    }
}

#[test]
fn a_node_changes_over() {
    let node = Node {
        edition: EDITION_1_1,
        echo: false,
        destination_pass: Choice::First,
        ..Node::new(2000)
    };
    for choice in [Choice::None, Choice::First, Choice::Second] {
        let wanted = Node {
            source_pass: choice,
            source_reject: choice,
            destination_pass: choice,
            destination_reject: choice,
            ..node
        };
        assert_eq!(node.change_over(choice), wanted);
    }
    for number in [0, 3, 257, (1 << 32) + 1, u64::MAX] {
        let none = node.change_over(Choice::None).raw();
        assert_eq!(raw::change_over(node.raw(), number), none);
    }
}
