//! 02, W-211: two lists of each kind.

use crate::node;
use reference::*;

const CHOICES: [Choice; 3] = [Choice::None, Choice::First, Choice::Second];

/// From 5 to 7, hop limit 2.
const PDU: [u8; 8] = [1, 0, 0x20, 0, 0, 5, 0, 7];

/// A node 9 with these choices.
fn with(choices: [Choice; 4]) -> Settings {
    let [source_pass, source_reject, destination_pass, destination_reject] = choices;
    Settings {
        source_pass,
        source_reject,
        destination_pass,
        destination_reject,
        ..node(9)
    }
}

/// What it answers for the PDU.
fn delivery(choices: [Choice; 4], lists: [&[u16]; 8]) -> u8 {
    hear(&with(choices), &Lists::of(lists), &PDU, &mut [0; 8]).delivery
}

/// All choices of the four kinds.
fn all_choices() -> Vec<[Choice; 4]> {
    let all = |number: usize| [1, 3, 9, 27].map(|power| CHOICES[number / power % 3]);
    (0..81).map(all).collect()
}

/// "All eight are checked, in the order of 01, first before second."
#[test]
fn the_first_fault_of_eight() {
    let (bad, odd, long) = ([2, 1], [1], [1; 129]);
    let faults: [(u8, &[u16]); 3] = [(20, &bad), (21, &odd), (22, &long)];
    for place in 0..8 {
        for (number, list) in faults {
            let mut lists: [&[u16]; 8] = [&[]; 8];
            lists[place] = list;
            let fault = |number, list| Some(ListFault { number, list });
            assert_eq!(list_fault(&Lists::of(lists)), fault(number, place));
            for choices in all_choices() {
                assert_eq!(delivery(choices, lists), number);
            }
            let (other, at_fault) = faults[usize::from(number) % 3];
            lists[place + 1..].fill(at_fault);
            assert_eq!(list_fault(&Lists::of(lists)), fault(number, place));
            lists[place] = &[];
            let left = fault(other, place + 1).filter(|_| place < 7);
            assert_eq!(list_fault(&Lists::of(lists)), left);
        }
    }
}

/// A list is on exactly where it is chosen, each kind by itself.
#[test]
fn the_list_chosen_is_read() {
    let other: &[u16] = &[100, 200];
    for (kind, number, address) in [(0, 31, 5), (1, 32, 5), (2, 33, 7), (3, 34, 7)] {
        let holding: &[u16] = &[address, address];
        let is_pass = number % 2 == 1;
        for choice in CHOICES {
            for (first, second) in [(holding, other), (other, holding), (&[][..], holding)] {
                let mut lists: [&[u16]; 8] = [&[]; 8];
                (lists[2 * kind], lists[2 * kind + 1]) = (first, second);
                let mut choices = [Choice::None; 4];
                choices[kind] = choice;
                let chosen = match choice {
                    Choice::None => None,
                    Choice::First => Some(first),
                    Choice::Second => Some(second),
                };
                let drops = chosen.is_some_and(|list| (list == holding) != is_pass);
                let wanted = if drops { number } else { 39 };
                assert_eq!(delivery(choices, lists), wanted);
            }
        }
    }
}

/// A node of eight lists answers as one whose firsts are the lists chosen.
#[test]
fn as_with_the_four_chosen() {
    let [five, seven, both, none]: [&[u16]; 4] = [&[5, 5], &[7, 7], &[5, 7], &[]];
    for lists in [
        [five, none, none, five, seven, none, none, seven],
        [none, both, seven, none, five, both, five, none],
        [both, five, seven, five, both, seven, seven, five],
    ] {
        for choices in all_choices() {
            let chosen = |kind: usize| match choices[kind] {
                Choice::None => none,
                Choice::First => lists[2 * kind],
                Choice::Second => lists[2 * kind + 1],
            };
            let firsts = [0, 1, 2, 3].map(chosen);
            let on = choices.map(|choice| match choice {
                Choice::None => Choice::None,
                _ => Choice::First,
            });
            let [a, b, c, d] = firsts;
            let of_four = delivery(on, [a, none, b, none, c, none, d, none]);
            assert_eq!(delivery(choices, lists), of_four);
        }
    }
}

/// Operators "change over by one setting".
#[test]
fn one_setting_changes_over() {
    for choices in all_choices() {
        let before = with(choices);
        for choice in CHOICES {
            assert_eq!(before.changed_over(choice), with([choice; 4]));
        }
    }
}

/// Every block holds eight lists: lengths, then values, cut where it ends.
#[test]
fn lists_in_a_block() {
    let block = [1, 0, 2, 0, 0, 0, 3, 65_535, 10, 20, 21, 30, 31, 32, 40];
    let lists: [&[u16]; 8] = [&[10], &[], &[20, 21], &[], &[], &[], &[30, 31, 32], &[40]];
    assert_eq!(Lists::in_block(&block).in_order(), lists);
    let cut: [&[u16]; 8] = [&[10], &[], &[20, 21], &[], &[], &[], &[30, 31], &[]];
    assert_eq!(Lists::in_block(&block[..13]).in_order(), cut);
    for length in 0..=8 {
        assert_eq!(Lists::in_block(&[65_535; 8][..length]), Lists::EMPTY);
    }
    let far = [65_535, 1, 0, 0, 0, 0, 0, 0, 7, 8];
    assert_eq!(Lists::in_block(&far).in_order()[..2], [&[7, 8][..], &[]]);
}

/// What was laid is there again; a list that is too long stays too long.
#[test]
fn lists_laid() {
    let (most, long, longest) = (vec![7; 128], vec![7; 129], vec![7; 65_536]);
    let lists = Lists::of([&most, &[], &[1, 2], &[3], &[], &most, &most, &[5, 4]]);
    let block = lists.laid();
    assert_eq!(block[..9], [128, 0, 2, 1, 0, 128, 128, 2, 7]);
    assert_eq!(Lists::in_block(&block), lists);
    assert_eq!(Lists::EMPTY.laid(), [0; 8]);
    for list in [&long, &longest] {
        let block = Lists::of([&[], list, &[1], list, list, list, list, list]).laid();
        assert_eq!((block[1], block.len()), (129, 8 + 6 * 129 + 1));
        let fault = list_fault(&Lists::in_block(&block));
        assert_eq!(fault.map(|fault| (fault.number, fault.list)), Some((22, 1)));
    }
    assert_eq!(Lists::of([&longest; 8]).laid().len(), 1_040);
}

/// "The job of `relay` keeps its four sections, each its kind's first list; the
/// second is empty."
#[test]
fn a_job_has_firsts() {
    let mut job = vec![0, 9, 0x3C, 1, 0, 5, 0, 5, 0, 0, 0, 0, 8];
    job.extend(PDU);
    let read = read_job(&job).unwrap();
    assert_eq!(read.settings.source_pass, Choice::First);
    assert_eq!(read.settings.destination_reject, Choice::First);
    assert_eq!(relay(&job), "relay 9\n1 0 33 33 - -\nend 1 8\n");
    job[2] = 4;
    assert_eq!(relay(&job), "relay 9\n1 0 39 36 - -\nend 1 8\n");
}
