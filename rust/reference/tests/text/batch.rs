//! 01, "A batch" and "The program `relay`".

use crate::node;
use reference::*;

/// 01, "A batch": goes on after 39, ends at 6, which is not taken.
#[test]
fn walk_ends_at_a_pdu_that_cannot_be_read() {
    let batch = [
        1, 0, 0, 0, 0, 1, 0, 2, // for node 2
        0, 0, 16, 0, 0, 1, // for everyone
        0, 0, 0, 9, 0, 1, // its payload is missing
    ];
    let walked = walk(&node(9), &Lists::EMPTY, &batch, &mut [0; 6]).unwrap();
    let lines: Vec<_> = walked
        .steps
        .iter()
        .map(|step| (step.offset, step.answer.delivery, step.answer.repeat))
        .collect();
    assert_eq!(lines, [(0, 39, 37), (8, 0, 0), (14, 6, 6)]);
    assert_eq!(walked.steps[1].repeated, [0, 0, 0, 0, 0, 1]);
    assert_eq!(walked.end, 14);
}

/// 01, "A batch": after 40 the walk goes on, as after any other.
#[test]
fn walk_goes_on_after_40() {
    let batch = [0, 0, 16, 0, 0, 1, 0, 0, 0, 0, 0, 1];
    let walked = walk(&node(9), &Lists::EMPTY, &batch, &mut [0; 5]).unwrap();
    assert_eq!(walked.steps.len(), 2);
    assert_eq!(walked.steps[0].answer.repeat, 40);
    assert_eq!(walked.end, 12);
}

/// 01, "A batch": the size limit, and no answer where no bytes are left.
#[test]
fn walk_limits() {
    let bad = Lists::firsts([&[1], &[], &[], &[]]);
    let walk_of = |length| walk(&node(9), &bad, &vec![0; length], &mut []);
    assert_eq!(walk_of(16_385), Err(54));
    let full = walk_of(16_384).unwrap();
    assert_eq!((full.steps.len(), full.end), (1, 0));
    assert_eq!(full.steps[0].answer.delivery, 21);
    let empty = walk_of(0).unwrap();
    assert_eq!((empty.steps.len(), empty.end), (0, 0));
}

/// 01, "The program `relay`": read left to right, the first fault met.
#[test]
fn jobs_refused() {
    let refused = |job: &[u8], number: u8| {
        assert_eq!(relay(job), format!("refused {number}\n"), "{job:?}");
    };
    let empty = [0, 5, 0, 0, 0, 0, 0, 0, 0];
    for length in 0..empty.len() {
        refused(&empty[..length], 50);
    }
    assert_eq!(relay(&empty), "relay 5\nend 0 0\n");
    refused(&[0, 5, 0, 0, 0, 0, 0, 0, 0, 0], 53);
    refused(&[0, 5, 0x40], 51);
    refused(&[0, 5, 0x80, 65], 51);
    refused(&[0, 5, 0x3F, 65], 52);
    refused(&[0, 5, 0, 2, 0, 2, 0, 1], 20);
    refused(&[0, 5, 0, 2, 0, 2, 0], 50);
    refused(&[0, 5, 0, 0, 0, 0, 0, 0x40, 1], 54);
    refused(&[0, 5, 0, 0, 0, 0, 0, 0x40, 0], 50);
}

/// 01, "The program `relay`": a PDU that can't be read has its line too.
#[test]
fn job_with_an_unreadable_pdu() {
    let job = [
        0xFF, 0xFF, 0x3F, 1, 0, 1, 0, 1, 0, 0, 0, 0, 7, 0, 0, 0, 0, 0, 2, 0x40,
    ];
    let printed = "relay 65535\n1 0 31 31 - -\n2 6 1 1 - -\nend 2 6\n";
    assert_eq!(relay(&job), printed);
}
