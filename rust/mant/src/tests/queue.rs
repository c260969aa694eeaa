use super::*;

#[test]
fn pdus_wait_for_the_next_slot() {
    let mut queue = Queue::default();
    let mut output = [0xAA; 64];
    assert_eq!(queue.take(&mut output), Ok(Taken::default()));
    let shortest = [0, 0, 0, 0, 0, 5];
    for pdu in [&example()[..], &repeated(), &shortest] {
        assert_eq!(queue.add(pdu), Ok(()));
    }
    assert_eq!(queue.level(), Level { pdus: 3, bytes: 48 });
    let before = queue.clone();
    let joined = [&shortest[..], &shortest].concat();
    for bytes in [&example()[..19], &joined, &[]] {
        assert_eq!(queue.add(bytes), Err(Refusal::NotOnePdu));
    }
    let refused = queue.take(&mut output[..19]);
    assert_eq!(refused, Err(Refusal::OldestTooLong));
    assert_eq!((&queue, output), (&before, [0xAA; 64]));
    let taken = queue.take(&mut output[..47]);
    assert_eq!(taken, Ok(Taken { pdus: 2, bytes: 42 }));
    assert_eq!(output[..42], [example(), repeated()].concat());
    assert_eq!(output[42..], [0xAA; 22]);
    assert_eq!(queue.iter().collect::<Vec<_>>(), [shortest]);
    assert_ne!(queue, before);
}

#[test]
fn a_full_queue() {
    let mut queue = Queue::new();
    let mut pdu = vec![0; 64];
    pdu[3] = 58;
    for source in 0..Queue::PDUS as u8 {
        pdu[5] = source;
        assert_eq!(queue.add(&pdu), Ok(()));
    }
    let full = Level {
        pdus: Queue::PDUS,
        bytes: Queue::BYTES,
    };
    assert_eq!(queue.level(), full);
    assert_eq!(queue.add(&pdu), Err(Refusal::QueueFull));
    assert_eq!(queue.add(&pdu[1..]), Err(Refusal::NotOnePdu));
    assert_eq!(queue.level(), full);
    let sources: Vec<u8> = queue.iter().map(|pdu| pdu[5]).collect();
    assert!(sources.into_iter().eq(0..32));
    let kept = Queue::from_memory(*queue.memory());
    assert_eq!(kept, queue);
}

#[test]
fn a_queue_keeps_its_level() {
    let mut queue = Queue::new();
    queue.clear();
    assert_eq!(queue.memory(), Queue::new().memory());
    for pdu in [&example()[..], &repeated(), &[0, 0, 0, 0, 0, 5]] {
        assert_eq!(queue.add(pdu), Ok(()));
    }
    assert_eq!(queue.memory()[..6], [0, 3, 0, 48, 0, 0]);
    assert_eq!(queue.add(&[]), Err(Refusal::NotOnePdu));
    assert_eq!(queue.level(), Level { pdus: 3, bytes: 48 });
    assert_eq!(queue.take(&mut [0; 42]).map(|taken| taken.pdus), Ok(2));
    assert_eq!(queue.level(), Level { pdus: 1, bytes: 6 });
    let mut left = *queue.memory();
    assert_eq!(left[..6], [0, 1, 0, 6, 0, 42]);
    left[..6].fill(0);
    queue.clear();
    assert_eq!(queue.level(), Level::default());
    assert!(queue.is_empty() && queue == Queue::new());
    assert_eq!(queue.memory(), &left);
}

#[test]
fn arbitrary_memory_is_a_queue() {
    let mut memory = [0; Queue::LENGTH];
    memory[..6].fill(0xFF);
    let mut queue = Queue::from_memory(memory);
    let told = Level {
        pdus: Queue::PDUS,
        bytes: Queue::BYTES,
    };
    assert_eq!((queue.level(), queue.is_empty()), (told, false));
    assert_eq!(queue.iter().count(), Queue::PDUS);
    assert_eq!(queue.add(&[0; 6]), Err(Refusal::QueueFull));
    assert_eq!(queue.take(&mut []), Err(Refusal::OldestTooLong));
    assert_eq!(queue.memory(), &memory);
    assert_eq!(queue.take(&mut [0; 6]), Ok(Taken { pdus: 1, bytes: 6 }));
    let rest = Level {
        pdus: 31,
        bytes: 2042,
    };
    assert_eq!((queue.level(), queue.iter().count()), (rest, 31));
    assert_eq!(queue.memory()[..6], [0, 31, 0x07, 0xFA, 0, 0]);
    let unreadable = Queue::from_memory([0xFF; Queue::LENGTH]);
    assert_eq!((unreadable.level(), unreadable.is_empty()), (told, true));
    assert_eq!(unreadable.clone().take(&mut []), Ok(Taken::default()));
}
