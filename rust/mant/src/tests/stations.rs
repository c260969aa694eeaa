use super::*;

/// The example from another source.
fn from(source: u16) -> Vec<u8> {
    let mut pdu = example();
    pdu[4..6].copy_from_slice(&source.to_be_bytes());
    pdu
}

/// Heard at node 2000.
fn heard(stations: &mut Stations, received: &[u8]) -> Listened {
    let lists = Lists::none();
    stations.hear(&Node::new(2000), &lists, received, &mut [0; 30])
}

fn number(answered: Result<(), Refusal>) -> u8 {
    answered.map_or_else(Refusal::number, |()| 0)
}

#[test]
fn a_node_drops_its_own_report() {
    let mut stations = Stations::new();
    let mut output = [0xAA; 30];
    let (lists, originator) = (Lists::none(), Node::new(1000));
    let own = Some(Refusal::OwnReport);
    for report in [example(), repeated(), vec![0, 0, 0x70, 0, 0x03, 0xE8]] {
        let answer = stations
            .hear(&originator, &lists, &report, &mut output)
            .answer;
        assert_eq!((answer.delivery.err(), answer.repeat.err()), (own, own));
        assert_eq!((answer.taken, output), (report.len(), [0xAA; 30]));
    }
    let station = stations.get(1000).unwrap();
    assert_eq!((station.reads, station.echoes), (3, 3));
    let off = Node {
        echo: false,
        ..originator
    };
    let answer = hear(&off, &lists, &example(), &mut output);
    assert_eq!(answer.delivery, Err(Refusal::ForAnother));
    assert_eq!(answer.repeat, Ok(22));
}

#[test]
fn the_example_is_counted() {
    let mut stations = Stations::default();
    let mut output = [0; 30];
    let (node, lists) = (Node::new(2000), Lists::none());
    let listened = stations.hear(&node, &lists, &example(), &mut output);
    let answer = hear(&node, &lists, &example(), &mut [0; 30]);
    assert_eq!((listened.answer, listened.table), (answer, Ok(())));
    assert_eq!(output[..22], repeated());
    stations.hear(&node, &lists, &repeated(), &mut output);
    stations.hear(&node, &lists, &example()[..19], &mut output);
    let station = Station {
        address: 1000,
        reads: 2,
        echoes: 1,
        shortest_path: Some(0),
    };
    assert_eq!(stations.get(1000), Ok(station));
    assert_eq!(stations.get(1001).map_err(Refusal::number), Err(56));
    assert_eq!(stations.iter().collect::<Vec<_>>(), [station]);
    assert_eq!(stations.remove(1000), Ok(()));
    assert_eq!(number(stations.remove(1000)), 56);
    assert_eq!((stations.len(), stations.at(0)), (0, None));
    assert_eq!(stations, Stations::default());
}

#[test]
fn a_walk_is_counted() {
    let batch = [&example()[..], &[0, 0, 0, 0, 0, 5], &[1]].concat();
    let mut stations = Stations::default();
    for (place, answer) in walked(&batch).0 {
        let counted = stations.count_answer(&batch[place..], &answer);
        assert_eq!(counted, Ok(()));
    }
    let shown = |station: Station| (station.address, station.reads, station.shortest_path);
    let listed: Vec<_> = stations.iter().map(shown).collect();
    assert_eq!(listed, [(5, 1, None), (1000, 1, Some(0))]);
}

#[test]
fn a_full_table() {
    let mut stations = Stations::default();
    for source in (0..Stations::LIMIT as u16).rev() {
        let heard = Heard {
            source,
            ..Heard::default()
        };
        assert_eq!(stations.count(&heard), Ok(()));
    }
    let before = stations.clone();
    let listened = heard(&mut stations, &from(999));
    assert_eq!(
        (listened.answer.repeat, number(listened.table)),
        (Ok(22), 55)
    );
    assert_eq!((stations.len(), &stations), (Stations::LIMIT, &before));
    let listened = heard(&mut stations, &from(127));
    assert_eq!(listened.table, Ok(()));
    assert_eq!(stations.get(127).map(|station| station.reads), Ok(2));
    let addresses = stations.iter().map(|station| station.address);
    assert!(addresses.eq(0..Stations::LIMIT as u16));
}

#[test]
fn counts_stop() {
    let mut words = [0; Stations::WORDS];
    words[..5].copy_from_slice(&[1, 1000, 65_535, 65_534, 8]);
    let mut stations = Stations::from_words(words);
    for path_count in [9, 6] {
        let heard = Heard {
            source: 1000,
            echo: true,
            path_count: Some(path_count),
        };
        assert_eq!(stations.count(&heard), Ok(()));
    }
    assert_eq!(stations.words()[..5], [1, 1000, 65_535, 65_535, 7]);
    assert_eq!(
        stations.get(1000).map(|station| station.shortest_path),
        Ok(Some(6))
    );
}
