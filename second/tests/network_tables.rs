//! A network's tables: laid out by hand, read back, and refused by each rule
//! that refusal 2 lists.

use second::limits::{QUEUE_ROOM, UNITS};
use second::network::Network;
use second::network_tables::{byte_name, queue_at, word_name, Tables};
use second::network_tables::{PLACE, QUEUE, QUEUES_BYTES, UNITS_BYTES, UNIT_BYTES, WORDS};
use second::refusal::UNFIT;
use second::unit_table::{COSTS, COUNT, FEASIBLE, NUMBER, WORDS as UNIT};

/// P3: two units, up 0-1 at costs 5 and 7.
fn p3() -> Network {
    let mut network = Network::fresh(2).unwrap();
    network.up(0, 1, 5, 7).unwrap();
    network
}

/// A chain 0-1-2 of three units with messages under way.
fn chain() -> Network {
    let mut network = Network::fresh(3).unwrap();
    network.up(0, 1, 1, 1).unwrap();
    network.up(1, 2, 1, 1).unwrap();
    network.deliver(0, 1).unwrap();
    network
}

fn is_fit(tables: &Tables) -> bool {
    match tables.read() {
        Ok(network) => {
            assert!(network.is_fit(), "the other judgement differs");
            assert_eq!(Tables::of(&network), *tables, "a second layout");
            true
        }
        Err(refusal) => {
            assert_eq!(refusal, UNFIT);
            false
        }
    }
}

/// Every place of P3's tables, from the figures of `docs/TABLES.md` by hand. The
/// messages are P4's and its mirror image.
#[test]
fn two_units_by_hand() {
    let mut tables = Tables {
        units: vec![0; 21_632],
        queues: vec![0; 65_536],
    };
    for (place, word) in [(0, 2), (3, 5), (19, 1), (35, 5), (51, 5), (67, 2)] {
        tables.units[4 * place + 3] = word;
    }
    for (place, word) in [(0, 2), (1, 1), (2, 7), (18, 1), (50, 7), (66, 1)] {
        tables.units[1_352 + 4 * place + 3] = word;
    }
    tables.units[1_352 + 4 * 34 + 1] = 1;
    tables.units[1_352 + 4 * 34 + 3] = 7;
    tables.queues[256..264].copy_from_slice(&[1, 0, 2, 1, 1, 0, 0, 5]);
    tables.queues[4_096..4_104].copy_from_slice(&[1, 1, 2, 1, 0, 1, 0, 7]);
    assert_eq!(Tables::of(&p3()), tables);
    assert_eq!(tables.read(), Ok(p3()));
}

/// P5: the second message of queue 1 to 0 is in the second place.
#[test]
fn a_second_message() {
    let mut network = p3();
    network.deliver(0, 1).unwrap();
    let tables = Tables::of(&network);
    assert_eq!(tables.queues[queue_at(0, 1)..][..QUEUE], [0; QUEUE]);
    let second_place = queue_at(1, 0) + PLACE;
    assert_eq!(tables.queues[second_place..][..5], [1, 1, 1, 0, 0]);
    assert_eq!(tables.read(), Ok(network));
}

#[test]
fn names_of_places() {
    let place = FEASIBLE + 1;
    let name = format!("unit 1, number {place} (feasible distance of 1)");
    assert_eq!(word_name(UNIT + place), name);
    let name = byte_name(queue_at(2, 3) + PLACE + 5);
    assert_eq!(name, "queue 2 to 3, message 1, byte 5");
}

#[test]
fn lengths() {
    let fit = Tables::of(&chain());
    assert!(is_fit(&fit));
    let others = |whole: usize| [0, whole - 4, whole - 1, whole + 1, whole + 4];
    for bytes in others(UNITS_BYTES) {
        let mut tables = fit.clone();
        tables.units.resize(bytes, 0);
        assert!(!is_fit(&tables), "{bytes} bytes of units");
    }
    for bytes in others(QUEUES_BYTES) {
        let mut tables = fit.clone();
        tables.queues.resize(bytes, 0);
        assert!(!is_fit(&tables), "{bytes} bytes of queues");
    }
}

/// Numbers that are unfit for the network though not always for the unit.
#[test]
fn unfit_numbers() {
    let fit = Tables::of(&chain());
    let places = [
        (COUNT, 2),
        (COUNT, 4),
        (UNIT + COUNT, 4),
        (UNIT + NUMBER, 2),
        (3 * UNIT + COUNT, 3),
        (WORDS - 1, 1),
        // The link 0-1 up at one end only: both ends still have their copies.
        (COSTS + 1, 0),
    ];
    for (place, word) in places {
        let mut tables = fit.clone();
        tables.set_number(place, word);
        assert_eq!(tables.number(place), word);
        assert!(!is_fit(&tables), "{}: {word}", word_name(place));
    }
}

/// Two whole units exchanged: each is fit alone, but not in the other's place.
#[test]
fn units_in_each_others_places() {
    let mut tables = Tables::of(&chain());
    let (first, rest) = tables.units.split_at_mut(UNIT_BYTES);
    first.swap_with_slice(&mut rest[..UNIT_BYTES]);
    assert!(!is_fit(&tables));
}

/// A link that one end has taken down entirely, queues emptied.
#[test]
fn a_link_up_at_one_end_only() {
    let mut network = chain();
    network.queues.clear_link(0, 1);
    assert!(is_fit(&Tables::of(&network)));
    network.units[0].down(1).unwrap();
    assert!(network.units.iter().all(|unit| unit.is_fit()));
    assert!(!is_fit(&Tables::of(&network)));
    network.units[1].down(0).unwrap();
    assert!(is_fit(&Tables::of(&network)));
}

#[test]
fn unfit_queues() {
    let fit = Tables::of(&chain());
    const ACKNOWLEDGMENT: &[u8] = &[1, 0, 1, 0];
    const LAST: u8 = UNITS as u8 - 1;
    assert_eq!(fit.queues[queue_at(1, 0)..][..4], [1, 1, 2, 1]);
    type Case = (&'static str, u8, u8, usize, &'static [u8], bool);
    let cases: [Case; 12] = [
        ("a message more", 0, 1, 0, ACKNOWLEDGMENT, true),
        ("free place before it", 0, 1, PLACE, ACKNOWLEDGMENT, false),
        ("a link that is down", 0, 2, 0, ACKNOWLEDGMENT, false),
        ("to itself", 0, 0, 0, ACKNOWLEDGMENT, false),
        ("to no unit", 0, 3, 0, ACKNOWLEDGMENT, false),
        ("from no unit", 3, 0, 0, &[1, 3, 1, 0], false),
        ("last byte of all", LAST, LAST, QUEUE - 1, &[1], false),
        ("not from its sender", 0, 1, 0, &[1, 1, 1, 0], false),
        ("against the layout", 0, 1, 0, &[1, 0, 4, 0], false),
        ("edition 0", 0, 1, 0, &[0, 0, 1, 0], false),
        ("longer than its place", 0, 1, 0, &[1, 0, 2, 255], false),
        ("a byte after it", 0, 1, 0, &[1, 0, 1, 0, 1], false),
    ];
    for (what, from, to, offset, bytes, expected) in cases {
        let mut tables = fit.clone();
        let place = queue_at(from, to) + offset;
        tables.queues[place..place + bytes.len()].copy_from_slice(bytes);
        assert_eq!(is_fit(&tables), expected, "{what}");
    }
    let mut tables = fit.clone();
    tables.queues[queue_at(0, 1) + PLACE - 1] = 1;
    assert!(!is_fit(&tables), "only the last byte of a place");
}

/// As many messages as there is room for fill a queue to its last place.
#[test]
fn a_full_queue() {
    let mut tables = Tables::of(&chain());
    for place in 0..QUEUE_ROOM {
        let at = queue_at(0, 1) + place * PLACE;
        tables.queues[at..at + 4].copy_from_slice(&[1, 0, 1, 0]);
        assert!(is_fit(&tables), "{place}");
    }
}
