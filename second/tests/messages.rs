//! The bytes of messages: written, read, refused.

use second::limits::UNITS;
use second::message::{read, write, Entry, Message};
use second::tree::{Differences, Link};

#[test]
fn a_message_with_set_and_removed_entries() {
    let message = Message {
        sender: 1,
        acknowledgment: true,
        update: Some(Differences::from([
            (0, None),
            (3, Some(Link { head: 2, cost: 258 })),
        ])),
    };
    let bytes = [1, 1, 3, 2, 0, 3, 255, 0, 0, 2, 1, 2];
    assert_eq!(message.to_bytes(4), Ok(bytes.to_vec()));
    assert_eq!(read(4, &bytes), Ok(message));
    assert_eq!(read(3, &bytes), Err(9), "unit 3 is not below 3");
}

/// All byte strings of up to 4 bytes over some values: just those of 4 bytes
/// with edition 1, a sender below the count, a kind and no entries are taken.
#[test]
fn short_byte_strings() {
    let most = UNITS as u8;
    let alphabet = [0, 1, 2, 3, 4, most - 1, most, 255];
    let mut strings = vec![Vec::new()];
    for length in 0..=4 {
        for bytes in &strings {
            for count in [2, 3, most.into()] {
                let &[edition, sender, kind, entries] = bytes.as_slice() else {
                    assert_eq!(read(count, bytes), Err(9));
                    continue;
                };
                let good = edition == 1
                    && u32::from(sender) < count
                    && (1..=3).contains(&kind)
                    && entries == 0;
                assert_eq!(read(count, bytes).is_ok(), good, "{bytes:?}");
            }
            assert_eq!(read(1, bytes), Err(1));
        }
        if length < 4 {
            strings = longer(&strings, &alphabet);
        }
    }
    assert_eq!(strings.len(), 4096);
}

fn longer(strings: &[Vec<u8>], alphabet: &[u8]) -> Vec<Vec<u8>> {
    let with = |string: &Vec<u8>, byte: &u8| [string.as_slice(), &[*byte]].concat();
    strings
        .iter()
        .flat_map(|string| alphabet.iter().map(move |byte| with(string, byte)))
        .collect()
}

/// Each sentence of the layout, broken once.
#[test]
fn each_sentence_of_the_layout() {
    let good = [1, 0, 2, 2, 1, 2, 0, 0, 5, 1, 0, 7];
    assert!(read(3, &good).is_ok());
    let broken: [(usize, u8, &str); 13] = [
        (0, 2, "edition"),
        (1, 3, "sender below the count"),
        (1, 1, "never the sender"),
        (2, 0, "kind from 1"),
        (2, 4, "kind to 3"),
        (2, 1, "no entries without the update bit"),
        (3, 1, "length"),
        (3, 3, "length"),
        (4, 2, "strictly rising"),
        (5, 3, "unit below the count"),
        (6, 1, "head differs from its unit"),
        (6, 3, "head below the count"),
        (8, 0, "cost from 1"),
    ];
    for (at, byte, why) in broken {
        let mut bytes = good;
        bytes[at] = byte;
        assert_eq!(read(3, &bytes), Err(9), "{why}");
    }
    let removed = [1, 0, 2, 1, 1, 255, 0, 0];
    assert!(read(3, &removed).is_ok());
    assert_eq!(read(3, &[1, 0, 2, 1, 1, 255, 0, 1]), Err(9), "cost 0");
    assert_eq!(read(3, &[1, 0, 2, 1, 1, 254, 0, 0]), Err(9), "255");
    assert_eq!(read(3, &[1, 0, 2, 0, 0]), Err(9), "a byte more");
    assert!(read(3, &[1, 0, 2, 0]).is_ok(), "update without entries");
}

fn entry(unit: u32, head: u32, cost: u32) -> Entry {
    Entry { unit, head, cost }
}

/// What the writer refuses with 9: exactly what the reader would.
#[test]
fn fields_that_the_writer_refuses() {
    let good = entry(1, 0, 5);
    let refused: [(u32, u32, Vec<Entry>); 20] = [
        (0, 0, vec![]),
        (4, 0, vec![]),
        (258, 0, vec![]),
        (1, 0, vec![good]),
        (2, 3, vec![]),
        (2, 256, vec![]),
        (2, 1, vec![good]),
        (2, 0, vec![entry(3, 0, 5)]),
        (2, 0, vec![entry(257, 0, 5)]),
        (2, 0, vec![entry(1, 3, 5)]),
        (2, 0, vec![entry(1, 1, 5)]),
        (2, 0, vec![entry(1, 256, 5)]),
        (2, 0, vec![entry(1, 0, 0)]),
        (2, 0, vec![entry(1, 0, 65_536)]),
        (2, 0, vec![entry(1, 255, 5)]),
        (2, 0, vec![entry(1, 255, 65_536)]),
        (2, 0, vec![entry(1, 511, 0)]),
        (2, 0, vec![good, good]),
        (2, 0, vec![entry(2, 0, 5), good]),
        (2, 0, vec![good, entry(2, 0, 5), entry(2, 0, 6)]),
    ];
    for (kind, sender, entries) in refused {
        let mut frame = [77; 40];
        let answer = write(3, kind, sender, &entries, &mut frame, 3);
        assert_eq!(answer, Err(9), "{kind} {sender} {entries:?}");
        assert_eq!(frame, [77; 40]);
    }
    let mut frame = [77; 40];
    let entries = [good, entry(2, 255, 0)];
    assert_eq!(write(3, 3, 0, &entries, &mut frame, 3), Ok(12));
    assert_eq!(frame[3..15], [1, 0, 3, 2, 1, 2, 0, 0, 5, 255, 0, 0]);
}

/// 1 before 7 before 9, and the room that 7 asks for.
#[test]
fn the_writer_refuses_in_order() {
    let one = [entry(1, 0, 5)];
    let bad = [entry(1, 1, 0)];
    let mut frame = [77; 16];
    assert_eq!(write(1, 9, 9, &bad, &mut frame, 17), Err(1));
    let too_many = UNITS as u32 + 1;
    assert_eq!(write(too_many, 2, 0, &one, &mut frame, 0), Err(1));
    assert_eq!(write(3, 9, 9, &bad, &mut frame, 9), Err(7));
    assert_eq!(write(3, 2, 0, &one, &mut frame, 9), Err(7));
    assert_eq!(write(3, 2, 0, &[], &mut frame, 13), Err(7));
    assert_eq!(write(3, 2, 0, &[], &mut frame, 16), Err(7));
    assert_eq!(write(3, 2, 0, &[], &mut frame, 17), Err(7));
    assert_eq!(write(3, 2, 0, &[], &mut frame, usize::MAX), Err(7));
    assert_eq!(write(3, 2, 0, &[], &mut [], 0), Err(7));
    assert_eq!(write(3, 2, 0, &bad, &mut frame, 8), Err(9));
    assert_eq!(frame, [77; 16]);
    assert_eq!(write(3, 2, 0, &one, &mut frame, 8), Ok(8));
    assert_eq!(write(3, 1, 2, &[], &mut frame, 4), Ok(4));
    assert_eq!(frame, [77, 77, 77, 77, 1, 2, 1, 0, 1, 0, 2, 1, 1, 0, 0, 5]);
}
