//! Messages made up from a seed, written and read by the second program.

use second::limits::message_length;
use second::message::{read, write, Entry};
use shared::draw::MOST;
use shared::rng::Rng;
use shared::sample::{self, Fields};

/// How many messages of each kind.
const MESSAGES: usize = 20_000;

fn entries(fields: &Fields) -> Vec<Entry> {
    fields.changes.iter().map(|&it| sample::entry(it)).collect()
}

/// Writes legal fields into a frame of noise; the bytes around them must stay.
fn written(fields: &Fields, rng: &mut Rng) -> Vec<u8> {
    let entries = entries(fields);
    let offset = rng.between(0, 9) as usize;
    let length = message_length(entries.len());
    let room = offset + length + rng.between(0, 9) as usize;
    let noise: Vec<u8> = (0..room).map(|_| rng.next_bits() as u8).collect();
    let mut frame = noise.clone();
    let Fields {
        count,
        kind,
        sender,
        ..
    } = *fields;
    let answer = write(count, kind, sender, &entries, &mut frame, offset);
    assert_eq!(answer, Ok(length));
    assert_eq!(frame[..offset], noise[..offset]);
    assert_eq!(frame[offset + length..], noise[offset + length..]);
    frame[offset..offset + length].to_vec()
}

#[test]
fn what_is_written_is_read() {
    let mut rng = Rng::new(11);
    for _ in 0..MESSAGES {
        let fields = sample::legal(&mut rng);
        let bytes = written(&fields, &mut rng);
        assert_eq!(bytes, sample::laid_out(&fields));
        let message = read(fields.count, &bytes).unwrap();
        assert_eq!(message.kind(), fields.kind);
        assert_eq!(u32::from(message.sender), fields.sender);
        assert_eq!(message.entries(), entries(&fields));
    }
}

/// One byte of a good message exchanged, put in or left out: what is still read
/// is written as the very same bytes, so no message has two encodings.
#[test]
fn what_is_read_is_written_alike() {
    let mut rng = Rng::new(12);
    let (mut taken, mut refused) = (0, 0);
    for _ in 0..MESSAGES {
        let fields = sample::legal(&mut rng);
        let mut bytes = sample::laid_out(&fields);
        spoil(&mut bytes, &mut rng);
        match read(fields.count, &bytes) {
            Ok(message) => {
                assert_eq!(message.to_bytes(fields.count), Ok(bytes));
                taken += 1;
            }
            Err(number) => {
                assert_eq!(number, 9);
                refused += 1;
            }
        }
    }
    assert!(taken > 1000 && refused > 1000, "{taken}, {refused}");
}

fn spoil(bytes: &mut Vec<u8>, rng: &mut Rng) {
    let at = rng.between(0, bytes.len() as u32 - 1) as usize;
    let any = rng.between(0, 255);
    let values = [0, 1, 2, 3, MOST - 1, MOST, 255, any];
    let byte = *rng.pick(&values).unwrap() as u8;
    match rng.between(0, 5) {
        0 => bytes.insert(at, byte),
        1 => drop(bytes.remove(at)),
        _ => bytes[at] = byte,
    }
}
