//! A reading or a writing, made by the product and by the second program.

use crate::product::{self, FIELDS, LEADING};
use second::limits::{ACCEPTED, ENTRIES};
use second::message::{self, Entry, Message};
use second::refusal::{legal_count, Refusal, LAYOUT, TOO_SHORT};
use second::table_bytes::{lay, numbers, EACH};
use shared::sample::{self, Fields};

/// What a call answered, and what all the bytes then held, those that were not
/// lent too.
#[derive(Clone, PartialEq, Eq)]
pub struct Outcome {
    /// The answer.
    pub answer: u32,
    /// The table of fields, or the frame.
    pub held: Vec<u8>,
}

/// What a writer is handed besides the frame. The changes are bytes, 4 for each
/// entry and perhaps some more.
#[derive(Debug)]
pub struct Given {
    /// The units of the network.
    pub count: u32,
    /// The kind.
    pub kind: u32,
    /// The sender.
    pub sender: u32,
    /// The bytes of the changes.
    pub changes: Vec<u8>,
}

impl Given {
    /// These fields, as bytes.
    pub fn of(fields: &Fields) -> Given {
        Given {
            count: fields.count,
            kind: fields.kind,
            sender: fields.sender,
            changes: bytes_of(&fields.changes),
        }
    }
}

/// Numbers as bytes.
pub fn bytes_of(changes: &[u32]) -> Vec<u8> {
    let mut bytes = vec![0; EACH * changes.len()];
    lay(changes, &mut bytes);
    bytes
}

/// The product reads into a table of which so many bytes are lent.
pub fn product_reading(count: u32, bytes: &[u8], mut held: Vec<u8>, lent: usize) -> Outcome {
    let answer = product::read(count, bytes, &mut held[..lent]);
    Outcome { answer, held }
}

/// The second program does.
pub fn second_reading(count: u32, bytes: &[u8], mut held: Vec<u8>, lent: usize) -> Outcome {
    let answer = match second_message(count, bytes, lent) {
        Err(refusal) => refusal,
        Ok(message) => {
            let changes: Vec<u32> = message.entries().iter().map(sample::change_of).collect();
            lay_fields(&mut held, message.kind(), message.sender.into(), &changes);
            ACCEPTED + changes.len() as u32
        }
    };
    Outcome { answer, held }
}

/// The second reader with the refusal for a short table in its place: "the
/// lowest number that applies is given".
fn second_message(count: u32, bytes: &[u8], lent: usize) -> Result<Message, Refusal> {
    legal_count(count)?;
    if lent < FIELDS {
        return Err(TOO_SHORT);
    }
    message::read(count, bytes)
}

/// A message's fields at the start of a table, with zeros after the changes.
pub fn lay_fields(table: &mut [u8], kind: u32, sender: u32, changes: &[u32]) {
    let mut fields = [0; LEADING + ENTRIES];
    fields[..LEADING].copy_from_slice(&[kind, sender, changes.len() as u32]);
    fields[LEADING..][..changes.len()].copy_from_slice(changes);
    lay(&fields, &mut table[..FIELDS]);
}

/// The product writes into a frame of which so many bytes are lent.
pub fn product_writing(given: &Given, mut held: Vec<u8>, length: usize, offset: usize) -> Outcome {
    let &Given {
        count,
        kind,
        sender,
        ref changes,
    } = given;
    let answer = product::write(count, kind, sender, changes, &mut held[..length], offset);
    Outcome { answer, held }
}

/// The second program does.
pub fn second_writing(given: &Given, mut held: Vec<u8>, length: usize, offset: usize) -> Outcome {
    let written = second_message_written(given, &mut held[..length], offset);
    let answer = written.map_or_else(|refusal| refusal, |bytes| ACCEPTED + bytes as u32);
    Outcome { answer, held }
}

/// The second writer, which is handed an entry for each four bytes. Bytes that
/// are left over are against the layout, in the place of the refusals where that
/// stands: after those for the count and for the room of the whole entries.
fn second_message_written(
    given: &Given,
    frame: &mut [u8],
    offset: usize,
) -> Result<usize, Refusal> {
    let entries = numbers(&given.changes);
    let entries: Vec<Entry> = entries.into_iter().map(sample::entry).collect();
    let &Given {
        count,
        kind,
        sender,
        ref changes,
    } = given;
    if changes.len() % EACH == 0 {
        return message::write(count, kind, sender, &entries, frame, offset);
    }
    let tried = message::write(count, kind, sender, &entries, &mut frame.to_vec(), offset);
    Err(tried.err().filter(|&it| it < LAYOUT).unwrap_or(LAYOUT))
}
