//! Messages made up from a seed: legal ones, their bytes, and both broken.
//!
//! A change is one number, the four bytes that a message has for it: unit,
//! head, cost high, cost low.

use crate::draw::{self, MOST};
use crate::rng::Rng;
use second::limits::{message_length, ENTRY_BASE, HIGHEST_COST, MESSAGE_ROOM, REMOVED};
use second::message::{Entry, EDITION};

/// The values of a byte.
const BYTE: u32 = 256;

/// What a unit counts in a change: a byte for the head and two for the cost.
pub const CHANGE_BASE: u32 = BYTE * ENTRY_BASE;

/// The fields of a message in a network of `count` units, legal or not.
#[derive(Clone, Debug)]
pub struct Fields {
    /// The units of the network.
    pub count: u32,
    /// 1 acknowledgment, 2 update, 3 both.
    pub kind: u32,
    /// The unit that sent it.
    pub sender: u32,
    /// The changes, one number each.
    pub changes: Vec<u32>,
}

/// The number for a change.
pub fn change(unit: u32, head: u32, cost: u32) -> u32 {
    unit * CHANGE_BASE + head * ENTRY_BASE + cost
}

/// The entry that a change stands for.
pub fn entry(change: u32) -> Entry {
    Entry {
        unit: change / CHANGE_BASE,
        head: change / ENTRY_BASE % BYTE,
        cost: change % ENTRY_BASE,
    }
}

/// The change that an entry with legal numbers stands for.
pub fn change_of(entry: &Entry) -> u32 {
    change(entry.unit, entry.head, entry.cost)
}

/// The fields of a legal message.
pub fn legal(rng: &mut Rng) -> Fields {
    let count = draw::count(rng);
    let sender = rng.between(0, count - 1);
    let kind = rng.between(1, 3);
    let share = if kind == 1 { 0 } else { rng.between(0, 100) };
    let mut changes = Vec::new();
    for unit in 0..count {
        if unit != sender && rng.chance(share) {
            changes.push(legal_change(rng, count, unit));
        }
    }
    Fields {
        count,
        kind,
        sender,
        changes,
    }
}

/// A change of this unit that sets a head and a cost, or removes the entry.
fn legal_change(rng: &mut Rng, count: u32, unit: u32) -> u32 {
    if rng.chance(20) {
        return change(unit, REMOVED, 0);
    }
    let head = (unit + rng.between(1, count - 1)) % count;
    let cost = match rng.between(0, 5) {
        0 => 1,
        1 => HIGHEST_COST,
        2 => rng.between(BYTE - 1, BYTE + 1),
        _ => rng.between(1, HIGHEST_COST),
    };
    change(unit, head, cost)
}

/// The bytes of fields that fit bytes: contents first, then the bodies.
pub fn laid_out(fields: &Fields) -> Vec<u8> {
    let number = fields.changes.len() as u8;
    let mut bytes = vec![EDITION, fields.sender as u8, fields.kind as u8, number];
    bytes.extend(fields.changes.iter().map(|change| change.to_be_bytes()[0]));
    for change in &fields.changes {
        bytes.extend(&change.to_be_bytes()[1..]);
    }
    bytes
}

/// Fields with up to three things wrong, or none.
pub fn disturbed(rng: &mut Rng) -> Fields {
    let mut fields = legal(rng);
    for _ in 0..rng.between(0, 3) {
        disturb(rng, &mut fields);
    }
    fields
}

/// One thing changed, which most often makes the fields illegal.
fn disturb(rng: &mut Rng, fields: &mut Fields) {
    match rng.between(0, 9) {
        0 => fields.count = rng.between(0, MOST + 4),
        1 => fields.kind = rng.between(0, 5),
        2 => fields.sender = rng.between(0, MOST + 4),
        3 => fields.kind = rng.next_bits() as u32,
        4 => fields.sender = rng.next_bits() as u32,
        5 => fields.changes.push(rng.next_bits() as u32),
        6 => rng.shuffle(&mut fields.changes),
        7 => repeat(rng, &mut fields.changes),
        _ => disturb_change(rng, fields),
    }
}

/// One of the changes twice, the second time beside the first or at the end.
fn repeat(rng: &mut Rng, changes: &mut Vec<u32>) {
    if let Some(&again) = rng.pick(changes) {
        changes.push(again);
        if rng.chance(50) {
            changes.sort_unstable();
        }
    }
}

/// One of the changes with another unit, head or cost.
fn disturb_change(rng: &mut Rng, fields: &mut Fields) {
    let sender = fields.sender % BYTE;
    let Some(last) = fields.changes.len().checked_sub(1) else {
        return;
    };
    let place = rng.between(0, last as u32) as usize;
    let Entry { unit, head, cost } = entry(fields.changes[place]);
    fields.changes[place] = match rng.between(0, 6) {
        0 => change(sender, head, cost),
        1 => change(rng.between(0, BYTE - 1), head, cost),
        2 => change(unit, unit, cost),
        3 => change(unit, rng.between(0, BYTE - 1), cost),
        4 => change(unit, head, 0),
        5 => change(unit, REMOVED, cost),
        _ => rng.next_bits() as u32,
    };
}

/// A frame's length and an offset for a message of so many bytes: with room,
/// exactly, one byte short, past the end and near the largest number.
pub fn place(rng: &mut Rng, length: usize) -> (usize, usize) {
    let offset = rng.between(0, 40) as usize;
    let some = rng.between(0, 100) as usize;
    match rng.between(0, 7) {
        0 => (some, offset),
        1 => (offset + length, offset),
        2 => (offset + length - 1, offset),
        3 => (some, some + offset),
        4 => (some, usize::MAX - offset),
        5 => (some, usize::MAX / 4 - 20 + offset),
        6 => (some, usize::MAX / 2 - 20 + offset),
        _ => (offset + length + some % 20, offset),
    }
}

/// Bytes of any length, most often with a legal edition and length.
pub fn noise(rng: &mut Rng) -> Vec<u8> {
    let number = rng.between(0, MOST);
    let length = if rng.chance(80) {
        message_length(number as usize)
    } else {
        rng.between(0, MESSAGE_ROOM as u32 + 8) as usize
    };
    let mut bytes: Vec<u8> = (0..length).map(|_| byte(rng)).collect();
    if let [edition, sender, kind, entries, ..] = bytes.as_mut_slice() {
        if rng.chance(90) {
            *edition = EDITION;
            *entries = number as u8;
        }
        if rng.chance(90) {
            *sender = rng.between(0, MOST) as u8;
            *kind = rng.between(0, 4) as u8;
        }
    }
    bytes
}

/// A byte, most often a small number.
fn byte(rng: &mut Rng) -> u8 {
    match rng.between(0, 3) {
        0 => rng.between(0, BYTE - 1) as u8,
        1 => *rng.pick(&[0, 1, MOST - 1, MOST, 254, 255]).unwrap_or(&0) as u8,
        _ => rng.between(0, MOST + 1) as u8,
    }
}

/// The bytes without some of the last.
pub fn truncated(rng: &mut Rng, mut bytes: Vec<u8>) -> Vec<u8> {
    let last = bytes.len() as u32 - 1;
    bytes.truncate(rng.between(0, last) as usize);
    bytes
}

/// The bytes with one to eight more.
pub fn extended(rng: &mut Rng, mut bytes: Vec<u8>) -> Vec<u8> {
    for _ in 0..rng.between(1, 8) {
        bytes.push(byte(rng));
    }
    bytes
}

/// The bytes with one to three bits turned round.
pub fn flipped(rng: &mut Rng, mut bytes: Vec<u8>) -> Vec<u8> {
    let last = bytes.len() as u32 - 1;
    for _ in 0..rng.between(1, 3) {
        let place = rng.between(0, last) as usize;
        bytes[place] ^= 1 << rng.between(0, 7);
    }
    bytes
}

/// The first bytes of one message and the last bytes of another, most often cut
/// at the same place.
pub fn spliced(rng: &mut Rng, first: &[u8], second: &[u8]) -> Vec<u8> {
    let shorter = first.len().min(second.len()) as u32;
    let cut = rng.between(0, shorter) as usize;
    let from = if rng.chance(70) {
        cut
    } else {
        rng.between(0, shorter) as usize
    };
    [&first[..cut], &second[from..]].concat()
}
