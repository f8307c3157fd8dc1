//! Messages between neighbours, and their bytes.
//!
//! "A table of contents first, then the bodies": four bytes (edition, sender,
//! kind, number of entries), the changed units, then a body of three bytes for
//! each of them.

use crate::limits::{message_length, CONTENTS, HIGHEST_COST, REMOVED};
use crate::refusal::{legal_count, Refusal, LAYOUT, TOO_SHORT};
use crate::tree::{Differences, Link, UnitNumber};

/// "Byte 0: edition 1."
pub const EDITION: u8 = 1;
/// The byte that holds the sender.
pub const SENDER: usize = 1;
/// The byte that holds the number of entries.
pub const NUMBER: usize = 3;
/// The value in byte 2 for an acknowledgment, a bit.
pub const ACKNOWLEDGMENT: u32 = 1;
/// The value in byte 2 for an update, a bit.
pub const UPDATE: u32 = 2;

/// A message as units see it.
#[derive(Clone, Debug, PartialEq, Eq)]
pub struct Message {
    /// The unit that sent it.
    pub sender: UnitNumber,
    /// Whether it acknowledges the receiver's last update.
    pub acknowledgment: bool,
    /// The update, if it holds one; an update may be without entries.
    pub update: Option<Differences>,
}

/// One entry as numbers from outside, which may be anything: a changed unit
/// with head and cost, or with head 255 and cost 0 where it is removed.
#[derive(Clone, Copy, Debug, PartialEq, Eq)]
pub struct Entry {
    /// The changed unit.
    pub unit: u32,
    /// Its head, or 255.
    pub head: u32,
    /// The cost of the link from the head, or 0.
    pub cost: u32,
}

impl Message {
    /// The value of byte 2: "1 acknowledgment, 2 update, 3 both".
    pub fn kind(&self) -> u32 {
        let acknowledgment = if self.acknowledgment {
            ACKNOWLEDGMENT
        } else {
            0
        };
        let update = if self.update.is_some() { UPDATE } else { 0 };
        acknowledgment + update
    }

    /// The entries as numbers, units rising.
    pub fn entries(&self) -> Vec<Entry> {
        let number = |(&unit, link): (&UnitNumber, &Option<Link>)| Entry {
            unit: u32::from(unit),
            head: link.map_or(REMOVED, |link| u32::from(link.head)),
            cost: link.map_or(0, |link| u32::from(link.cost)),
        };
        self.update.iter().flatten().map(number).collect()
    }

    /// Whether the message can be sent among so many units, that is, whether
    /// the reader would take its bytes.
    pub fn keeps_layout(&self, count: u8) -> bool {
        let sender = u32::from(self.sender);
        fields_keep_layout(u32::from(count), self.kind(), sender, &self.entries())
    }

    /// The bytes of the message, exactly as long as it is. Refused with 1 and
    /// 9 as [`write()`] says.
    pub fn to_bytes(&self, count: u32) -> Result<Vec<u8>, Refusal> {
        let entries = self.entries();
        let mut bytes = vec![0; message_length(entries.len())];
        let sender = u32::from(self.sender);
        write(count, self.kind(), sender, &entries, &mut bytes, 0)?;
        Ok(bytes)
    }
}

/// The part of the layout that is about fields, not about edition and length:
/// the sender below the count, a kind from 1 to 3, at most count less one
/// entries, "no entries without the update bit", each entry legal and their
/// units strictly rising.
fn fields_keep_layout(count: u32, kind: u32, sender: u32, entries: &[Entry]) -> bool {
    let most_entries = (count as usize).saturating_sub(1);
    sender < count
        && (1..=3).contains(&kind)
        && entries.len() <= most_entries
        && (entries.is_empty() || kind != ACKNOWLEDGMENT)
        && entries
            .iter()
            .all(|entry| entry_keeps_layout(count, sender, entry))
        && entries.windows(2).all(|two| two[0].unit < two[1].unit)
}

/// One entry: its unit is "below the count, never the sender"; "a head that
/// isn't 255 is below the count and differs from its unit, and its cost is 1 to
/// 65,535"; a removed entry has "255 and cost 0".
fn entry_keeps_layout(count: u32, sender: u32, entry: &Entry) -> bool {
    let unit_is_legal = entry.unit < count && entry.unit != sender;
    let body_is_legal = if entry.head == REMOVED {
        entry.cost == 0
    } else {
        entry.head < count && entry.head != entry.unit && (1..=HIGHEST_COST).contains(&entry.cost)
    };
    unit_is_legal && body_is_legal
}

/// "The writer lays the message into the caller's frame buffer from a given
/// offset onward, answers its length, and bytes before and after the message
/// stay."
///
/// Refused with 1 for the count; with 7 when the offset is past the end or
/// fewer than 4 plus 4 for each entry given are left from it; with 9 "for
/// fields that the reader would refuse". The frame stays on refusal.
pub fn write(
    count: u32,
    kind: u32,
    sender: u32,
    entries: &[Entry],
    frame: &mut [u8],
    offset: usize,
) -> Result<usize, Refusal> {
    legal_count(count)?;
    let length = message_length(entries.len());
    let from_offset = frame.get_mut(offset..).ok_or(TOO_SHORT)?;
    let place = from_offset.get_mut(..length).ok_or(TOO_SHORT)?;
    if !fields_keep_layout(count, kind, sender, entries) {
        return Err(LAYOUT);
    }
    place.copy_from_slice(&laid_out(kind, sender, entries));
    Ok(length)
}

/// The bytes of fields that keep the layout, all of which then fit a byte but
/// for the cost: "cost with the high byte first".
fn laid_out(kind: u32, sender: u32, entries: &[Entry]) -> Vec<u8> {
    let mut bytes = vec![EDITION, sender as u8, kind as u8, entries.len() as u8];
    bytes.extend(entries.iter().map(|entry| entry.unit as u8));
    for entry in entries {
        let [high, low] = (entry.cost as u16).to_be_bytes();
        bytes.extend([entry.head as u8, high, low]);
    }
    bytes
}

/// "The reader takes exactly one message." Refused with 1 for the count, with 9
/// for any bytes against the layout.
pub fn read(count: u32, bytes: &[u8]) -> Result<Message, Refusal> {
    legal_count(count)?;
    let &[EDITION, sender, kind, number, ..] = bytes else {
        return Err(LAYOUT);
    };
    let number = usize::from(number);
    if bytes.len() != message_length(number) {
        return Err(LAYOUT);
    }
    let (units, bodies) = bytes[CONTENTS..].split_at(number);
    let entries: Vec<Entry> = units
        .iter()
        .zip(bodies.chunks_exact(3))
        .map(|(&unit, body)| read_entry(unit, body))
        .collect();
    if !fields_keep_layout(count, u32::from(kind), u32::from(sender), &entries) {
        return Err(LAYOUT);
    }
    Ok(understood(kind, sender, &entries))
}

/// One entry from its unit byte and the three bytes of its body.
fn read_entry(unit: u8, body: &[u8]) -> Entry {
    Entry {
        unit: u32::from(unit),
        head: u32::from(body[0]),
        cost: u32::from(u16::from_be_bytes([body[1], body[2]])),
    }
}

/// The message of fields that keep the layout.
fn understood(kind: u8, sender: UnitNumber, entries: &[Entry]) -> Message {
    let difference = |entry: &Entry| {
        let link = Link {
            head: entry.head as UnitNumber,
            cost: entry.cost as u16,
        };
        let is_set = entry.head != REMOVED;
        (entry.unit as UnitNumber, is_set.then_some(link))
    };
    let holds_update = u32::from(kind) & UPDATE != 0;
    Message {
        sender,
        acknowledgment: u32::from(kind) & ACKNOWLEDGMENT != 0,
        update: holds_update.then(|| entries.iter().map(difference).collect()),
    }
}
