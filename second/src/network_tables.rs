//! A network's tables, both as bytes: the units' numbers and the queues, by the
//! index rule of `docs/TABLES.md`.
//!
//! The reader decides whether tables are fit from refusal 2's own words: each
//! place is held to the rule about it, and what no rule explains is unfit. It
//! lays nothing out to compare, so that it is a judgement of its own beside the
//! product's.

use crate::limits::{message_length, MESSAGE_ROOM, QUEUE_ROOM, UNITS};
use crate::message::{self, Message};
use crate::network::Network;
use crate::queues::Queues;
use crate::refusal::{legal_count, Refusal, UNFIT};
use crate::table_bytes::{self, EACH};
use crate::tree::UnitNumber;
use crate::unit::Unit;
use crate::unit_table;

/// The numbers of all units' tables.
pub const WORDS: usize = UNITS * unit_table::WORDS;

/// The bytes of one unit's table.
pub const UNIT_BYTES: usize = EACH * unit_table::WORDS;

/// The bytes of all units' tables.
pub const UNITS_BYTES: usize = EACH * WORDS;

/// The bytes of a message's place, those of the longest message.
pub const PLACE: usize = MESSAGE_ROOM;

/// The bytes of a queue.
pub const QUEUE: usize = QUEUE_ROOM * PLACE;

/// The bytes of all queues.
pub const QUEUES_BYTES: usize = UNITS * UNITS * QUEUE;

/// The tables of a network, or what claims to be such.
#[derive(Clone, Debug, PartialEq, Eq)]
pub struct Tables {
    /// The units' tables one after the other.
    pub units: Vec<u8>,
    /// The queues: for each unit that sends, one to each other.
    pub queues: Vec<u8>,
}

/// Where the queue from a unit to another begins.
pub fn queue_at(from: UnitNumber, to: UnitNumber) -> usize {
    (usize::from(from) * UNITS + usize::from(to)) * QUEUE
}

impl Tables {
    /// Zeros, which are the tables of no network.
    pub fn zeros() -> Tables {
        Tables {
            units: vec![0; UNITS_BYTES],
            queues: vec![0; QUEUES_BYTES],
        }
    }

    /// The tables of a fit network.
    pub fn of(network: &Network) -> Tables {
        let mut tables = Tables::zeros();
        let places = tables.units.chunks_exact_mut(UNIT_BYTES);
        for (table, unit) in places.zip(&network.units) {
            table_bytes::lay(&unit_table::laid_out(unit), table);
        }
        for (from, to, queue) in network.queues.waiting() {
            let places = tables.queues[queue_at(from, to)..].chunks_exact_mut(PLACE);
            for (place, message) in places.zip(queue) {
                lay_message(network.count(), message, place);
            }
        }
        tables
    }

    /// The network that the tables hold, or 2.
    pub fn read(&self) -> Result<Network, Refusal> {
        read(&self.units, &self.queues)
    }

    /// The number at an index of the units' tables.
    pub fn number(&self, place: usize) -> u32 {
        table_bytes::number_at(&self.units, place)
    }

    /// Sets the number at an index of the units' tables.
    pub fn set_number(&mut self, place: usize, number: u32) {
        table_bytes::set_number_at(&mut self.units, place, number);
    }
}

/// The bytes of a message, then zeros. Queues of fit networks hold no message
/// against the layout; it would leave its place free.
fn lay_message(count: u8, message: &Message, place: &mut [u8]) {
    let bytes = message.to_bytes(u32::from(count)).unwrap_or_default();
    place[..bytes.len()].copy_from_slice(&bytes);
}

/// The network that lent slices hold, or 2.
pub fn read(units: &[u8], queues: &[u8]) -> Result<Network, Refusal> {
    network(units, queues).ok_or(UNFIT)
}

fn network(units: &[u8], queues: &[u8]) -> Option<Network> {
    // "a slice not of its fixed length"
    if units.len() != UNITS_BYTES || queues.len() != QUEUES_BYTES {
        return None;
    }
    let words = table_bytes::numbers(units);
    let count = legal_count(words[unit_table::COUNT]).ok()?;
    let mut network = Network {
        units: units_of(count, &words)?,
        queues: Queues::default(),
    };
    if !network.links_are_fit() {
        return None;
    }
    let places = (0..UNITS).flat_map(|from| (0..UNITS).map(move |to| (from, to)));
    for ((from, to), bytes) in places.zip(queues.chunks_exact(QUEUE)) {
        if *bytes == [0; QUEUE] {
            continue;
        }
        let (from, to) = (from as UnitNumber, to as UnitNumber);
        // "a .. queued message on a link that is down"
        if from >= count || !network.is_up(from, to) {
            return None;
        }
        for message in queue(count, from, bytes)? {
            network.queues.push(from, to, message);
        }
    }
    Some(network)
}

/// Each unit below the count with its own number, and zeros above.
fn units_of(count: u8, words: &[u32]) -> Option<Vec<Unit>> {
    let mut tables = words.chunks_exact(unit_table::WORDS);
    let mut units = Vec::new();
    for (number, table) in (0..count).zip(&mut tables) {
        let unit = unit_table::read(table).ok()?;
        if unit.count != count || unit.number != number {
            return None;
        }
        units.push(unit);
    }
    let are_free = tables.all(|table| *table == [0; unit_table::WORDS]);
    are_free.then_some(units)
}

/// The messages of a queue: the first in the first place, no free place before
/// a message.
fn queue(count: u8, from: UnitNumber, bytes: &[u8]) -> Option<Vec<Message>> {
    let is_free = |place: &[u8]| *place == [0; PLACE];
    let mut messages = Vec::new();
    let mut places = bytes.chunks_exact(PLACE);
    for place in &mut places {
        if is_free(place) {
            break;
        }
        messages.push(queued(count, from, place)?);
    }
    places.all(is_free).then_some(messages)
}

/// One place's message, none if it is "against the layout or not from its
/// sender", or not followed by zeros.
fn queued(count: u8, from: UnitNumber, place: &[u8]) -> Option<Message> {
    let length = message_length(place[message::NUMBER].into());
    let (bytes, rest) = place.split_at_checked(length)?;
    let message = message::read(u32::from(count), bytes).ok()?;
    let is_fit = message.sender == from && rest.iter().all(|&byte| byte == 0);
    is_fit.then_some(message)
}

/// What stands at an index of the numbers, for a report.
pub fn word_name(word: usize) -> String {
    let unit = word / unit_table::WORDS;
    let place = unit_table::place_name(word % unit_table::WORDS);
    format!("unit {unit}, {place}")
}

/// What stands at an index of the queues, for a report.
pub fn byte_name(byte: usize) -> String {
    let queue = byte / QUEUE;
    let (from, to) = (queue / UNITS, queue % UNITS);
    let (place, at) = (byte % QUEUE / PLACE, byte % PLACE);
    format!("queue {from} to {to}, message {place}, byte {at}")
}
