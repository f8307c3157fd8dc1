//! Damage to the queues, and to both slices.

use super::{any_unit, forget_link, some_gap, some_link};
use second::limits::{message_length, CONTENTS, ENTRY_BYTES, UNITS};
use second::message::{ACKNOWLEDGMENT, EDITION, NUMBER, SENDER};
use second::network::Network;
use second::network_tables::{queue_at, Tables, PLACE, QUEUE};
use second::network_tables::{QUEUES_BYTES, UNITS_BYTES, UNIT_BYTES};
use second::table_bytes::EACH;
use second::tree::UnitNumber;
use shared::draw::MOST;
use shared::rng::Rng;
use shared::sample;

/// A link that one end has forgotten, its queues most often emptied.
pub fn one_end_down(rng: &mut Rng, network: &Network) -> Option<Tables> {
    let (a, b) = some_link(rng, network)?;
    let mut network = network.clone();
    if rng.chance(70) {
        network.queues.clear_link(a, b);
    }
    forget_link(&mut network, a, b);
    Some(Tables::of(&network))
}

/// A link that both ends have forgotten, with a message still in its queue.
pub fn link_down_with_queue(rng: &mut Rng, network: &Network) -> Option<Tables> {
    let (a, b) = some_message(rng, network)?;
    let mut network = network.clone();
    forget_link(&mut network, a, b);
    forget_link(&mut network, b, a);
    Some(Tables::of(&network))
}

/// A queue that holds a message.
fn some_message(rng: &mut Rng, network: &Network) -> Option<(UnitNumber, UnitNumber)> {
    let waiting: Vec<_> = network.queues.waiting().map(|it| (it.0, it.1)).collect();
    rng.pick(&waiting).copied()
}

/// The place of some message of a queue, and its length.
fn some_place(rng: &mut Rng, network: &Network, tables: &Tables) -> Option<(usize, usize)> {
    let (a, b) = some_message(rng, network)?;
    let last = network.queues.queue(a, b).len() as u32 - 1;
    let at = queue_at(a, b) + PLACE * rng.between(0, last) as usize;
    Some((at, message_length(tables.queues[at + NUMBER].into())))
}

/// Another message, or none, instead of one: bits turned round, cut short,
/// longer, two put together, noise, or one byte at a bound.
pub fn message_bytes(rng: &mut Rng, network: &Network) -> Option<Tables> {
    let mut tables = Tables::of(network);
    let (at, length) = some_place(rng, network, &tables)?;
    let bytes = tables.queues[at..at + length].to_vec();
    let mut bytes = match rng.between(0, 9) {
        0..=2 => sample::flipped(rng, bytes),
        3 => sample::truncated(rng, bytes),
        4 => sample::extended(rng, bytes),
        5 => {
            let other = sample::laid_out(&sample::legal(rng));
            sample::spliced(rng, &bytes, &other)
        }
        6 => sample::noise(rng),
        _ => {
            let place = rng.between(0, length as u32 - 1) as usize;
            let most = UNITS as u8;
            let values = [0, 1, 2, 3, 4, most - 1, most, 254, 255, network.count()];
            tables.queues[at + place] = *rng.pick(&values)?;
            return Some(tables);
        }
    };
    bytes.resize(PLACE, 0);
    tables.queues[at..at + PLACE].copy_from_slice(&bytes);
    Some(tables)
}

/// A message of another sender, legal but for that.
pub fn message_sender(rng: &mut Rng, network: &Network) -> Option<Tables> {
    let mut tables = Tables::of(network);
    let (at, length) = some_place(rng, network, &tables)?;
    let entries = (length - CONTENTS) / ENTRY_BYTES;
    let changed = &tables.queues[at + CONTENTS..][..entries];
    let others = (0..network.count()).filter(|it| !changed.contains(it));
    let others: Vec<_> = others.collect();
    tables.queues[at + SENDER] = *rng.pick(&others)?;
    Some(tables)
}

/// A byte that is not 0 between a message's end and its place's.
pub fn after_a_message(rng: &mut Rng, network: &Network) -> Option<Tables> {
    let mut tables = Tables::of(network);
    let (at, length) = some_place(rng, network, &tables)?;
    (length < PLACE).then_some(())?;
    let place = match rng.between(0, 3) {
        0 => length,
        1 => PLACE - 1,
        _ => rng.between(length as u32, PLACE as u32 - 1) as usize,
    };
    tables.queues[at + place] = 1 << rng.between(0, 7);
    Some(tables)
}

/// A queue's messages one place further on, or the first place emptied.
pub fn free_place(rng: &mut Rng, network: &Network) -> Option<Tables> {
    let mut tables = Tables::of(network);
    let (a, b) = some_message(rng, network)?;
    let queue = &mut tables.queues[queue_at(a, b)..][..QUEUE];
    if rng.chance(50) {
        queue.rotate_right(PLACE);
    } else {
        // The only message removed leaves a fit queue.
        queue[..PLACE].fill(0);
    }
    Some(tables)
}

/// A legal message where there is no link: down, to itself, or to and from
/// units that are none.
pub fn message_without_link(rng: &mut Rng, network: &Network) -> Option<Tables> {
    let mut tables = Tables::of(network);
    let last = MOST - 1;
    let above = u32::from(network.count()).min(last);
    let (a, b) = match rng.between(0, 2) {
        0 => some_gap(rng, network)?,
        1 => (any_unit(rng, network), rng.between(above, last) as u8),
        _ => (rng.between(above, last) as u8, any_unit(rng, network)),
    };
    let is_up = a < network.count() && network.is_up(a, b);
    (!is_up).then_some(())?;
    let acknowledgment = [EDITION, a, ACKNOWLEDGMENT as u8, 0];
    tables.queues[queue_at(a, b)..][..CONTENTS].copy_from_slice(&acknowledgment);
    Some(tables)
}

/// Any byte of all queues.
pub fn byte_of_queues(rng: &mut Rng, network: &Network) -> Option<Tables> {
    let mut tables = Tables::of(network);
    let place = match rng.between(0, 3) {
        0 => rng.between(0, QUEUES_BYTES as u32 - 1) as usize,
        1 => QUEUES_BYTES - 1,
        _ => queue_at(any_unit(rng, network), any_unit(rng, network)),
    };
    tables.queues[place] ^= 1 << rng.between(0, 7);
    Some(tables)
}

/// The units' table some bytes longer or shorter, or none at all, and the queues
/// as they are.
pub fn units_length(rng: &mut Rng, network: &Network) -> Option<Tables> {
    let mut tables = Tables::of(network);
    let whole = UNITS_BYTES;
    let lengths = [0, whole - EACH, whole - 1, whole + 1, whole + EACH];
    tables.units.resize(*rng.pick(&lengths)?, 0);
    Some(tables)
}

/// Slices of other lengths, one or both.
pub fn lengths(rng: &mut Rng, network: &Network) -> Option<Tables> {
    let mut tables = Tables::of(network);
    let which = rng.between(0, 3);
    if which != 0 {
        let length = other_length(rng, UNITS_BYTES, UNIT_BYTES)?;
        tables.units.resize(length, 0);
    }
    if which != 1 {
        let length = other_length(rng, QUEUES_BYTES, QUEUE)?;
        tables.queues.resize(length, 0);
    }
    Some(tables)
}

/// Another length than that of the whole, which has parts of this length.
fn other_length(rng: &mut Rng, whole: usize, part: usize) -> Option<usize> {
    let near = [whole - EACH, whole - 1, whole + 1, whole + EACH];
    let far = [0, 1, EACH, part, whole - part, whole + part, 2 * whole];
    rng.pick(&[&near[..], &far[..]].concat()).copied()
}
