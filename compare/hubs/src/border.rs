//! What the second implementation answers at the C border.
//!
//! Each function makes the tests of the border in rising order of the refusals:
//! 2 for the table, then those of the unit below 7, then 7 for the room, then
//! those of a message. A refusal changes nothing.

use crate::table;
use second::limits::{ACCEPTED, FIRMWARE_ROOM};
use second::refusal::{legal_count, legal_unit, Refusal, LAYOUT, TOO_SHORT, UNFIT};
use second::tree::{Distance, UnitNumber};
use second::unit::{Outbox, Unit};
use second::unit_table::{set_number, UNREACHABLE};

/// A fresh table. Refused with 1, 2, 3.
pub fn fresh(count: u32, me: u32, bytes: &mut [u8]) -> u32 {
    let fresh = || {
        legal_count(count)?;
        if bytes.len() != table::BYTES {
            return Err(UNFIT);
        }
        Unit::fresh(count, me)
    };
    match fresh() {
        Err(refusal) => refusal,
        Ok(unit) => {
            bytes.copy_from_slice(&table::laid_out(&unit));
            ACCEPTED
        }
    }
}

/// An event on a fit unit.
pub fn event_on(
    unit: &mut Unit,
    out: &mut [u8],
    event: impl FnOnce(&mut Unit) -> Result<Outbox, Refusal>,
) -> u32 {
    let mut after = unit.clone();
    match event(&mut after) {
        Err(refusal) if refusal < TOO_SHORT => refusal,
        _ if out.len() < FIRMWARE_ROOM => TOO_SHORT,
        Err(refusal) => refusal,
        Ok(outbox) => {
            let sent = frames(unit.count, &outbox);
            out[..sent.len()].copy_from_slice(&sent);
            *unit = after;
            ACCEPTED + sent.len() as u32
        }
    }
}

/// The messages of an event, "neighbours rising, each after one byte with the
/// neighbour's number".
fn frames(count: u8, outbox: &Outbox) -> Vec<u8> {
    let mut bytes = Vec::new();
    for (&to, message) in outbox {
        bytes.push(to);
        // A message of an accepted event keeps the layout.
        let laid_out = message.to_bytes(u32::from(count));
        bytes.extend(laid_out.unwrap_or_else(|_| vec![LAYOUT as u8]));
    }
    bytes
}

/// Whether the unit is ACTIVE.
pub fn state(unit: &Unit) -> u32 {
    ACCEPTED + u32::from(unit.is_active())
}

/// The distance of a destination. Refused with 3.
pub fn distance(unit: &Unit, to: u32) -> u32 {
    about(unit, to, |j| distance_answer(unit.distance(j)))
}

/// The feasible distance of a destination. Refused with 3.
pub fn feasible(unit: &Unit, to: u32) -> u32 {
    about(unit, to, |j| distance_answer(unit.feasible[&j]))
}

/// The successors for a destination. Refused with 3.
pub fn successors(unit: &Unit, to: u32) -> u32 {
    about(unit, to, |j| ACCEPTED + set_number(&unit.successors[&j]))
}

/// The cost of the link to a unit, 0 where it is down. Refused with 3.
pub fn link(unit: &Unit, to: u32) -> u32 {
    about(unit, to, |k| ACCEPTED + unit.link(k).map_or(0, u32::from))
}

/// Whether an acknowledgment of a unit is awaited. Refused with 3.
pub fn awaits(unit: &Unit, to: u32) -> u32 {
    about(unit, to, |k| ACCEPTED + u32::from(unit.awaits(k)))
}

fn about(unit: &Unit, to: u32, answer: impl FnOnce(UnitNumber) -> u32) -> u32 {
    legal_unit(unit.count, to).map_or_else(|refusal| refusal, answer)
}

fn distance_answer(distance: Distance) -> u32 {
    match distance {
        Distance::Finite(sum) => ACCEPTED + sum,
        Distance::Unreachable => UNREACHABLE,
    }
}
