//! The network: all units with the queues between them.
//!
//! Each event is tried on a clone. Only when it is accepted, the clone takes
//! the network's place, so a refusal "changes nothing".

use crate::queues::Queues;
use crate::refusal::{
    legal_cost, legal_count, legal_ends, legal_unit, Refusal, ALREADY_UP, EMPTY_QUEUE, NOT_UP,
    QUEUE_FULL,
};
use crate::tree::{Distance, UnitNumber};
use crate::unit::{Outbox, Unit};
use std::collections::BTreeSet;

/// Units by their numbers, and the queues between them. The fields are open, so
/// that tables that no sequence has reached can be set up by hand.
#[derive(Clone, Debug, PartialEq, Eq)]
pub struct Network {
    /// The tables of all units; their number is the count.
    pub units: Vec<Unit>,
    /// The messages on their way.
    pub queues: Queues,
}

impl Network {
    /// "Fresh: all links down, trees and queues empty." Refused with 1 for the
    /// count.
    pub fn fresh(count: u32) -> Result<Network, Refusal> {
        legal_count(count)?;
        let units = (0..count).map(|number| Unit::fresh(count, number));
        Ok(Network {
            units: units.collect::<Result<_, _>>()?,
            queues: Queues::default(),
        })
    }

    /// The count of units.
    pub fn count(&self) -> u8 {
        self.units.len() as u8
    }

    /// The tables of one unit, whose number is below the count.
    pub fn unit(&self, number: UnitNumber) -> &Unit {
        &self.units[usize::from(number)]
    }

    /// Whether the link between two units is up.
    pub fn is_up(&self, a: UnitNumber, b: UnitNumber) -> bool {
        self.unit(a).neighbours.contains_key(&b)
    }

    /// The link between a and b comes up, at cost `ca` from a to b and `cb`
    /// from b to a. Refused with 3, 4, 5, 13.
    pub fn up(&mut self, a: u32, b: u32, ca: u32, cb: u32) -> Result<(), Refusal> {
        let (end_a, end_b) = legal_ends(self.count(), a, b)?;
        legal_cost(ca)?;
        legal_cost(cb)?;
        if self.is_up(end_a, end_b) {
            return Err(ALREADY_UP);
        }
        self.attempt(|network| {
            network.event(end_a, |unit| unit.up(b, ca))?;
            network.event(end_b, |unit| unit.up(a, cb))
        })
    }

    /// The cost from a to its neighbour b changes: "an event at the named end
    /// only". Refused with 3, 4, 6, 13.
    pub fn cost(&mut self, a: u32, b: u32, cost: u32) -> Result<(), Refusal> {
        let (end_a, end_b) = legal_ends(self.count(), a, b)?;
        legal_cost(cost)?;
        self.require_up(end_a, end_b)?;
        self.attempt(|network| network.event(end_a, |unit| unit.cost(b, cost)))
    }

    /// The link between a and b goes down at both ends: "Down empties both
    /// queues of the link first." Refused with 3, 6, 13.
    pub fn down(&mut self, a: u32, b: u32) -> Result<(), Refusal> {
        let (end_a, end_b) = legal_ends(self.count(), a, b)?;
        self.require_up(end_a, end_b)?;
        self.attempt(|network| {
            network.queues.clear_link(end_a, end_b);
            network.event(end_a, |unit| unit.down(b))?;
            network.event(end_b, |unit| unit.down(a))
        })
    }

    /// The first message in the queue from a to b reaches b. It is taken off
    /// first. Refused with 3, 6, 8, 10, 11, 12, 13.
    pub fn deliver(&mut self, a: u32, b: u32) -> Result<(), Refusal> {
        let (end_a, end_b) = legal_ends(self.count(), a, b)?;
        self.require_up(end_a, end_b)?;
        self.attempt(|network| {
            let first = network.queues.pop(end_a, end_b).ok_or(EMPTY_QUEUE)?;
            network.event(end_b, |unit| unit.message(a, &first))
        })
    }

    /// The distance of a destination at a unit; "a distance from a unit to
    /// itself is legal: 0". Refused with 3.
    pub fn distance(&self, unit: u32, destination: u32) -> Result<Distance, Refusal> {
        let (unit, destination) = self.two_units(unit, destination)?;
        Ok(self.unit(unit).distance(destination))
    }

    /// The feasible distance of a destination at a unit. Refused with 3.
    pub fn feasible(&self, unit: u32, destination: u32) -> Result<Distance, Refusal> {
        let (unit, destination) = self.two_units(unit, destination)?;
        Ok(self.unit(unit).feasible[&destination])
    }

    /// The successors of a unit for a destination. Refused with 3.
    pub fn successors(
        &self,
        unit: u32,
        destination: u32,
    ) -> Result<&BTreeSet<UnitNumber>, Refusal> {
        let (unit, destination) = self.two_units(unit, destination)?;
        Ok(&self.unit(unit).successors[&destination])
    }

    /// The cost of the link from a unit to another, none where it is down.
    /// Refused with 3.
    pub fn link(&self, unit: u32, other: u32) -> Result<Option<u16>, Refusal> {
        let (unit, other) = self.two_units(unit, other)?;
        Ok(self.unit(unit).link(other))
    }

    /// Whether a unit awaits an acknowledgment of another. Refused with 3.
    pub fn awaits(&self, unit: u32, other: u32) -> Result<bool, Refusal> {
        let (unit, other) = self.two_units(unit, other)?;
        Ok(self.unit(unit).awaits(other))
    }

    /// A unit and a destination, which may be equal, else refused with 3.
    fn two_units(&self, a: u32, b: u32) -> Result<(UnitNumber, UnitNumber), Refusal> {
        Ok((legal_unit(self.count(), a)?, legal_unit(self.count(), b)?))
    }

    /// 6: "cost, down, delivery or message for a link not up".
    fn require_up(&self, a: UnitNumber, b: UnitNumber) -> Result<(), Refusal> {
        if self.is_up(a, b) {
            Ok(())
        } else {
            Err(NOT_UP)
        }
    }

    /// One unit's event; its messages go into their queues.
    fn event(
        &mut self,
        number: UnitNumber,
        event: impl FnOnce(&mut Unit) -> Result<Outbox, Refusal>,
    ) -> Result<(), Refusal> {
        let outbox = event(&mut self.units[usize::from(number)])?;
        for (to, message) in outbox {
            self.queues.push(number, to, message);
        }
        Ok(())
    }

    /// Runs a step on a clone and keeps it if nothing refuses. 13, "some queue
    /// would pass 4 messages", is judged last, on all queues, after the events
    /// of both ends.
    fn attempt(
        &mut self,
        step: impl FnOnce(&mut Network) -> Result<(), Refusal>,
    ) -> Result<(), Refusal> {
        let mut after = self.clone();
        step(&mut after)?;
        if after.queues.some_passes_limit() {
            return Err(QUEUE_FULL);
        }
        *self = after;
        Ok(())
    }
}
