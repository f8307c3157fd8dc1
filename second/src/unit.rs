//! One unit: its tables and its events.
//!
//! Every event has the same steps, A to F of the rules under "One event at one
//! unit". Step A differs from event to event and stands in the public
//! functions; steps B to F are one function each, called by `react`.

use crate::message::{self, Message};
use crate::recompute::{recompute, Neighbour, Neighbours};
use crate::refusal::{
    legal_cost, legal_count, legal_ends, legal_unit, Refusal, ALREADY_UP, CHANGES_NOTHING, LAYOUT,
    NOT_AWAITED, NOT_A_TREE, NOT_UP,
};
use crate::tree::{Distance, Tree, UnitNumber};
use std::collections::{BTreeMap, BTreeSet};

/// The messages of one event: "at most one for each neighbour", by neighbours
/// rising.
pub type Outbox = BTreeMap<UnitNumber, Message>;

/// The tables of one unit.
#[derive(Clone, Debug, PartialEq, Eq)]
pub struct Unit {
    /// Its own number.
    pub number: UnitNumber,
    /// The count of units in the network.
    pub count: u8,
    /// Cost, copy and wait for each neighbour whose link is up.
    pub neighbours: Neighbours,
    /// Its own tree.
    pub tree: Tree,
    /// "A feasible distance (to itself always 0)" for each destination.
    pub feasible: BTreeMap<UnitNumber, Distance>,
    /// A successor set for each destination.
    pub successors: BTreeMap<UnitNumber, BTreeSet<UnitNumber>>,
}

/// What an event owes to the neighbour that it is about, whether the tree
/// changes or not.
#[derive(Clone, Copy, PartialEq, Eq)]
enum Owed {
    /// Nothing: a cost change, a link down, a mere acknowledgment.
    Nothing,
    /// The whole tree, to the new neighbour after link up.
    WholeTree(UnitNumber),
    /// An acknowledgment, to the sender of an update.
    Acknowledgment(UnitNumber),
}

impl Unit {
    /// "Fresh: all links down, trees and queues empty, feasible distance 0 to
    /// itself and unreachable to others, all PASSIVE." Refused with 1 for the
    /// count, with 3 for the number.
    pub fn fresh(count: u32, number: u32) -> Result<Unit, Refusal> {
        let count = legal_count(count)?;
        let number = legal_unit(count, number)?;
        let tree = Tree::empty(number);
        Ok(Unit {
            number,
            count,
            neighbours: Neighbours::new(),
            feasible: distances(&tree, count),
            successors: (0..count).map(|j| (j, BTreeSet::new())).collect(),
            tree,
        })
    }

    /// "A unit is ACTIVE exactly when it awaits an acknowledgment, else
    /// PASSIVE."
    pub fn is_active(&self) -> bool {
        self.neighbours.values().any(|neighbour| neighbour.awaited)
    }

    /// The distance of a destination in the unit's own tree.
    pub fn distance(&self, destination: UnitNumber) -> Distance {
        self.tree.distance(destination)
    }

    /// The cost of the link to a unit, none where it is down; no unit has a
    /// link to itself.
    pub fn link(&self, other: UnitNumber) -> Option<u16> {
        self.neighbours.get(&other).map(|neighbour| neighbour.cost)
    }

    /// "Whether an acknowledgment is awaited" of a unit.
    pub fn awaits(&self, other: UnitNumber) -> bool {
        let neighbour = self.neighbours.get(&other);
        neighbour.is_some_and(|neighbour| neighbour.awaited)
    }

    /// The link to a neighbour comes up at a cost. Refused with 3, 4, 5.
    ///
    /// A: "Link up: cost set, copy empty."
    pub fn up(&mut self, neighbour: u32, cost: u32) -> Result<Outbox, Refusal> {
        let k = self.other_end(neighbour)?;
        let cost = legal_cost(cost)?;
        if self.neighbours.contains_key(&k) {
            return Err(ALREADY_UP);
        }
        let was_active = self.is_active();
        let copy = Tree::empty(k);
        let awaited = false;
        let fresh = Neighbour {
            cost,
            copy,
            awaited,
        };
        self.neighbours.insert(k, fresh);
        Ok(self.react(was_active, Owed::WholeTree(k)))
    }

    /// The cost of the link to a neighbour changes; "the same cost again is a
    /// legal event". Refused with 3, 4, 6.
    ///
    /// A: "Cost: cost set."
    pub fn cost(&mut self, neighbour: u32, cost: u32) -> Result<Outbox, Refusal> {
        let k = self.other_end(neighbour)?;
        let cost = legal_cost(cost)?;
        let was_active = self.is_active();
        let neighbour = self.neighbours.get_mut(&k).ok_or(NOT_UP)?;
        neighbour.cost = cost;
        Ok(self.react(was_active, Owed::Nothing))
    }

    /// The link to a neighbour goes down. Refused with 3, 6.
    ///
    /// A: "Link down: cost, copy and wait removed."
    pub fn down(&mut self, neighbour: u32) -> Result<Outbox, Refusal> {
        let k = self.other_end(neighbour)?;
        let was_active = self.is_active();
        self.neighbours.remove(&k).ok_or(NOT_UP)?;
        Ok(self.react(was_active, Owed::Nothing))
    }

    /// A message has come by the link to a neighbour. Refused with 3, 6, 9, 10,
    /// 11, 12.
    ///
    /// A: "A message: its acknowledgment clears the wait on the sender; its
    /// update changes the sender's copy."
    pub fn message(&mut self, neighbour: u32, message: &Message) -> Result<Outbox, Refusal> {
        let k = self.other_end(neighbour)?;
        let sender = self.neighbours.get(&k).ok_or(NOT_UP)?;
        if message.sender != k || !message.keeps_layout(self.count) {
            return Err(LAYOUT);
        }
        let after = self.after_message(sender, message)?;
        let was_active = self.is_active();
        self.neighbours.insert(k, after);
        let owed = match message.update {
            Some(_) => Owed::Acknowledgment(k),
            None => Owed::Nothing,
        };
        Ok(self.react(was_active, owed))
    }

    /// The bytes of a message have come by the link to a neighbour. Refused
    /// with 3, 6, 9, 10, 11, 12; bytes against the layout give 9, after 3 and
    /// 6.
    pub fn message_bytes(&mut self, neighbour: u32, bytes: &[u8]) -> Result<Outbox, Refusal> {
        let k = self.other_end(neighbour)?;
        if !self.neighbours.contains_key(&k) {
            return Err(NOT_UP);
        }
        let message = message::read(u32::from(self.count), bytes)?;
        self.message(neighbour, &message)
    }

    /// The number of a neighbour as an argument, which refusal 3 is about.
    fn other_end(&self, neighbour: u32) -> Result<UnitNumber, Refusal> {
        let (_, k) = legal_ends(self.count, u32::from(self.number), neighbour)?;
        Ok(k)
    }

    /// The sender's tables after step A of its message, or the refusal: 10 for
    /// "an acknowledgment that isn't awaited", 11 for "an entry that changes
    /// nothing in the copy", 12 when "the changed copy isn't a tree rooted at
    /// the sender".
    fn after_message(&self, sender: &Neighbour, message: &Message) -> Result<Neighbour, Refusal> {
        let mut after = sender.clone();
        if message.acknowledgment {
            if !sender.awaited {
                return Err(NOT_AWAITED);
            }
            after.awaited = false;
        }
        if let Some(differences) = &message.update {
            if sender.copy.has_idle_difference(differences) {
                return Err(CHANGES_NOTHING);
            }
            after.copy = sender.copy.changed_by(differences);
            if !after.copy.is_tree(self.count) {
                return Err(NOT_A_TREE);
            }
        }
        Ok(after)
    }

    /// Steps B to F, after the tables have been touched by step A.
    fn react(&mut self, was_active: bool, owed: Owed) -> Outbox {
        let old_tree = self.tree.clone();
        self.step_b_recompute(was_active);
        let mut outbox = self.step_c_updates(&old_tree, owed);
        self.step_d_acknowledgment(&mut outbox, owed);
        self.step_e_no_neighbour(&old_tree);
        self.step_f_successors();
        outbox
    }

    /// B: "If the unit was PASSIVE, it recomputes; each feasible distance
    /// becomes the smaller of itself and the new distance. If it was ACTIVE and
    /// now awaits nobody, it keeps its old distances aside, recomputes, and
    /// each feasible distance becomes the smaller of old and new distance. If
    /// it still awaits somebody, its tree and feasible distances stay."
    fn step_b_recompute(&mut self, was_active: bool) {
        if was_active && self.is_active() {
            return;
        }
        let bound = if was_active {
            distances(&self.tree, self.count)
        } else {
            self.feasible.clone()
        };
        self.tree = recompute(self.number, self.count, &self.neighbours);
        self.feasible = bound
            .into_iter()
            .map(|(j, bound)| (j, bound.min(self.tree.distance(j))))
            .collect();
    }

    /// C: "If the tree changed, every neighbour is sent one update with the
    /// differences. After link up the new neighbour is always sent the whole
    /// tree, changed or not, as differences from the empty one. Each neighbour
    /// sent an update is awaited."
    fn step_c_updates(&mut self, old_tree: &Tree, owed: Owed) -> Outbox {
        let tree_changed = self.tree != *old_tree;
        let empty = Tree::empty(self.number);
        let mut outbox = Outbox::new();
        for (&k, neighbour) in &mut self.neighbours {
            let known = if owed == Owed::WholeTree(k) {
                &empty
            } else if tree_changed {
                old_tree
            } else {
                continue;
            };
            let message = Message {
                sender: self.number,
                acknowledgment: false,
                update: Some(known.differences_to(&self.tree)),
            };
            outbox.insert(k, message);
            neighbour.awaited = true;
        }
        outbox
    }

    /// D: "A message that held an update is acknowledged in the same event, in
    /// the message to its sender if there is one, else in a message of its
    /// own."
    fn step_d_acknowledgment(&self, outbox: &mut Outbox, owed: Owed) {
        let Owed::Acknowledgment(sender) = owed else {
            return;
        };
        let to_sender = outbox.entry(sender).or_insert(Message {
            sender: self.number,
            acknowledgment: false,
            update: None,
        });
        to_sender.acknowledgment = true;
    }

    /// E: "If the tree changed and there is no neighbour, feasible distances
    /// equal the new distances." Nobody is left to believe an old one.
    fn step_e_no_neighbour(&mut self, old_tree: &Tree) {
        if self.tree != *old_tree && self.neighbours.is_empty() {
            self.feasible = distances(&self.tree, self.count);
        }
    }

    /// F, for all destinations.
    fn step_f_successors(&mut self) {
        self.successors = (0..self.count)
            .map(|j| (j, self.successors_by_f(j)))
            .collect();
    }

    /// F: "Successors for destination j: each neighbour whose copy puts j at a
    /// distance strictly below j's feasible distance." To itself a unit has
    /// none, for nothing is below 0.
    pub fn successors_by_f(&self, j: UnitNumber) -> BTreeSet<UnitNumber> {
        let is_below = |neighbour: &Neighbour| neighbour.copy.distance(j) < self.feasible[&j];
        self.neighbours
            .iter()
            .filter(|(_, neighbour)| is_below(neighbour))
            .map(|(&k, _)| k)
            .collect()
    }
}

/// The distances of all units in a tree.
pub fn distances(tree: &Tree, count: u8) -> BTreeMap<UnitNumber, Distance> {
    (0..count).map(|j| (j, tree.distance(j))).collect()
}
