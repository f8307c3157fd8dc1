//! Whether tables are fit, that is, within the rules that refusal 2 lists.
//!
//! Tables that grew from a fresh network by events are always fit. This is for
//! tables set up by hand, of which a comparison or a test wants to know that
//! the rules allow them.

use crate::limits::{GREATEST_DISTANCE, QUEUE_ROOM};
use crate::network::Network;
use crate::recompute::Neighbour;
use crate::refusal::legal_count;
use crate::tree::{Distance, UnitNumber};
use crate::unit::Unit;

impl Unit {
    /// Whether this unit's tables alone are fit: count, costs, trees and
    /// distances within the rules, and no "successors other than F gives".
    pub fn is_fit(&self) -> bool {
        legal_count(self.count.into()).is_ok()
            && self.number < self.count
            && self.neighbours.iter().all(|(&k, it)| self.fits(k, it))
            && self.tree.root == self.number
            && self.tree.is_tree(self.count)
            && self.feasible_is_fit()
            && self.successors_are_fit()
    }

    /// One neighbour: another unit below the count, at a legal cost, with a
    /// copy that is a tree rooted there.
    fn fits(&self, k: UnitNumber, neighbour: &Neighbour) -> bool {
        k < self.count
            && k != self.number
            && neighbour.cost > 0
            && neighbour.copy.root == k
            && neighbour.copy.is_tree(self.count)
    }

    /// A feasible distance for each destination and no more, "to itself always
    /// 0", unreachable or at most 983,025.
    fn feasible_is_fit(&self) -> bool {
        self.feasible.keys().copied().eq(0..self.count)
            && self.feasible[&self.number] == Distance::ZERO
            && self.feasible.values().all(|&distance| {
                distance == Distance::Unreachable || distance <= Distance::Finite(GREATEST_DISTANCE)
            })
    }

    /// A successor set for each destination and no more, as F gives it.
    fn successors_are_fit(&self) -> bool {
        self.successors.keys().copied().eq(0..self.count)
            && self
                .successors
                .iter()
                .all(|(&j, set)| *set == self.successors_by_f(j))
    }
}

impl Network {
    /// Whether all units and queues are fit and agree with each other.
    pub fn is_fit(&self) -> bool {
        legal_count(self.units.len() as u32).is_ok()
            && (0..self.count()).zip(&self.units).all(|(number, unit)| {
                unit.number == number && unit.count == self.count() && unit.is_fit()
            })
            && self.links_are_fit()
            && self.queues_are_fit()
    }

    /// No "link up at one end only".
    pub(crate) fn links_are_fit(&self) -> bool {
        self.units
            .iter()
            .all(|unit| unit.neighbours.keys().all(|&k| self.is_up(k, unit.number)))
    }

    /// No queue beyond its limit, no "queued message against the layout or not
    /// from its sender", none "on a link that is down".
    fn queues_are_fit(&self) -> bool {
        self.queues.waiting().all(|(from, to, queue)| {
            from < self.count()
                && self.is_up(from, to)
                && queue.len() <= QUEUE_ROOM
                && queue
                    .iter()
                    .all(|message| message.sender == from && message.keeps_layout(self.count()))
        })
    }
}
