//! Distances, trees and the differences between two trees.

use std::collections::BTreeMap;
use std::fmt;

/// The number of a unit, from 0 and below the count.
pub type UnitNumber = u8;

/// "A distance is unreachable, above all numbers, or at most 983,025."
///
/// The order of the cases makes `Unreachable` the greatest, so `min` and `<`
/// read as in the rules.
#[derive(Clone, Copy, Debug, PartialEq, Eq, PartialOrd, Ord)]
pub enum Distance {
    /// A sum of link costs.
    Finite(u32),
    /// No way is known.
    Unreachable,
}

impl Distance {
    /// The distance of a root.
    pub const ZERO: Distance = Distance::Finite(0);

    /// This distance and one link more. Unreachable stays unreachable.
    pub fn plus(self, cost: u16) -> Distance {
        match self {
            Distance::Finite(sum) => Distance::Finite(sum + u32::from(cost)),
            Distance::Unreachable => Distance::Unreachable,
        }
    }

    /// Whether there is a way at all.
    pub fn is_finite(self) -> bool {
        self != Distance::Unreachable
    }
}

/// As `show` prints it: a number, or `-` for unreachable.
impl fmt::Display for Distance {
    fn fmt(&self, out: &mut fmt::Formatter<'_>) -> fmt::Result {
        match self {
            Distance::Finite(sum) => write!(out, "{sum}"),
            Distance::Unreachable => write!(out, "-"),
        }
    }
}

/// A tree's entry for a unit: "a head (the unit before it) and a link cost".
#[derive(Clone, Copy, Debug, PartialEq, Eq)]
pub struct Link {
    /// The unit before it.
    pub head: UnitNumber,
    /// The cost of the link from the head to the unit, 1 to 65,535.
    pub cost: u16,
}

/// What an update says: for each changed unit its new entry, or `None` where
/// the entry is removed. The map keeps the units "strictly rising".
pub type Differences = BTreeMap<UnitNumber, Option<Link>>;

/// "A tree rooted at a unit gives each other unit either nothing or a head and
/// a link cost."
#[derive(Clone, Debug, PartialEq, Eq)]
pub struct Tree {
    /// The unit from which distances are counted. It has no entry.
    pub root: UnitNumber,
    /// The entry of each unit that has one.
    pub entries: BTreeMap<UnitNumber, Link>,
}

impl Tree {
    /// The tree that gives nothing to anybody.
    pub fn empty(root: UnitNumber) -> Tree {
        Tree {
            root,
            entries: BTreeMap::new(),
        }
    }

    /// "The distance of the root is 0, of a unit without entry unreachable."
    /// Any other unit is as far as its head and the link between them.
    ///
    /// A way to the root uses each entry at most once. What follows more heads
    /// than there are entries goes in a circle, which no tree has, and counts
    /// as unreachable.
    pub fn distance(&self, unit: UnitNumber) -> Distance {
        let mut distance = Distance::ZERO;
        let mut at = unit;
        for _ in 0..=self.entries.len() {
            if at == self.root {
                return distance;
            }
            let Some(link) = self.entries.get(&at) else {
                return Distance::Unreachable;
            };
            distance = distance.plus(link.cost);
            at = link.head;
        }
        Distance::Unreachable
    }

    /// Whether this is a tree of a network with so many units: no entry for
    /// the root, only units below the count, legal costs, and "following heads
    /// reaches the root in at most the count less one links".
    ///
    /// There are at most count less one entries, so [`Tree::distance`] is
    /// finite exactly when the root is reached in so many links. A head on the
    /// way is the root or has an entry itself, so it is below the count too.
    pub fn is_tree(&self, count: u8) -> bool {
        let entry_is_legal = |unit: UnitNumber, link: &Link| {
            unit < count && link.cost > 0 && self.distance(unit).is_finite()
        };
        self.root < count
            && !self.entries.contains_key(&self.root)
            && self
                .entries
                .iter()
                .all(|(&unit, link)| entry_is_legal(unit, link))
    }

    /// What turns this tree into the new one: an entry for each unit whose
    /// entry differs, and for no other.
    pub fn differences_to(&self, new: &Tree) -> Differences {
        let units = self.entries.keys().chain(new.entries.keys());
        units
            .filter(|unit| self.entries.get(unit) != new.entries.get(unit))
            .map(|&unit| (unit, new.entries.get(&unit).copied()))
            .collect()
    }

    /// The tree after an update's differences.
    pub fn changed_by(&self, differences: &Differences) -> Tree {
        let mut changed = self.clone();
        for (&unit, &entry) in differences {
            match entry {
                Some(link) => changed.entries.insert(unit, link),
                None => changed.entries.remove(&unit),
            };
        }
        changed
    }

    /// Whether one of the differences leaves its entry as it is: the same head
    /// and cost once more, or the removal of an entry that isn't there.
    pub fn has_idle_difference(&self, differences: &Differences) -> bool {
        differences
            .iter()
            .any(|(unit, entry)| self.entries.get(unit) == entry.as_ref())
    }
}

#[cfg(test)]
mod tests {
    use super::*;
    use crate::limits::{GREATEST_DISTANCE, HIGHEST_COST, UNITS};

    fn tree(root: UnitNumber, entries: &[(UnitNumber, UnitNumber, u16)]) -> Tree {
        let link = |&(unit, head, cost)| (unit, Link { head, cost });
        Tree {
            root,
            entries: entries.iter().map(link).collect(),
        }
    }

    #[test]
    fn distances_follow_heads_to_the_root() {
        let chain = tree(2, &[(1, 2, 10), (0, 1, 5)]);
        assert_eq!(chain.distance(2), Distance::ZERO);
        assert_eq!(chain.distance(1), Distance::Finite(10));
        assert_eq!(chain.distance(0), Distance::Finite(15));
        assert_eq!(chain.distance(3), Distance::Unreachable);
        assert!(chain.is_tree(3));
        assert!(!chain.is_tree(2), "unit 2 is not below 2");
    }

    #[test]
    fn unreachable_is_above_all_numbers() {
        assert!(Distance::Finite(GREATEST_DISTANCE) < Distance::Unreachable);
        assert_eq!(Distance::Unreachable.plus(1), Distance::Unreachable);
    }

    #[test]
    fn the_longest_chain_has_the_greatest_distance() {
        let last = UNITS as UnitNumber - 1;
        let dearest = HIGHEST_COST as u16;
        let links: Vec<_> = (1..=last).map(|unit| (unit, unit - 1, dearest)).collect();
        let chain = tree(0, &links);
        assert!(chain.is_tree(last + 1));
        assert_eq!(chain.distance(last), Distance::Finite(GREATEST_DISTANCE));
    }

    #[test]
    fn circles_loose_ends_and_a_root_with_an_entry_are_no_trees() {
        assert!(!tree(0, &[(1, 2, 1), (2, 1, 1)]).is_tree(3), "circle");
        assert!(!tree(0, &[(1, 1, 1)]).is_tree(3), "its own head");
        assert!(!tree(0, &[(1, 2, 1)]).is_tree(3), "head without entry");
        assert!(!tree(0, &[(0, 1, 1), (1, 0, 1)]).is_tree(3), "root");
        assert!(tree(0, &[(1, 0, 1)]).is_tree(3), "unit 2 may have nothing");
    }

    #[test]
    fn differences_lead_from_one_tree_to_the_other() {
        let old = tree(0, &[(1, 0, 1), (2, 0, 5), (3, 2, 1)]);
        let new = tree(0, &[(1, 0, 1), (2, 1, 1), (4, 1, 2)]);
        let differences = old.differences_to(&new);
        let set = |head, cost| Some(Link { head, cost });
        let expected = [(2, set(1, 1)), (3, None), (4, set(1, 2))];
        assert_eq!(differences, Differences::from(expected));
        assert_eq!(old.changed_by(&differences), new);
        assert!(!old.has_idle_difference(&differences));
        assert!(new.has_idle_difference(&Differences::from([(4, set(1, 2))])));
        assert!(new.has_idle_difference(&Differences::from([(3, None)])));
        assert!(!new.has_idle_difference(&Differences::from([(4, set(1, 3))])));
    }
}
