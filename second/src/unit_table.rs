//! A unit's table of numbers, by the index rule of `docs/TABLES.md`.
//!
//! The reader holds each number to the rules as it comes to it, in the words of
//! refusal 2, and takes nothing that it can't explain. So a state has one table
//! only: what is read is what was laid out.

use crate::limits::{ENTRY_BASE, GREATEST_DISTANCE, UNITS};
use crate::recompute::{Neighbour, Neighbours};
use crate::refusal::{legal_cost, legal_count, legal_unit, Refusal, UNFIT};
use crate::tree::{Distance, Link, Tree, UnitNumber};
use crate::unit::Unit;
use std::collections::{BTreeMap, BTreeSet};

/// Where the count of units stands.
pub const COUNT: usize = 0;
/// Where the unit's own number stands.
pub const NUMBER: usize = 1;
/// The first of the costs. From here on there are rows of [`UNITS`] numbers.
pub const COSTS: usize = 2;
/// The first of the waits.
pub const AWAITED: usize = COSTS + UNITS;
/// The first entry of the unit's own tree.
pub const TREE: usize = AWAITED + UNITS;
/// The first of the feasible distances.
pub const FEASIBLE: usize = TREE + UNITS;
/// The first of the successor sets.
pub const SUCCESSORS: usize = FEASIBLE + UNITS;
/// The first entry of the copies, a row for each unit.
pub const COPIES: usize = SUCCESSORS + UNITS;
/// The numbers of a table.
pub const WORDS: usize = COPIES + UNITS * UNITS;
/// The rows of a table.
pub const ROWS: usize = (WORDS - COSTS) / UNITS;

/// The number that stands for an unreachable distance.
pub const UNREACHABLE: u32 = u32::MAX;

/// Lays the table of a unit of a legal network into a place of [`WORDS`] zeros.
pub fn lay(unit: &Unit, words: &mut [u32]) {
    words[COUNT] = u32::from(unit.count);
    words[NUMBER] = u32::from(unit.number);
    for (&k, neighbour) in &unit.neighbours {
        let k = usize::from(k);
        words[COSTS + k] = u32::from(neighbour.cost);
        words[AWAITED + k] = u32::from(neighbour.awaited);
        lay_tree(&mut words[COPIES + UNITS * k..], &neighbour.copy);
    }
    lay_tree(&mut words[TREE..], &unit.tree);
    for (&j, &distance) in &unit.feasible {
        words[FEASIBLE + usize::from(j)] = distance_number(distance);
    }
    for (&j, set) in &unit.successors {
        words[SUCCESSORS + usize::from(j)] = set_number(set);
    }
}

/// The table of a unit of a legal network.
pub fn laid_out(unit: &Unit) -> [u32; WORDS] {
    let mut words = [0; WORDS];
    lay(unit, &mut words);
    words
}

fn lay_tree(words: &mut [u32], tree: &Tree) {
    for (&j, link) in &tree.entries {
        words[usize::from(j)] = entry_number(link.head.into(), link.cost.into());
    }
}

/// A tree's entry as a number: the head times [`ENTRY_BASE`], and the cost.
pub const fn entry_number(head: u32, cost: u32) -> u32 {
    head * ENTRY_BASE + cost
}

/// A distance as a number.
pub fn distance_number(distance: Distance) -> u32 {
    match distance {
        Distance::Finite(sum) => sum,
        Distance::Unreachable => UNREACHABLE,
    }
}

/// The sum of 2 to the power k over the members k.
pub fn set_number(set: &BTreeSet<UnitNumber>) -> u32 {
    set.iter().map(|&k| 1 << k).sum()
}

/// The unit that a table holds, or 2.
pub fn read(words: &[u32]) -> Result<Unit, Refusal> {
    unit(words).ok_or(UNFIT)
}

fn unit(words: &[u32]) -> Option<Unit> {
    if words.len() != WORDS {
        return None;
    }
    let count = legal_count(words[COUNT]).ok()?;
    let number = legal_unit(count, words[NUMBER]).ok()?;
    let mut unit = Unit {
        number,
        count,
        neighbours: neighbours(count, number, words)?,
        tree: tree(count, number, row(words, TREE))?,
        feasible: feasible(count, number, row(words, FEASIBLE))?,
        successors: BTreeMap::new(),
    };
    unit.successors = (0..count).map(|j| (j, unit.successors_by_f(j))).collect();
    successors_are_held(&unit, row(words, SUCCESSORS)).then_some(unit)
}

/// A number for each unit, from a place on.
fn row(words: &[u32], first: usize) -> &[u32] {
    &words[first..first + UNITS]
}

/// The links: up to other units below the count, at legal costs, with a copy
/// that is a tree and a wait that is 0 or 1; none has "a copy, wait .. on a link
/// that is down".
fn neighbours(count: u8, number: UnitNumber, words: &[u32]) -> Option<Neighbours> {
    let mut neighbours = Neighbours::new();
    for (k, place) in (0..).zip(0..UNITS) {
        let (cost, awaited) = (words[COSTS + place], words[AWAITED + place]);
        let copy = row(words, COPIES + UNITS * place);
        if cost == 0 {
            if awaited != 0 || *copy != [0; UNITS] {
                return None;
            }
        } else {
            let k = legal_unit(count, k).ok().filter(|&k| k != number)?;
            let neighbour = Neighbour {
                cost: legal_cost(cost).ok()?,
                copy: tree(count, k, copy)?,
                awaited: (awaited <= 1).then_some(awaited == 1)?,
            };
            neighbours.insert(k, neighbour);
        }
    }
    Some(neighbours)
}

/// A tree with this root: entries for units below the count, which
/// [`Tree::is_tree`] looks at too.
fn tree(count: u8, root: UnitNumber, row: &[u32]) -> Option<Tree> {
    let mut tree = Tree::empty(root);
    for (j, &word) in (0..).zip(row) {
        if word != 0 {
            let head = UnitNumber::try_from(word / ENTRY_BASE).ok()?;
            let cost = (word % ENTRY_BASE) as u16;
            tree.entries.insert(j, Link { head, cost });
        }
    }
    tree.is_tree(count).then_some(tree)
}

/// Feasible distances for units below the count, "unreachable .. or at most
/// 983,025", and "to itself always 0".
fn feasible(count: u8, number: UnitNumber, row: &[u32]) -> Option<BTreeMap<UnitNumber, Distance>> {
    let mut feasible = BTreeMap::new();
    for (j, &word) in (0..).zip(row) {
        let distance = match word {
            0 if j >= count => continue,
            _ if j >= count => return None,
            UNREACHABLE => Distance::Unreachable,
            sum if sum <= GREATEST_DISTANCE => Distance::Finite(sum),
            _ => return None,
        };
        feasible.insert(j, distance);
    }
    (feasible[&number] == Distance::ZERO).then_some(feasible)
}

/// No "successors other than F gives", and none for units at or above the
/// count.
fn successors_are_held(unit: &Unit, row: &[u32]) -> bool {
    (0..).zip(row).all(|(j, &word)| {
        let by_f = unit.successors.get(&j).map_or(0, set_number);
        word == by_f
    })
}

/// What stands at an index of a table, for a report.
pub fn place_name(word: usize) -> String {
    let what = match word {
        COUNT => String::from("count"),
        NUMBER => String::from("own number"),
        _ if word < AWAITED => format!("cost of the link to {}", word - COSTS),
        _ if word < TREE => format!("wait on {}", word - AWAITED),
        _ if word < FEASIBLE => format!("own tree, unit {}", word - TREE),
        _ if word < SUCCESSORS => format!("feasible distance of {}", word - FEASIBLE),
        _ if word < COPIES => format!("successors for {}", word - SUCCESSORS),
        _ => {
            let place = word - COPIES;
            format!("copy of {}, unit {}", place / UNITS, place % UNITS)
        }
    };
    format!("number {word} ({what})")
}

#[cfg(test)]
mod tests {
    use super::*;
    use crate::limits::HIGHEST_COST;

    #[test]
    fn two_units_by_hand() {
        let mut unit = Unit::fresh(2, 0).unwrap();
        unit.up(1, 5).unwrap();
        let mut words = [0; WORDS];
        words[COUNT] = 2;
        words[COSTS + 1] = 5;
        words[AWAITED + 1] = 1;
        words[TREE + 1] = 5;
        words[FEASIBLE + 1] = 5;
        words[SUCCESSORS + 1] = 2;
        assert_eq!(laid_out(&unit), words);
        assert_eq!(read(&words), Ok(unit));
    }

    #[test]
    fn unfit_tables() {
        let fit = laid_out(&Unit::fresh(3, 1).unwrap());
        assert!(read(&fit).is_ok());
        assert_eq!(read(&fit[1..]), Err(UNFIT));
        assert_eq!(read(&[&fit[..], &[0]].concat()), Err(UNFIT));
        let places = [
            (COUNT, 0),
            (COUNT, 1),
            (COUNT, 2),
            (COUNT, UNITS as u32 + 1),
            (NUMBER, 3),
            (COSTS, HIGHEST_COST + 1),
            (COSTS + 1, 1),
            (COSTS + 3, 1),
            (AWAITED, 1),
            (TREE, entry_number(256, 1)),
            (TREE + 1, 1),
            (TREE + 3, 1),
            (FEASIBLE, GREATEST_DISTANCE + 1),
            (FEASIBLE, UNREACHABLE - 1),
            (FEASIBLE + 1, 1),
            (FEASIBLE + 3, 1),
            (FEASIBLE + 3, UNREACHABLE),
            (SUCCESSORS, 1),
            (SUCCESSORS + 3, 1),
            (COPIES, 1),
            (WORDS - 1, 1),
        ];
        for (place, word) in places {
            let mut table = fit;
            table[place] = word;
            assert_eq!(read(&table), Err(UNFIT), "{}", place_name(place));
        }
    }

    /// What may be changed on a link that is up, and what may not.
    #[test]
    fn a_link_that_is_up() {
        let mut unit = Unit::fresh(3, 1).unwrap();
        unit.up(2, 9).unwrap();
        let fit = laid_out(&unit);
        let copy_of_2 = COPIES + 2 * UNITS;
        let cases = [
            (COSTS + 2, HIGHEST_COST, true),
            (COSTS + 2, HIGHEST_COST + 1, false),
            (AWAITED + 2, 0, true),
            (AWAITED + 2, 2, false),
            (copy_of_2, entry_number(2, 1), false),
            (copy_of_2 + 1, entry_number(2, HIGHEST_COST), true),
            (copy_of_2 + 1, entry_number(2, 0), false),
            (copy_of_2 + 1, 1, false),
            (copy_of_2 + 2, 1, false),
            (copy_of_2 + 3, entry_number(2, 1), false),
            (SUCCESSORS + 2, 0, false),
            (FEASIBLE + 2, 1, true),
            (FEASIBLE + 2, 0, false),
        ];
        for (place, word, is_fit) in cases {
            let mut table = fit;
            table[place] = word;
            assert_eq!(
                read(&table).is_ok(),
                is_fit,
                "{}: {word}",
                place_name(place)
            );
        }
    }
}
