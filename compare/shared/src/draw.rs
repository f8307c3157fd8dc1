//! Numbers, distances, trees and units made up from a seed, and messages that
//! neighbours of such units could send.

use crate::rng::Rng;
use second::limits::{FEWEST_UNITS, GREATEST_DISTANCE, HIGHEST_COST, UNITS};
use second::message::Message;
use second::recompute::Neighbour;
use second::tree::{Differences, Distance, Link, Tree, UnitNumber};
use second::unit::Unit;
use second::unit_table::{entry_number, COSTS, ROWS, UNREACHABLE};

/// The fewest units, as a number from outside.
pub const FEWEST: u32 = FEWEST_UNITS as u32;

/// The most units, as a number from outside.
pub const MOST: u32 = UNITS as u32;

/// The highest cost, as a link has it.
const DEAREST: u16 = HIGHEST_COST as u16;

/// A legal count of units.
pub fn count(rng: &mut Rng) -> u32 {
    rng.between(FEWEST, MOST)
}

/// A legal cost, most often one of few, so that sums are often equal.
pub fn legal_cost(rng: &mut Rng) -> u16 {
    match rng.between(0, 19) {
        0..=11 => rng.between(1, 3) as u16,
        12..=16 => rng.between(1, 9) as u16,
        17 => *rng
            .pick(&[1, 255, 256, 257, DEAREST - 1, DEAREST])
            .unwrap_or(&1),
        18 => DEAREST,
        _ => rng.between(1, HIGHEST_COST) as u16,
    }
}

/// A cost, sometimes illegal.
pub fn cost(rng: &mut Rng) -> u32 {
    if rng.chance(95) {
        return u32::from(legal_cost(rng));
    }
    let above = HIGHEST_COST + 1;
    let odd = [0, above, above + 1, 2 * above, 1 << 31, u32::MAX];
    *rng.pick(&odd).unwrap_or(&0)
}

/// The number of another unit, most often a wanted one, sometimes illegal.
pub fn other(rng: &mut Rng, count: u8, me: u8, wanted: &[UnitNumber]) -> u32 {
    let (count, me) = (u32::from(count), u32::from(me));
    match rng.between(0, 99) {
        0..=4 => {
            let near = [me, count, count + 1, MOST, MOST + 1];
            let odd = [&near[..], &[255, 256, 1 << 16, u32::MAX]].concat();
            *rng.pick(&odd).unwrap_or(&me)
        }
        5 => 256 * rng.between(1, 9) + rng.between(0, count - 1),
        6..=15 => rng.between(0, count - 1),
        _ => rng.pick(wanted).map_or(count - 1, |&k| u32::from(k)),
    }
}

/// A message that a unit accepts from its neighbour k.
pub fn expected(rng: &mut Rng, count: u8, k: UnitNumber, neighbour: &Neighbour) -> Message {
    let acknowledgment = neighbour.awaited && rng.chance(75);
    let update = (!acknowledgment || rng.chance(50)).then(|| {
        let changes = rng.between(0, u32::from(count));
        let new = changed(rng, count, &neighbour.copy, changes);
        neighbour.copy.differences_to(&new)
    });
    Message {
        sender: k,
        acknowledgment,
        update,
    }
}

/// An entry more that changes nothing in the copy.
pub fn add_idle(rng: &mut Rng, count: u8, k: UnitNumber, neighbour: &Neighbour, it: &mut Message) {
    let others: Vec<UnitNumber> = (0..count).filter(|&j| j != k).collect();
    if let Some(&j) = rng.pick(&others) {
        let same = neighbour.copy.entries.get(&j).copied();
        it.update.get_or_insert_default().insert(j, same);
    }
}

/// Differences that keep the layout and seldom lead to a tree.
pub fn any_differences(rng: &mut Rng, count: u8, k: UnitNumber) -> Differences {
    let share = rng.between(5, 60);
    differences(rng, count, k, share)
}

/// Differences that keep the layout, with an entry for so many of 100 units.
pub fn differences(rng: &mut Rng, count: u8, k: UnitNumber, share: u32) -> Differences {
    let mut differences = Differences::new();
    for j in (0..count).filter(|&j| j != k) {
        if rng.chance(share) {
            let head = (j + rng.between(1, u32::from(count) - 1) as u8) % count;
            let cost = legal_cost(rng);
            let is_set = rng.chance(80);
            differences.insert(j, is_set.then_some(Link { head, cost }));
        }
    }
    differences
}

/// A tree with some entries set or removed, each time a tree again.
pub fn changed(rng: &mut Rng, count: u8, tree: &Tree, changes: u32) -> Tree {
    let mut tree = tree.clone();
    for _ in 0..changes {
        let j = rng.between(0, u32::from(count) - 1) as u8;
        if j == tree.root {
            continue;
        }
        let mut other = tree.clone();
        if rng.chance(15) {
            other.entries.remove(&j);
            let kept = other.clone();
            other
                .entries
                .retain(|&unit, _| kept.distance(unit).is_finite());
        } else {
            let head = rng.between(0, u32::from(count) - 1) as u8;
            let cost = legal_cost(rng);
            other.entries.insert(j, Link { head, cost });
        }
        if other.is_tree(count) {
            tree = other;
        }
    }
    tree
}

/// A chain over all units, the longest way that a tree can have.
fn chain(rng: &mut Rng, count: u8, root: UnitNumber) -> Tree {
    let mut units: Vec<UnitNumber> = (0..count).filter(|&j| j != root).collect();
    rng.shuffle(&mut units);
    let mut tree = Tree::empty(root);
    let mut head = root;
    for unit in units {
        let cost = if rng.chance(70) {
            DEAREST
        } else {
            legal_cost(rng)
        };
        tree.entries.insert(unit, Link { head, cost });
        head = unit;
    }
    tree
}

/// Any tree.
pub fn tree(rng: &mut Rng, count: u8, root: UnitNumber) -> Tree {
    if rng.chance(10) {
        return chain(rng, count, root);
    }
    let changes = rng.between(0, 4 * u32::from(count));
    changed(rng, count, &Tree::empty(root), changes)
}

/// Any distance.
pub fn distance(rng: &mut Rng) -> Distance {
    match rng.between(0, 9) {
        0 => Distance::Unreachable,
        1 => Distance::Finite(0),
        2 => Distance::Finite(GREATEST_DISTANCE),
        3 => Distance::Finite(rng.between(0, GREATEST_DISTANCE)),
        _ => Distance::Finite(rng.between(0, 12)),
    }
}

/// A unit of any network with fit tables that most often no sequence has
/// reached.
pub fn fit_unit(rng: &mut Rng) -> Unit {
    let count = count(rng) as u8;
    let number = rng.between(0, u32::from(count) - 1) as u8;
    let share = rng.between(0, 100);
    let waits = rng.between(0, 60);
    unit(rng, count, number, waits, |rng, _| rng.chance(share))
}

/// A unit with fit tables: which links are up is asked, everything else is
/// drawn, waits in so many of 100 cases.
pub fn unit(
    rng: &mut Rng,
    count: u8,
    number: UnitNumber,
    waits: u32,
    is_linked: impl Fn(&mut Rng, UnitNumber) -> bool,
) -> Unit {
    let mut unit = Unit {
        number,
        count,
        neighbours: Default::default(),
        tree: tree(rng, count, number),
        feasible: (0..count).map(|j| (j, distance(rng))).collect(),
        successors: Default::default(),
    };
    unit.feasible.insert(number, Distance::ZERO);
    for k in (0..count).filter(|&k| k != number) {
        if is_linked(rng, k) {
            let neighbour = Neighbour {
                cost: legal_cost(rng),
                copy: tree(rng, count, k),
                awaited: rng.chance(waits),
            };
            unit.neighbours.insert(k, neighbour);
        }
    }
    set_successors(&mut unit);
    unit
}

/// Successors as F gives them, after other tables were changed by hand.
pub fn set_successors(unit: &mut Unit) {
    unit.successors = (0..unit.count)
        .map(|j| (j, unit.successors_by_f(j)))
        .collect();
}

/// A tree with an entry set to any head, also of its root: a circle, a loose
/// end, a head above the count, or a tree.
pub fn loose(rng: &mut Rng, count: u8, tree: &Tree) -> Tree {
    let mut tree = tree.clone();
    let unit = if rng.chance(10) {
        tree.root
    } else {
        rng.between(0, u32::from(count) - 1) as u8
    };
    let head = if rng.chance(85) {
        rng.between(0, u32::from(count) - 1) as u8
    } else {
        rng.between(0, MOST + 1) as u8
    };
    let cost = rng.between(0, 9) as u16;
    tree.entries.insert(unit, Link { head, cost });
    tree
}

/// The index of a number in a unit's table, most often one that the count uses.
pub fn word_place(rng: &mut Rng, count: u8) -> usize {
    let row = rng.between(0, ROWS as u32 - 1) as usize;
    let last = if rng.chance(85) {
        u32::from(count) - 1
    } else {
        MOST - 1
    };
    let column = rng.between(0, last) as usize;
    if rng.chance(5) {
        return rng.between(0, COSTS as u32 - 1) as usize;
    }
    COSTS + UNITS * row + column
}

/// A number for a unit's table at a bound of some rule, or any.
pub fn odd_word(rng: &mut Rng) -> u32 {
    let entry = entry_number(rng.between(0, MOST), rng.between(0, 3));
    let bounds = [
        0,
        1,
        2,
        3,
        MOST - 1,
        MOST,
        MOST + 1,
        255,
        HIGHEST_COST,
        HIGHEST_COST + 1,
        GREATEST_DISTANCE,
        GREATEST_DISTANCE + 1,
        UNREACHABLE - 1,
        UNREACHABLE,
        entry,
        entry,
        entry,
        entry_number(255, 1),
        entry_number(256, 1),
        rng.next_bits() as u32,
    ];
    *rng.pick(&bounds).unwrap_or(&0)
}
