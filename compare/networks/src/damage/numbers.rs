//! Damage to the units' tables.

use super::{any_unit, forget_link, some_gap, some_link};
use second::limits::{GREATEST_DISTANCE, HIGHEST_COST, UNITS};
use second::network::Network;
use second::network_tables::Tables;
use second::table_bytes::EACH;
use second::tree::{Distance, UnitNumber};
use second::unit::Unit;
use second::unit_table::{self, entry_number, WORDS as UNIT};
use second::unit_table::{AWAITED, COPIES, COSTS, ROWS, SUCCESSORS, UNREACHABLE};
use shared::draw::{self, MOST};
use shared::rng::Rng;

/// The index of a unit's number among all.
fn word_at(unit: UnitNumber, place: usize) -> usize {
    UNIT * usize::from(unit) + place
}

/// The network's tables with one number set.
fn with_word(network: &Network, place: usize, word: u32) -> Option<Tables> {
    let mut tables = Tables::of(network);
    tables.set_number(place, word);
    Some(tables)
}

/// The tables of a network with one unit changed and its successors by F.
fn with_unit(
    network: &Network,
    unit: UnitNumber,
    change: impl FnOnce(&mut Unit),
) -> Option<Tables> {
    let mut network = network.clone();
    let unit = &mut network.units[usize::from(unit)];
    change(unit);
    draw::set_successors(unit);
    Some(Tables::of(&network))
}

/// The index of a number of some unit, most often one that the count uses.
fn any_word(rng: &mut Rng, network: &Network) -> usize {
    let place = draw::word_place(rng, network.count());
    word_at(any_unit(rng, network), place)
}

/// Exchanges the numbers at two indices.
fn exchange(tables: &mut Tables, a: usize, b: usize) {
    let (at_a, at_b) = (tables.number(a), tables.number(b));
    tables.set_number(a, at_b);
    tables.set_number(b, at_a);
}

/// Any byte of a number set to anything, so that a byte in the wrong order or
/// one that is not looked at is found.
pub fn byte_of_numbers(rng: &mut Rng, network: &Network) -> Option<Tables> {
    let mut tables = Tables::of(network);
    let byte = EACH * any_word(rng, network) + rng.between(0, EACH as u32 - 1) as usize;
    tables.units[byte] = match rng.between(0, 2) {
        0 => 1,
        1 => tables.units[byte].wrapping_add(1),
        _ => rng.next_bits() as u8,
    };
    Some(tables)
}

pub fn bits_of_numbers(rng: &mut Rng, network: &Network) -> Option<Tables> {
    let mut tables = Tables::of(network);
    for _ in 0..rng.between(1, 3) {
        let place = any_word(rng, network);
        tables.set_number(place, tables.number(place) ^ 1 << rng.between(0, 31));
    }
    Some(tables)
}

pub fn number(rng: &mut Rng, network: &Network) -> Option<Tables> {
    let mut tables = Tables::of(network);
    let (place, other) = (any_word(rng, network), any_word(rng, network));
    let number = tables.number(place);
    let number = match rng.between(0, 3) {
        0 => tables.number(other),
        1 => number.wrapping_add(1),
        2 => number.wrapping_sub(1),
        _ => draw::odd_word(rng),
    };
    tables.set_number(place, number);
    Some(tables)
}

pub fn numbers_exchanged(rng: &mut Rng, network: &Network) -> Option<Tables> {
    let mut tables = Tables::of(network);
    let (a, b) = (any_word(rng, network), any_word(rng, network));
    exchange(&mut tables, a, b);
    Some(tables)
}

/// Another count, in one unit's table or in all.
pub fn count(rng: &mut Rng, network: &Network) -> Option<Tables> {
    let mut tables = Tables::of(network);
    let present = u32::from(network.count());
    let counts = [
        0,
        1,
        2,
        present - 1,
        present + 1,
        MOST,
        MOST + 1,
        256 + present,
        u32::MAX,
    ];
    let other = *rng.pick(&counts)?;
    let units = if rng.chance(50) {
        0..network.count()
    } else {
        let unit = any_unit(rng, network);
        unit..unit + 1
    };
    for unit in units {
        tables.set_number(word_at(unit, unit_table::COUNT), other);
    }
    Some(tables)
}

pub fn own_number(rng: &mut Rng, network: &Network) -> Option<Tables> {
    let unit = any_unit(rng, network);
    let present = u32::from(network.count());
    let numbers = [
        0,
        1,
        present - 1,
        present,
        MOST,
        256 + u32::from(unit),
        u32::MAX,
    ];
    let other = *rng.pick(&numbers)?;
    with_word(network, word_at(unit, unit_table::NUMBER), other)
}

/// The tables of two units, each whole and fit, in each other's places. Often
/// both have no link, so that nothing but their own numbers is wrong.
pub fn units_exchanged(rng: &mut Rng, network: &Network) -> Option<Tables> {
    let (a, b) = (any_unit(rng, network), any_unit(rng, network));
    let mut network = network.clone();
    if rng.chance(60) {
        isolate(&mut network, a);
        isolate(&mut network, b);
    }
    let mut tables = Tables::of(&network);
    for place in 0..UNIT {
        exchange(&mut tables, word_at(a, place), word_at(b, place));
    }
    Some(tables)
}

/// Takes all links of a unit down at both ends, without any event.
fn isolate(network: &mut Network, unit: UnitNumber) {
    for other in 0..network.count() {
        network.queues.clear_link(unit, other);
        forget_link(network, unit, other);
        forget_link(network, other, unit);
    }
}

/// The cost of a link that is up, or of one that is not, or to itself.
pub fn cost(rng: &mut Rng, network: &Network) -> Option<Tables> {
    let (a, b) = if rng.chance(60) {
        some_link(rng, network)?
    } else {
        some_gap(rng, network)?
    };
    let above = HIGHEST_COST + 1;
    let costs = [0, 1, HIGHEST_COST, above, above + 1, 1 << 31, u32::MAX];
    let other = *rng.pick(&costs)?;
    with_word(network, word_at(a, COSTS + usize::from(b)), other)
}

pub fn wait(rng: &mut Rng, network: &Network) -> Option<Tables> {
    let (a, b) = if rng.chance(60) {
        some_link(rng, network)?
    } else {
        some_gap(rng, network)?
    };
    let other = *rng.pick(&[0, 1, 2, 256, 1 << 31, u32::MAX])?;
    with_word(network, word_at(a, AWAITED + usize::from(b)), other)
}

pub fn own_tree(rng: &mut Rng, network: &Network) -> Option<Tables> {
    let count = network.count();
    let unit = any_unit(rng, network);
    with_unit(network, unit, |unit| {
        unit.tree = draw::loose(rng, count, &unit.tree);
    })
}

/// The copy of a neighbour's tree, or an entry in that of no neighbour.
pub fn copy(rng: &mut Rng, network: &Network) -> Option<Tables> {
    let count = network.count();
    if rng.chance(20) {
        let (a, b) = some_gap(rng, network)?;
        let place = COPIES + UNITS * usize::from(b) + usize::from(any_unit(rng, network));
        let entry = entry_number(any_unit(rng, network).into(), 1);
        return with_word(network, word_at(a, place), entry);
    }
    let (a, b) = some_link(rng, network)?;
    with_unit(network, a, |unit| {
        if let Some(neighbour) = unit.neighbours.get_mut(&b) {
            neighbour.copy = draw::loose(rng, count, &neighbour.copy);
        }
    })
}

/// A feasible distance within the rules or just outside.
pub fn feasible(rng: &mut Rng, network: &Network) -> Option<Tables> {
    let (unit, j) = (any_unit(rng, network), any_unit(rng, network));
    let distance = match rng.between(0, 3) {
        0 => Distance::Finite(GREATEST_DISTANCE + 1),
        1 => Distance::Finite(UNREACHABLE - 1),
        _ => draw::distance(rng),
    };
    with_unit(network, unit, |unit| {
        unit.feasible.insert(j, distance);
    })
}

/// One successor more or less, no successors, or those at an equal distance as
/// well.
pub fn successors(rng: &mut Rng, network: &Network) -> Option<Tables> {
    let (i, j) = (any_unit(rng, network), any_unit(rng, network));
    let mut tables = Tables::of(network);
    let place = word_at(i, SUCCESSORS + usize::from(j));
    let set = tables.number(place);
    let set = match rng.between(0, 4) {
        0 => 0,
        1 => set ^ 1 << any_unit(rng, network),
        2 => set ^ 1 << rng.between(0, 31),
        3 => set.wrapping_add(1),
        _ => {
            let unit = network.unit(i);
            let near = unit.neighbours.iter();
            let near = near.filter(|(_, it)| it.copy.distance(j) <= unit.feasible[&j]);
            near.map(|(&k, _)| 1 << k).sum()
        }
    };
    tables.set_number(place, set);
    Some(tables)
}

/// A number in a place that the count doesn't use: in a unit's rows, or in the
/// table of no unit.
pub fn above_the_count(rng: &mut Rng, network: &Network) -> Option<Tables> {
    let count = u32::from(network.count());
    let column = rng.between(count.min(MOST - 1), MOST - 1);
    let unit = if rng.chance(50) {
        any_unit(rng, network).into()
    } else {
        column
    };
    let place = match rng.between(0, 3) {
        0 => rng.between(0, UNIT as u32 - 1) as usize,
        _ => COSTS + UNITS * rng.between(0, ROWS as u32 - 1) as usize + column as usize,
    };
    let other = if rng.chance(50) {
        1
    } else {
        draw::odd_word(rng)
    };
    (count < MOST).then_some(())?;
    with_word(network, word_at(unit as UnitNumber, place), other)
}

/// A link that only one end knows of.
pub fn one_end_up(rng: &mut Rng, network: &Network) -> Option<Tables> {
    let (a, b) = some_gap(rng, network).filter(|(a, b)| a != b)?;
    let cost = draw::legal_cost(rng);
    with_unit(network, a, |unit| {
        // A refusal is not possible, for the link is down.
        let _ = unit.up(b.into(), cost.into());
    })
}
