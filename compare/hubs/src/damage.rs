//! Tables that no event left behind: fit ones made up, and reached ones with
//! something changed or of another length. Refusal 2 is compared with what the
//! second program says of the table, anything else with its own outcome.

use crate::call::Call;
use crate::event;
use crate::run::{Outcome, Run};
use crate::table::{self, EACH};
use second::table_bytes::{number_at, set_number_at};
use second::unit::Unit;
use shared::draw;
use shared::rng::Rng;
use shared::tally::Difference;

/// Calls on made-up fit tables.
pub fn compare_fit(run: &mut Run, tables: u32) -> Result<(), Difference> {
    for _ in 0..tables {
        let unit = draw::fit_unit(&mut run.rng);
        let bytes = table::laid_out(&unit);
        call(run, "made up", &bytes, &unit)?;
        if run.rng.chance(20) {
            run.reached.push(bytes);
        }
    }
    Ok(())
}

/// Calls on damaged tables.
pub fn compare_damaged(run: &mut Run, tables: u32) -> Result<(), Difference> {
    for _ in 0..tables {
        let Some(bytes) = run.rng.pick(&run.reached).cloned() else {
            return Ok(());
        };
        let Ok(unit) = table::read(&bytes) else {
            return Err(Difference(String::from("a reached table is unfit\n")));
        };
        let (part, damaged) = damaged(&mut run.rng, &unit, bytes);
        call(run, part, &damaged, &unit)?;
    }
    Ok(())
}

/// One call on a table; the unit is what it held before the damage.
fn call(run: &mut Run, part: &'static str, bytes: &[u8], unit: &Unit) -> Result<(), Difference> {
    let call = if run.rng.chance(80) {
        event::draw(&mut run.rng, unit)
    } else {
        question(&mut run.rng, u32::from(unit.count))
    };
    let room = event::room(&mut run.rng);
    let mut product = Outcome {
        answer: 0,
        table: bytes.to_vec(),
        out: run.buffer(),
    };
    let mut second = product.clone();
    product.answer = call.of_product(&mut product.table, &mut product.out[..room]);
    second.answer = call.of_second_on_table(&mut second.table, &mut second.out[..room]);
    run.compare(part, &call, bytes, room, [&product, &second])
}

fn question(rng: &mut Rng, count: u32) -> Call {
    let to = rng.between(0, count + 1);
    match rng.between(0, 5) {
        0 => Call::State,
        1 => Call::Distance(to),
        2 => Call::Feasible(to),
        3 => Call::Successors(to),
        4 => Call::Link(to),
        _ => Call::Awaits(to),
    }
}

/// A reached table with something changed, and what it was.
fn damaged(rng: &mut Rng, unit: &Unit, mut bytes: Vec<u8>) -> (&'static str, Vec<u8>) {
    match rng.between(0, 9) {
        0 => {
            for _ in 0..rng.between(1, 3) {
                flip(rng, &mut bytes);
            }
            ("bits", bytes)
        }
        1 => {
            let place = rng.between(0, table::BYTES as u32 - 1) as usize;
            bytes[place] = rng.next_bits() as u8;
            ("byte", bytes)
        }
        2 => ("length", other_length(rng, bytes)),
        3..=6 => {
            let place = draw::word_place(rng, unit.count);
            let other = draw::word_place(rng, unit.count);
            let word = match rng.between(0, 2) {
                0 => number_at(&bytes, other),
                1 => number_at(&bytes, place).wrapping_add(*rng.pick(&[1, u32::MAX]).unwrap_or(&1)),
                _ => draw::odd_word(rng),
            };
            set_number_at(&mut bytes, place, word);
            ("word", bytes)
        }
        7 => {
            let (a, b) = (
                draw::word_place(rng, unit.count),
                draw::word_place(rng, unit.count),
            );
            let (at_a, at_b) = (number_at(&bytes, a), number_at(&bytes, b));
            set_number_at(&mut bytes, a, at_b);
            set_number_at(&mut bytes, b, at_a);
            ("swap", bytes)
        }
        _ => ("rule", against_a_rule(rng, unit)),
    }
}

fn flip(rng: &mut Rng, bytes: &mut [u8]) {
    let place = rng.between(0, table::BYTES as u32 - 1) as usize;
    bytes[place] ^= 1 << rng.between(0, 7);
}

/// Cut short, or longer.
fn other_length(rng: &mut Rng, mut bytes: Vec<u8>) -> Vec<u8> {
    let whole = table::BYTES as u32;
    let length = match rng.between(0, 5) {
        0 => 0,
        1 => whole - EACH as u32,
        2 => whole - 1,
        3 => whole + 1,
        4 => whole + EACH as u32,
        _ => rng.between(0, 2 * whole),
    };
    bytes.resize(length as usize, 0);
    bytes
}

/// One field of the unit changed, with successors by F again, so that no rule
/// but the field's own can be broken; sometimes none is.
fn against_a_rule(rng: &mut Rng, unit: &Unit) -> Vec<u8> {
    let mut unit = unit.clone();
    let count = unit.count;
    let j = rng.between(0, u32::from(count) - 1) as u8;
    let neighbours: Vec<u8> = unit.neighbours.keys().copied().collect();
    let k = rng.pick(&neighbours).copied();
    let neighbour = k.and_then(|k| unit.neighbours.get_mut(&k));
    match (rng.between(0, 5), neighbour) {
        (0, _) => unit.tree = draw::loose(rng, count, &unit.tree),
        (1, Some(it)) => it.copy = draw::loose(rng, count, &it.copy),
        (2, Some(it)) => it.awaited = !it.awaited,
        (3, Some(it)) => it.cost = draw::legal_cost(rng),
        _ => {
            unit.feasible.insert(j, draw::distance(rng));
        }
    }
    draw::set_successors(&mut unit);
    table::laid_out(&unit)
}
