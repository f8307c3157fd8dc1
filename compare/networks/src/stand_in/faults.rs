//! The faults that the stand-in can have.

use crate::call::Call;
use crate::product::{CIRCLING, STRANDED};
use second::limits::{message_length, ACCEPTED, ENTRY_BASE, GREATEST_DISTANCE, UNITS};
use second::message::{NUMBER, SENDER};
use second::network_tables::{queue_at, Tables, PLACE, QUEUE, UNIT_BYTES};
use second::network_tables::{QUEUES_BYTES, UNITS_BYTES, WORDS};
use second::table_bytes::{self, EACH};
use second::tree::UnitNumber;
use second::unit::distances;
use second::unit_table::{self, AWAITED, COSTS, FEASIBLE, SUCCESSORS, UNREACHABLE};
use shared::draw;

/// What a fault changes: the tables before they are read, so that something
/// isn't noticed; the call; or what comes out.
#[derive(Clone, Copy)]
pub enum Change {
    Blind(fn(&mut Tables)),
    Call(fn(Call) -> Call),
    Answer(fn(&Call, u32) -> u32),
    Outcome(fn(&Call, &mut Tables)),
    Refusal(fn(&mut Tables)),
    Path(fn(u32, &mut [u8])),
    Fresh(fn(&mut [u8], &mut [u8])),
}

/// A fault, by its name.
pub type Fault = (&'static str, Change);

/// All faults.
pub const FAULTS: [Fault; 31] = [
    ("other lengths are fit", Change::Blind(resize)),
    ("bytes after the units are fit", Change::Blind(shorten)),
    ("numbers of 3 bytes", Change::Blind(cut_numbers)),
    (
        "numbers above the count are fit",
        Change::Blind(clear_above),
    ),
    ("a wait of 2 is fit", Change::Blind(cut_waits)),
    ("a cost to itself is fit", Change::Blind(clear_own_costs)),
    ("greater distances are fit", Change::Blind(cut_distances)),
    (
        "successors that are no units are fit",
        Change::Blind(cut_successors),
    ),
    (
        "messages on links down are fit",
        Change::Blind(clear_queues),
    ),
    ("any sender is fit", Change::Blind(set_senders)),
    ("bytes after a message are fit", Change::Blind(clear_rests)),
    ("costs exchanged", Change::Call(exchange_costs)),
    ("cost of the other end", Change::Call(exchange_ends)),
    ("choices in another order", Change::Call(reverse_choices)),
    (
        "10 is accepted",
        Change::Answer(|_, it| if it == 10 { ACCEPTED } else { it }),
    ),
    (
        "11 is 12",
        Change::Answer(|_, it| if it == 11 { 12 } else { it }),
    ),
    (
        "12 is 11",
        Change::Answer(|_, it| if it == 12 { 11 } else { it }),
    ),
    (
        "13 is accepted",
        Change::Answer(|_, it| if it == 13 { ACCEPTED } else { it }),
    ),
    (
        "7 is 3",
        Change::Answer(|_, it| if it == 7 { 3 } else { it }),
    ),
    ("circling is stranded", Change::Answer(strand)),
    ("a great distance is less", Change::Answer(lessen)),
    ("PASSIVE at all times", Change::Answer(calm)),
    ("links as if all were up", Change::Answer(lift)),
    ("nobody is awaited", Change::Answer(forget)),
    (
        "a number above the count stays",
        Change::Outcome(|_, it| it.set_number(WORDS - 1, 1)),
    ),
    (
        "a delivered message leaves a byte",
        Change::Outcome(leave_byte),
    ),
    ("feasible distance raised too soon", Change::Outcome(raise)),
    ("a refusal changes a byte", Change::Refusal(spoil)),
    ("a byte after the path", Change::Path(lengthen)),
    (
        "a fresh number stays",
        Change::Fresh(|units, _| units[UNITS_BYTES - 1] = 1),
    ),
    (
        "a fresh byte stays",
        Change::Fresh(|_, queues| queues[QUEUES_BYTES - 1] = 1),
    ),
];

fn resize(tables: &mut Tables) {
    tables.units.resize(UNITS_BYTES, 0);
    tables.queues.resize(QUEUES_BYTES, 0);
}

/// As if a length were divided by that of a number before it is looked at.
fn shorten(tables: &mut Tables) {
    if tables.units.len() / EACH == WORDS {
        tables.units.truncate(UNITS_BYTES);
    }
}

/// As if the high byte of a number were not read.
fn cut_numbers(tables: &mut Tables) {
    each_unit(tables, |_, _, words| {
        let before_distances = words[..FEASIBLE].iter_mut();
        before_distances.for_each(|number| *number &= 0x00ff_ffff);
    });
}

/// Changes each unit's numbers, given the unit and the count.
fn each_unit(tables: &mut Tables, change: impl Fn(usize, usize, &mut [u32])) {
    let mut count = 0;
    for (unit, table) in tables.units.chunks_exact_mut(UNIT_BYTES).enumerate() {
        let mut words = table_bytes::numbers(table);
        if unit == 0 {
            count = words[unit_table::COUNT] as usize;
        }
        change(unit, count, &mut words);
        table_bytes::lay(&words, table);
    }
}

/// A number for each unit, from a place on.
fn row(words: &mut [u32], first: usize) -> &mut [u32] {
    &mut words[first..first + UNITS]
}

fn clear_above(tables: &mut Tables) {
    each_unit(tables, |unit, count, words| {
        if unit >= count {
            words.fill(0);
        }
    });
}

fn cut_waits(tables: &mut Tables) {
    each_unit(tables, |_, _, words| {
        row(words, AWAITED).iter_mut().for_each(|wait| *wait &= 1);
    });
}

fn clear_own_costs(tables: &mut Tables) {
    each_unit(tables, |unit, _, words| words[COSTS + unit] = 0);
}

fn cut_distances(tables: &mut Tables) {
    each_unit(tables, |_, _, words| {
        for distance in row(words, FEASIBLE) {
            if *distance == GREATEST_DISTANCE + 1 {
                *distance = GREATEST_DISTANCE;
            }
        }
    });
}

fn cut_successors(tables: &mut Tables) {
    each_unit(tables, |_, _, words| {
        let all = (1 << UNITS) - 1;
        row(words, SUCCESSORS)
            .iter_mut()
            .for_each(|set| *set &= all);
    });
}

/// Changes each queue, given its sender and whether its link is up.
fn each_queue(tables: &mut Tables, change: impl Fn(u8, bool, &mut [u8])) {
    let words = table_bytes::numbers(&tables.units);
    for (number, queue) in tables.queues.chunks_exact_mut(QUEUE).enumerate() {
        let (from, to) = (number / UNITS, number % UNITS);
        let cost = words.get(unit_table::WORDS * from + COSTS + to);
        change(from as u8, cost.is_some_and(|&cost| cost != 0), queue);
    }
}

fn clear_queues(tables: &mut Tables) {
    each_queue(tables, |_, is_up, queue| {
        if !is_up {
            queue.fill(0);
        }
    });
}

fn set_senders(tables: &mut Tables) {
    each_queue(tables, |from, _, queue| {
        let places = queue.chunks_exact_mut(PLACE);
        places
            .filter(|place| place[0] != 0)
            .for_each(|place| place[SENDER] = from);
    });
}

fn clear_rests(tables: &mut Tables) {
    each_queue(tables, |_, _, queue| {
        for place in queue.chunks_exact_mut(PLACE) {
            let length = message_length(place[NUMBER].into());
            if let Some(rest) = place.get_mut(length..) {
                rest.fill(0);
            }
        }
    });
}

fn exchange_costs(call: Call) -> Call {
    match call {
        Call::Up(a, b, of_a, of_b) => Call::Up(a, b, of_b, of_a),
        other => other,
    }
}

fn exchange_ends(call: Call) -> Call {
    match call {
        Call::Cost(a, b, cost) => Call::Cost(b, a, cost),
        other => other,
    }
}

fn reverse_choices(call: Call) -> Call {
    match call {
        Call::Trace(mut trace) => {
            trace.choices.reverse();
            Call::Trace(trace)
        }
        other => other,
    }
}

fn strand(call: &Call, answer: u32) -> u32 {
    match call {
        Call::Trace(_) if answer >= CIRCLING => answer - CIRCLING + STRANDED,
        _ => answer,
    }
}

/// A sum that overflows 16 bits.
fn lessen(call: &Call, answer: u32) -> u32 {
    let is_great = answer >= ACCEPTED + ENTRY_BASE && answer != UNREACHABLE;
    match call {
        Call::Distance(..) if is_great => answer - ENTRY_BASE,
        _ => answer,
    }
}

fn calm(call: &Call, answer: u32) -> u32 {
    match call {
        Call::State(_) if answer == ACCEPTED + 1 => ACCEPTED,
        _ => answer,
    }
}

fn lift(call: &Call, answer: u32) -> u32 {
    match call {
        Call::Link(..) if answer == ACCEPTED => ACCEPTED + 1,
        _ => answer,
    }
}

fn forget(call: &Call, answer: u32) -> u32 {
    match call {
        Call::Awaits(..) if answer == ACCEPTED + 1 => ACCEPTED,
        _ => answer,
    }
}

/// The last byte of a queue that a message was taken from.
fn leave_byte(call: &Call, tables: &mut Tables) {
    if let Call::Deliver(a, b) = *call {
        let queue = queue_at(a as UnitNumber, b as UnitNumber);
        tables.queues[queue + QUEUE - 1] = 1;
    }
}

/// "Raising the feasible distance with the distance, before acknowledgments",
/// one of the easy slips. The tables stay fit, and circles come.
fn raise(_: &Call, tables: &mut Tables) {
    let Ok(mut network) = tables.read() else {
        return;
    };
    for unit in &mut network.units {
        unit.feasible = distances(&unit.tree, unit.count);
        draw::set_successors(unit);
    }
    *tables = Tables::of(&network);
}

fn spoil(tables: &mut Tables) {
    if let Some(last) = tables.queues.last_mut() {
        *last ^= 1;
    }
}

/// A byte more, where the path is shorter than the buffer.
fn lengthen(answer: u32, path: &mut [u8]) {
    let units = (answer % ACCEPTED) as usize + 1;
    if let Some(next) = path.get_mut(units).filter(|_| answer >= ACCEPTED) {
        *next ^= 1;
    }
}
