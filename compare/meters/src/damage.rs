//! Meters that no call left behind: fit ones with something changed, or in a
//! slice of another length; and fit ones over a damaged network. Whether they are
//! fit the second program says; if not, both sides have to refuse with 2 and
//! change nothing, and else to do the same.

use crate::call::Call;
use crate::draw::{self, Temper};
use crate::lives::Reached;
use crate::site;
use networks::damage as network_damage;
use networks::run::Run;
use second::limits::{FRAMES, LARGEST_FRAME, LAST_HOP, MOST_ENTERED};
use second::meter::{Meter, Place};
use second::meter_table::{
    laid_out, place_at, BYTES, DELIVERED, DESTINATION, DROPPED, ENTERED, HOPS, PLACE, PLACES, SIZE,
    UNIT, WORDS,
};
use second::network::Network;
use second::network_tables::Tables;
use second::table_bytes::{number_at, set_number_at, EACH};
use shared::draw::MOST;
use shared::rng::Rng;
use shared::tally::Difference;

/// The parts of the comparison.
pub const PART: &str = "damaged";
/// Calls over damaged networks.
pub const NETWORKS: &str = "damaged network";

/// What may be done to a meter's table; none where it can't be, because the meter
/// holds no frame or has no free place.
type Damage = fn(&mut Rng, &Meter, Vec<u8>) -> Option<Vec<u8>>;

/// Which of the meters with a kind of damage are still fit.
#[derive(Clone, Copy, Debug, PartialEq, Eq)]
pub enum Fit {
    /// All of them.
    All,
    /// Some, and some not.
    Some,
    /// Few or none.
    Few,
    /// None.
    None,
}

/// All kinds of damage.
pub const DAMAGES: [(&str, Damage, Fit); 19] = [
    ("nothing", |_, _, table| Some(table), Fit::All),
    ("a number", one_number, Fit::Few),
    ("numbers", some_numbers, Fit::Few),
    ("a small step", small_step, Fit::Some),
    ("small steps", small_steps, Fit::Few),
    ("a byte", one_byte, Fit::Few),
    ("numbers exchanged", numbers_exchanged, Fit::Some),
    ("places exchanged", places_exchanged, Fit::All),
    ("high number of a figure", high_number, Fit::Few),
    ("figures", figures, Fit::Some),
    ("figures, alike", figures_alike, Fit::Some),
    ("figures, past 64 bits", past_64_bits, Fit::None),
    ("figures, carry lost", carry_lost, Fit::None),
    ("size, added up", size, Fit::Some),
    ("unit", unit, Fit::Some),
    ("destination", destination, Fit::Some),
    ("hops", hops, Fit::Some),
    ("free place", free_place, Fit::None),
    ("length", length, Fit::None),
];

/// Calls on damaged meters and over damaged networks, so many of each kind.
pub fn compare(
    run: &mut Run,
    reached: &Reached,
    of_each: u32,
    of_each_network: u32,
) -> Result<(), Difference> {
    for _ in 0..of_each {
        for (name, damage, _) in DAMAGES {
            if let Some((call, tables, table)) = drawn(&mut run.rng, reached, damage) {
                site::judge(run, (PART, name), call, &tables, &table)?;
            }
        }
    }
    for _ in 0..of_each_network {
        for (name, damage) in network_damage::DAMAGES {
            let drawn = (0..20).find_map(|_| {
                let (network, meter) = drawn_fit(&mut run.rng, reached)?;
                let tables = damage(&mut run.rng, &network)?;
                Some((
                    call(&mut run.rng, &network, &meter),
                    tables,
                    laid_out(&meter),
                ))
            });
            if let Some((call, tables, table)) = drawn {
                site::judge(run, (NETWORKS, name), call, &tables, &table)?;
            }
        }
    }
    Ok(())
}

/// A call that suits what the meter held, and the tables with the damage. Meters
/// without what the damage is about are passed over.
fn drawn(rng: &mut Rng, reached: &Reached, damage: Damage) -> Option<(Call, Tables, Vec<u8>)> {
    (0..20).find_map(|_| {
        let (network, meter) = drawn_fit(rng, reached)?;
        let table = damage(rng, &meter, laid_out(&meter))?;
        Some((call(rng, &network, &meter), Tables::of(&network), table))
    })
}

/// A network that was reached, with its own meter or a made-up one.
fn drawn_fit(rng: &mut Rng, reached: &Reached) -> Option<(Network, Meter)> {
    let (network, meter) = rng.pick(reached)?.clone();
    let meter = match rng.chance(50) {
        true => draw::meter(rng, network.count().into()),
        false => meter,
    };
    Some((network, meter))
}

/// Any call, most often one that was possible.
fn call(rng: &mut Rng, network: &Network, meter: &Meter) -> Call {
    let temper = Temper {
        enters: 40,
        moves: 40,
        drops: 20,
        odd: 10,
    };
    match rng.chance(70) {
        true => draw::change(rng, temper, network, meter),
        false => draw::question(rng, meter),
    }
}

/// The index of a number, most often of a figure or a held frame.
fn any_word(rng: &mut Rng, meter: &Meter) -> usize {
    let any = rng.between(0, WORDS as u32 - 1) as usize;
    match rng.between(0, 9) {
        0..=2 => rng.between(0, PLACES as u32 - 1) as usize,
        3..=7 => some_place(rng, meter).map_or(any, |place| {
            place_at(place) + rng.between(0, PLACE as u32 - 1) as usize
        }),
        _ => any,
    }
}

/// The place of a held frame.
fn some_place(rng: &mut Rng, meter: &Meter) -> Option<Place> {
    let places: Vec<Place> = meter.frames.keys().copied().collect();
    rng.pick(&places).copied()
}

/// A number at a bound of some rule, or any.
fn odd_word(rng: &mut Rng) -> u32 {
    let last = u32::from(LAST_HOP);
    let (high, low) = halves(MOST_ENTERED);
    let bounds = [
        0,
        1,
        2,
        MOST - 1,
        MOST,
        last - 1,
        last,
        255,
        256,
        LARGEST_FRAME,
        LARGEST_FRAME + 1,
        high,
        high + 1,
        low,
        low + 1,
        1 << 31,
        u32::MAX,
        rng.next_bits() as u32,
    ];
    *rng.pick(&bounds).unwrap_or(&0)
}

/// A figure as the two numbers of a table.
fn halves(figure: u64) -> (u32, u32) {
    ((figure >> u32::BITS) as u32, figure as u32)
}

fn set_figure(table: &mut [u8], at: usize, figure: u64) {
    let (high, low) = halves(figure);
    set_number_at(table, at, high);
    set_number_at(table, at + 1, low);
}

fn one_number(rng: &mut Rng, meter: &Meter, mut table: Vec<u8>) -> Option<Vec<u8>> {
    let place = any_word(rng, meter);
    set_number_at(&mut table, place, odd_word(rng));
    Some(table)
}

fn some_numbers(rng: &mut Rng, meter: &Meter, mut table: Vec<u8>) -> Option<Vec<u8>> {
    for _ in 0..rng.between(2, 3) {
        table = one_number(rng, meter, table)?;
    }
    Some(table)
}

fn small_step(rng: &mut Rng, meter: &Meter, mut table: Vec<u8>) -> Option<Vec<u8>> {
    let place = any_word(rng, meter);
    let step = rng.between(1, 3);
    let number = number_at(&table, place);
    let stepped = match rng.chance(50) {
        true => number.wrapping_add(step),
        false => number.wrapping_sub(step),
    };
    set_number_at(&mut table, place, stepped);
    Some(table)
}

fn small_steps(rng: &mut Rng, meter: &Meter, mut table: Vec<u8>) -> Option<Vec<u8>> {
    for _ in 0..rng.between(2, 3) {
        table = small_step(rng, meter, table)?;
    }
    Some(table)
}

/// Any byte set to anything, so that a byte in the wrong order or one that is not
/// looked at is found.
fn one_byte(rng: &mut Rng, meter: &Meter, mut table: Vec<u8>) -> Option<Vec<u8>> {
    let byte = EACH * any_word(rng, meter) + rng.between(0, EACH as u32 - 1) as usize;
    table[byte] = match rng.between(0, 2) {
        0 => 1,
        1 => table[byte].wrapping_add(1),
        _ => rng.next_bits() as u8,
    };
    Some(table)
}

fn exchange(table: &mut [u8], a: usize, b: usize) {
    let (at_a, at_b) = (number_at(table, a), number_at(table, b));
    set_number_at(table, a, at_b);
    set_number_at(table, b, at_a);
}

fn numbers_exchanged(rng: &mut Rng, meter: &Meter, mut table: Vec<u8>) -> Option<Vec<u8>> {
    let (a, b) = (any_word(rng, meter), any_word(rng, meter));
    exchange(&mut table, a, b);
    Some(table)
}

/// Frames in each other's places, which are fit there too.
fn places_exchanged(rng: &mut Rng, meter: &Meter, mut table: Vec<u8>) -> Option<Vec<u8>> {
    let (a, b) = (some_place(rng, meter)?, rng.between(0, FRAMES as u32 - 1));
    for number in 0..PLACE {
        exchange(
            &mut table,
            place_at(a) + number,
            place_at(b as Place) + number,
        );
    }
    Some(table)
}

fn high_number(rng: &mut Rng, _: &Meter, mut table: Vec<u8>) -> Option<Vec<u8>> {
    let at = *rng.pick(&[ENTERED, DELIVERED, DROPPED])?;
    let number = number_at(&table, at);
    let others = [
        number.wrapping_add(1),
        number.wrapping_sub(1),
        number ^ 1 << 31,
        u32::MAX,
        odd_word(rng),
    ];
    set_number_at(&mut table, at, *rng.pick(&others)?);
    Some(table)
}

/// Bytes that were delivered are dropped instead, or one of them is lost.
fn figures(rng: &mut Rng, meter: &Meter, mut table: Vec<u8>) -> Option<Vec<u8>> {
    let moved = rng.next_bits() % (meter.delivered + 1);
    let lost = u64::from(rng.chance(30));
    set_figure(&mut table, DELIVERED, meter.delivered - moved);
    set_figure(
        &mut table,
        DROPPED,
        (meter.dropped + moved).saturating_sub(lost),
    );
    Some(table)
}

/// Entered and delivered or dropped raised alike, up to what may enter and
/// beyond.
fn figures_alike(rng: &mut Rng, meter: &Meter, mut table: Vec<u8>) -> Option<Vec<u8>> {
    let left = MOST_ENTERED - meter.entered;
    let more = [left, left + 1, left + 2, 1 << 40, 1 << 62];
    let more = *rng.pick(&more)?;
    set_figure(&mut table, ENTERED, meter.entered + more);
    match rng.chance(50) {
        true => set_figure(&mut table, DELIVERED, meter.delivered + more),
        false => set_figure(&mut table, DROPPED, meter.dropped + more),
    }
    Some(table)
}

/// Figures whose sum is right once it is cut to 64 bits.
fn past_64_bits(rng: &mut Rng, meter: &Meter, mut table: Vec<u8>) -> Option<Vec<u8>> {
    let more = (1 << 63) + rng.next_bits() % (1 << 63);
    let delivered = meter.delivered.checked_add(more)?;
    let dropped = meter.dropped.wrapping_sub(more);
    set_figure(&mut table, DELIVERED, delivered);
    set_figure(&mut table, DROPPED, dropped);
    Some(table)
}

/// Figures whose low numbers are right and whose high ones are not, by what a sum
/// of low numbers carries or by anything.
fn carry_lost(rng: &mut Rng, meter: &Meter, mut table: Vec<u8>) -> Option<Vec<u8>> {
    let carry = 1 << u32::BITS;
    match rng.between(0, 2) {
        0 => set_figure(&mut table, ENTERED, meter.entered.wrapping_sub(carry)),
        1 => set_figure(&mut table, DELIVERED, meter.delivered.wrapping_sub(carry)),
        _ => set_figure(&mut table, DROPPED, meter.dropped + carry),
    }
    Some(table)
}

/// Another size, which the entered bytes follow.
fn size(rng: &mut Rng, meter: &Meter, mut table: Vec<u8>) -> Option<Vec<u8>> {
    let place = some_place(rng, meter)?;
    let size = u64::from(meter.frames[&place].size);
    let others = [
        0,
        1,
        2,
        LARGEST_FRAME,
        LARGEST_FRAME + 1,
        2 * LARGEST_FRAME,
        u32::MAX,
    ];
    let other = *rng.pick(&others)?;
    set_number_at(&mut table, place_at(place) + SIZE, other);
    set_figure(&mut table, ENTERED, meter.entered - size + u64::from(other));
    Some(table)
}

/// Another unit for a held frame: of any network, of none, or its destination.
fn unit(rng: &mut Rng, meter: &Meter, mut table: Vec<u8>) -> Option<Vec<u8>> {
    let place = some_place(rng, meter)?;
    let other = odd_unit(rng, meter.frames[&place].destination.into());
    set_number_at(&mut table, place_at(place) + UNIT, other);
    Some(table)
}

/// Another destination for a held frame: of any network, of none, or its unit.
fn destination(rng: &mut Rng, meter: &Meter, mut table: Vec<u8>) -> Option<Vec<u8>> {
    let place = some_place(rng, meter)?;
    let other = odd_unit(rng, meter.frames[&place].unit.into());
    set_number_at(&mut table, place_at(place) + DESTINATION, other);
    Some(table)
}

fn odd_unit(rng: &mut Rng, opposite: u32) -> u32 {
    match rng.between(0, 9) {
        0..=2 => opposite,
        3..=7 => rng.between(0, MOST + 1),
        8 => 256 + opposite,
        _ => u32::MAX,
    }
}

fn hops(rng: &mut Rng, meter: &Meter, mut table: Vec<u8>) -> Option<Vec<u8>> {
    let place = some_place(rng, meter)?;
    let last = u32::from(LAST_HOP);
    let others = [0, last - 2, last - 1, last, last + 1, 255, 256, u32::MAX];
    let other = *rng.pick(&others)?;
    set_number_at(&mut table, place_at(place) + HOPS, other);
    Some(table)
}

/// Numbers in a place that no frame is in, without a size.
fn free_place(rng: &mut Rng, meter: &Meter, mut table: Vec<u8>) -> Option<Vec<u8>> {
    let places = 0..FRAMES as Place;
    let free: Vec<Place> = places.filter(|it| !meter.frames.contains_key(it)).collect();
    let place = *rng.pick(&free)?;
    let number = *rng.pick(&[UNIT, DESTINATION, HOPS])?;
    set_number_at(&mut table, place_at(place) + number, rng.between(1, 3));
    Some(table)
}

fn length(rng: &mut Rng, _: &Meter, mut table: Vec<u8>) -> Option<Vec<u8>> {
    let lengths = [0, 1, BYTES - EACH, BYTES - 1, BYTES + 1, BYTES + EACH];
    table.resize(*rng.pick(&lengths)?, 0);
    Some(table)
}
