//! Sizes, calls and meters made up from a seed.

use crate::call::{fields, Call, FIGURES};
use second::limits::{FRAMES, LARGEST_FRAME, LAST_HOP, MOST_ENTERED};
use second::meter::{Frame, Meter, Place};
use second::network::Network;
use second::tree::UnitNumber;
use shared::draw::MOST;
use shared::rng::Rng;

/// How often what happens to frames, in parts of their sum; and how often a call
/// has bad numbers, in so many of 100 cases.
#[derive(Clone, Copy)]
pub struct Temper {
    /// Frames enter.
    pub enters: u32,
    /// Frames move.
    pub moves: u32,
    /// Frames are dropped.
    pub drops: u32,
    /// Calls with any numbers.
    pub odd: u32,
}

/// A temper: places fill up, are mostly free, or neither.
pub fn temper(rng: &mut Rng) -> Temper {
    let tempers = [(60, 35, 5), (80, 15, 5), (30, 65, 5), (20, 60, 20)];
    let &(enters, moves, drops) = rng.pick(&tempers).unwrap_or(&(1, 1, 1));
    Temper {
        enters,
        moves,
        drops,
        odd: 10,
    }
}

/// A legal size, often the least or the largest.
pub fn size(rng: &mut Rng) -> u32 {
    match rng.between(0, 5) {
        0 => 1,
        1 => LARGEST_FRAME,
        2 => rng.between(2, 300),
        _ => rng.between(1, LARGEST_FRAME),
    }
}

/// A size that is most often none.
fn odd_size(rng: &mut Rng) -> u32 {
    let above = LARGEST_FRAME + 1;
    let odd = [
        0,
        1,
        LARGEST_FRAME,
        above,
        above + 1,
        2 * above,
        1 << 31,
        u32::MAX - 1,
        u32::MAX,
        rng.next_bits() as u32,
    ];
    *rng.pick(&odd).unwrap_or(&0)
}

/// A unit's number.
pub fn unit(rng: &mut Rng, count: u32) -> u32 {
    rng.between(0, count - 1)
}

/// A unit's number, often one that is none.
fn odd_unit(rng: &mut Rng, count: u32) -> u32 {
    let legal = unit(rng, count);
    let odd = [
        count,
        count + 1,
        MOST,
        255,
        256,
        256 + legal,
        (1 << 16) + legal,
        u32::MAX,
    ];
    match rng.chance(50) {
        true => legal,
        false => *rng.pick(&odd).unwrap_or(&count),
    }
}

/// The place of a held frame.
fn held(rng: &mut Rng, meter: &Meter) -> Option<u32> {
    let places: Vec<Place> = meter.frames.keys().copied().collect();
    rng.pick(&places).map(|&place| place.into())
}

/// A place, most often one that is free or none.
pub fn odd_place(rng: &mut Rng, meter: &Meter) -> u32 {
    let places = FRAMES as u32;
    let some = held(rng, meter).unwrap_or(0);
    let odd = [
        some,
        places - 1,
        places,
        places + some,
        255,
        256 + some,
        (1 << 16) + some,
        (1 << 30) + some,
        u32::MAX,
        rng.between(0, places - 1),
    ];
    *rng.pick(&odd).unwrap_or(&places)
}

/// What happens next to a frame.
pub fn change(rng: &mut Rng, temper: Temper, network: &Network, meter: &Meter) -> Call {
    if rng.chance(temper.odd) {
        return odd_change(rng, network, meter);
    }
    let count = network.count().into();
    let Temper {
        enters,
        moves,
        drops,
        ..
    } = temper;
    let turn = rng.between(1, enters + moves + drops);
    match held(rng, meter) {
        Some(place) if turn <= moves => Call::Move(place, next_unit(rng, network, meter, place)),
        Some(place) if turn <= moves + drops => Call::Drop(place),
        _ => Call::Enter(size(rng), unit(rng, count), unit(rng, count)),
    }
}

/// A successor of a held frame, any unit if there is none.
pub fn next_unit(rng: &mut Rng, network: &Network, meter: &Meter, place: u32) -> u32 {
    let successors: Vec<UnitNumber> = match meter.held(place) {
        Err(_) => Vec::new(),
        Ok((_, frame)) => {
            let sets = &network.unit(frame.unit).successors;
            sets[&frame.destination].iter().copied().collect()
        }
    };
    match rng.pick(&successors) {
        Some(&to) => to.into(),
        None => unit(rng, network.count().into()),
    }
}

/// What happens to a frame, with any numbers.
pub fn odd_change(rng: &mut Rng, network: &Network, meter: &Meter) -> Call {
    let count = network.count().into();
    match rng.between(0, 4) {
        0..=1 => {
            let size = match rng.chance(40) {
                true => size(rng),
                false => odd_size(rng),
            };
            Call::Enter(size, odd_unit(rng, count), odd_unit(rng, count))
        }
        2..=3 => {
            let place = match held(rng, meter) {
                Some(place) if rng.chance(50) => place,
                _ => odd_place(rng, meter),
            };
            Call::Move(place, odd_unit(rng, count))
        }
        _ => Call::Drop(odd_place(rng, meter)),
    }
}

/// Any question.
pub fn question(rng: &mut Rng, meter: &Meter) -> Call {
    if rng.chance(40) {
        return *rng.pick(&FIGURES).unwrap_or(&Call::Frames);
    }
    let place = match held(rng, meter) {
        Some(place) if rng.chance(70) => place,
        _ => odd_place(rng, meter),
    };
    *rng.pick(&fields(place)).unwrap_or(&Call::Size(place))
}

/// A frame that may be held in a network of so many units, often one with few
/// hops left.
pub fn frame(rng: &mut Rng, count: u32) -> Frame {
    let unit = unit(rng, count);
    let last = u32::from(LAST_HOP) - 1;
    let hops = match rng.between(0, 3) {
        0 => 0,
        1 => rng.between(last - 2, last),
        _ => rng.between(0, last),
    };
    Frame {
        size: size(rng) as u16,
        unit: unit as UnitNumber,
        destination: ((unit + rng.between(1, count - 1)) % count) as UnitNumber,
        hops: hops as u8,
    }
}

/// A fit meter that most often no sequence has reached: any frames in any places,
/// and figures that add up, often to nearly all that may enter.
pub fn meter(rng: &mut Rng, count: u32) -> Meter {
    let share = *rng.pick(&[0, 3, 30, 80, 100]).unwrap_or(&30);
    let places = 0..FRAMES as Place;
    let taken: Vec<Place> = places.filter(|_| rng.chance(share)).collect();
    let mut meter = Meter {
        frames: taken.iter().map(|&it| (it, frame(rng, count))).collect(),
        ..Meter::default()
    };
    let held = meter.bytes_held();
    meter.entered = match rng.between(0, 3) {
        0 => held + u64::from(rng.between(0, 100)),
        1 => held + rng.next_bits() % (MOST_ENTERED - held),
        2 => MOST_ENTERED - u64::from(rng.between(0, 2)),
        _ => MOST_ENTERED - u64::from(rng.between(0, 2 * LARGEST_FRAME)),
    };
    let settled = meter.entered - held;
    meter.delivered = match rng.between(0, 3) {
        0 => settled,
        1 => 0,
        _ => rng.next_bits() % (settled + 1),
    };
    meter.dropped = settled - meter.delivered;
    meter
}
