//! Events of one unit made up from a seed.

use crate::call::Call;
use crate::run::BUFFER;
use second::limits::FIRMWARE_ROOM;
use second::tree::UnitNumber;
use second::unit::Unit;
use shared::draw::{add_idle, any_differences, cost, expected, other};
use shared::rng::Rng;
use shared::sample;

/// How many bytes of the buffer are lent: most often enough.
pub fn room(rng: &mut Rng) -> usize {
    match rng.between(0, 49) {
        0 => rng.between(0, FIRMWARE_ROOM as u32 - 1) as usize,
        1 => FIRMWARE_ROOM - 1,
        2..=9 => rng.between(FIRMWARE_ROOM as u32, BUFFER as u32) as usize,
        _ => FIRMWARE_ROOM,
    }
}

/// An event, most often one that the unit accepts.
pub fn draw(rng: &mut Rng, unit: &Unit) -> Call {
    let up: Vec<UnitNumber> = unit.neighbours.keys().copied().collect();
    let down: Vec<UnitNumber> = (0..unit.count)
        .filter(|k| *k != unit.number && !up.contains(k))
        .collect();
    let mut other = |wanted: &[UnitNumber]| other(rng, unit.count, unit.number, wanted);
    let (to_up, to_down) = (other(&up), other(&down));
    match rng.between(0, 99) {
        0..=12 if down.is_empty() => Call::Down(to_up),
        0..=17 => Call::Up(to_down, cost(rng)),
        18..=32 => Call::Cost(to_up, cost(rng)),
        33..=38 => Call::Down(to_up),
        _ => Call::Message(to_up, message(rng, unit, to_up)),
    }
}

/// The bytes of a message from a unit, legal or not.
fn message(rng: &mut Rng, unit: &Unit, from: u32) -> Vec<u8> {
    let neighbour = u8::try_from(from)
        .ok()
        .and_then(|k| Some((k, unit.neighbours.get(&k)?)));
    let Some((k, neighbour)) = neighbour else {
        return sample::noise(rng);
    };
    let count = unit.count;
    let mut message = expected(rng, count, k, neighbour);
    let case = rng.between(0, 99);
    match case {
        0..=5 => message.acknowledgment = true,
        6..=10 => add_idle(rng, count, k, neighbour, &mut message),
        11..=16 => message.update = Some(any_differences(rng, count, k)),
        17..=19 => message.sender = rng.between(0, u32::from(count) - 1) as u8,
        _ => {}
    }
    let Ok(bytes) = message.to_bytes(u32::from(count)) else {
        return sample::noise(rng);
    };
    match case {
        20..=23 => sample::flipped(rng, bytes),
        24..=25 => sample::truncated(rng, bytes),
        26..=27 => sample::extended(rng, bytes),
        28 => sample::noise(rng),
        29 => {
            let other = sample::laid_out(&sample::legal(rng));
            sample::spliced(rng, &bytes, &other)
        }
        _ => bytes,
    }
}
