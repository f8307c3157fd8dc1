//! What the second implementation answers to the product's calls: results as the
//! product's numbers.

use crate::product::{DELIVERED, DROPPED, HELD};
use second::limits::ACCEPTED;
use second::meter::{Fate, Frame, Meter};
use second::meter_table::{laid_out, BYTES};
use second::refusal::{Refusal, UNFIT};

/// A fresh meter in a lent slice. Refused with 2 for its length, all that is
/// tested.
pub fn fresh(meter: &mut [u8]) -> u32 {
    if meter.len() != BYTES {
        return UNFIT;
    }
    meter.copy_from_slice(&laid_out(&Meter::default()));
    ACCEPTED
}

/// What became of a frame, or the refusal.
pub fn fate(result: Result<Fate, Refusal>) -> u64 {
    let answer = match result {
        Err(refusal) => refusal,
        Ok(Fate::Held(place)) => HELD + u32::from(place),
        Ok(Fate::Delivered) => DELIVERED,
        Ok(Fate::Dropped) => DROPPED,
    };
    answer.into()
}

/// A figure.
pub fn figure(value: u64) -> u64 {
    u64::from(ACCEPTED) + value
}

/// A number of a frame. Refused with 16.
pub fn field(meter: &Meter, place: u32, of: fn(Frame) -> u32) -> u64 {
    let frame = meter.held(place);
    let answer = frame.map_or_else(|refusal| refusal, |(_, frame)| ACCEPTED + of(frame));
    answer.into()
}
