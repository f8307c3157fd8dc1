//! A meter's table of numbers as bytes, by the index rule of `docs/TABLES.md`.
//!
//! Three figures come first, each as two numbers, the high one first; then the
//! places, four numbers each. The reader holds each place to the rules over a
//! network, in the words of refusal 2, and takes nothing that it can't explain.

use crate::limits::{FRAMES, LAST_HOP, MOST_ENTERED};
use crate::meter::{Frame, Meter, Place};
use crate::network::Network;
use crate::refusal::{legal_size, legal_unit, Refusal, UNFIT};
use crate::table_bytes::{self, EACH};

/// Where the entered bytes stand. A figure is two numbers.
pub const ENTERED: usize = 0;
/// Where the delivered bytes stand.
pub const DELIVERED: usize = 2;
/// Where the dropped bytes stand.
pub const DROPPED: usize = 4;
/// The first of the places.
pub const PLACES: usize = 6;
/// The numbers of a place.
pub const PLACE: usize = 4;

/// Where in its place a frame's size stands.
pub const SIZE: usize = 0;
/// Where in its place a frame's unit stands.
pub const UNIT: usize = 1;
/// Where in its place a frame's destination stands.
pub const DESTINATION: usize = 2;
/// Where in its place a frame's hops stand.
pub const HOPS: usize = 3;

/// The numbers of a table.
pub const WORDS: usize = PLACES + FRAMES * PLACE;
/// The bytes of a table.
pub const BYTES: usize = EACH * WORDS;

/// The table of a meter.
pub fn laid_out(meter: &Meter) -> Vec<u8> {
    let mut words = [0; WORDS];
    for (at, figure) in [
        (ENTERED, meter.entered),
        (DELIVERED, meter.delivered),
        (DROPPED, meter.dropped),
    ] {
        words[at] = (figure >> u32::BITS) as u32;
        words[at + 1] = figure as u32;
    }
    for (&place, frame) in &meter.frames {
        let at = place_at(place);
        words[at + SIZE] = frame.size.into();
        words[at + UNIT] = frame.unit.into();
        words[at + DESTINATION] = frame.destination.into();
        words[at + HOPS] = frame.hops.into();
    }
    let mut table = vec![0; BYTES];
    table_bytes::lay(&words, &mut table);
    table
}

/// The index of a place's first number.
pub fn place_at(place: Place) -> usize {
    PLACES + PLACE * usize::from(place)
}

/// The meter that a lent slice holds over a fit network, or 2.
pub fn read(network: &Network, table: &[u8]) -> Result<Meter, Refusal> {
    meter(network, table).ok_or(UNFIT)
}

fn meter(network: &Network, table: &[u8]) -> Option<Meter> {
    // "a slice not of its fixed length"
    if table.len() != BYTES {
        return None;
    }
    let words = table_bytes::numbers(table);
    let mut meter = Meter {
        entered: figure(&words, ENTERED),
        delivered: figure(&words, DELIVERED),
        dropped: figure(&words, DROPPED),
        frames: Default::default(),
    };
    for (place, numbers) in (0..).zip(words[PLACES..].chunks_exact(PLACE)) {
        if *numbers != [0; PLACE] {
            meter.frames.insert(place, frame(network.count(), numbers)?);
        }
    }
    adds_up(&meter).then_some(meter)
}

fn figure(words: &[u32], at: usize) -> u64 {
    u64::from(words[at]) << u32::BITS | u64::from(words[at + 1])
}

/// A held frame; none if it is "of another size, with a unit or destination not
/// below the count, at its destination or with more than 63 hops".
fn frame(count: u8, numbers: &[u32]) -> Option<Frame> {
    let hops = u8::try_from(numbers[HOPS]).ok()?;
    let frame = Frame {
        size: legal_size(numbers[SIZE]).ok()?,
        unit: legal_unit(count, numbers[UNIT]).ok()?,
        destination: legal_unit(count, numbers[DESTINATION]).ok()?,
        hops,
    };
    (frame.unit != frame.destination && hops < LAST_HOP).then_some(frame)
}

/// No meter "whose entered bytes pass 10^15 or aren't the sum of delivered,
/// dropped and held". Figures of damaged tables may be as great as they like, so
/// the sum is wider than they are.
fn adds_up(meter: &Meter) -> bool {
    let parts = [meter.delivered, meter.dropped, meter.bytes_held()];
    let sum: u128 = parts.into_iter().map(u128::from).sum();
    meter.entered <= MOST_ENTERED && u128::from(meter.entered) == sum
}

/// What stands at an index of a table, for a report.
pub fn word_name(word: usize) -> String {
    let half = if word % 2 == 0 { "high" } else { "low" };
    match word {
        _ if word < DELIVERED => format!("entered, {half}"),
        _ if word < DROPPED => format!("delivered, {half}"),
        _ if word < PLACES => format!("dropped, {half}"),
        _ => {
            let names = ["size", "unit", "destination", "hops"];
            let (place, field) = ((word - PLACES) / PLACE, (word - PLACES) % PLACE);
            format!("frame {place}, {}", names[field])
        }
    }
}
