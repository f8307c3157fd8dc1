//! Refusal numbers, and the tests of plain numbers that several requests share.
//!
//! "The lowest number that applies is given. A refusal returns its number alone
//! and changes nothing."

use crate::limits::{FEWEST_UNITS, HIGHEST_COST, LARGEST_FRAME, UNITS};
use crate::tree::UnitNumber;

/// The number of a refusal.
pub type Refusal = u32;

/// 1: "unit count not 2 to 16 (fresh network, reader, writer)".
pub const COUNT: Refusal = 1;
/// 2: "tables unfit"; in a script, a command before a good `units`.
pub const UNFIT: Refusal = 2;
/// 3: "a unit number not below the count; for links, costs, messages and
/// deliveries also two equal ends".
pub const UNIT: Refusal = 3;
/// 4: "cost not 1 to 65,535".
pub const COST: Refusal = 4;
/// 5: "link up asked, already up".
pub const ALREADY_UP: Refusal = 5;
/// 6: "cost, down, delivery or message for a link not up".
pub const NOT_UP: Refusal = 6;
/// 7: "buffer too short", or "an offset past the end".
pub const TOO_SHORT: Refusal = 7;
/// 8: "delivery from an empty queue".
pub const EMPTY_QUEUE: Refusal = 8;
/// 9: "message against the layout, or not from the neighbour it came by".
pub const LAYOUT: Refusal = 9;
/// 10: "an acknowledgment that isn't awaited".
pub const NOT_AWAITED: Refusal = 10;
/// 11: "an entry that changes nothing in the copy".
pub const CHANGES_NOTHING: Refusal = 11;
/// 12: "the changed copy isn't a tree rooted at the sender".
pub const NOT_A_TREE: Refusal = 12;
/// 13: "some queue would pass 4 messages".
pub const QUEUE_FULL: Refusal = 13;
/// 14: "no free place, exactly when 64 are held".
pub const NO_PLACE: Refusal = 14;
/// 15: "entered bytes would pass 10^15".
pub const ENTERED: Refusal = 15;
/// 16: "a size not 1 to 65,535, a move or drop of a frame that isn't held, or a
/// move to a unit that is no present successor".
pub const FRAME: Refusal = 16;

/// "Units: 2 to 16, numbered from 0." Any other count is refused with 1.
pub fn legal_count(count: u32) -> Result<u8, Refusal> {
    match u8::try_from(count) {
        Ok(count) if (FEWEST_UNITS..=UNITS).contains(&count.into()) => Ok(count),
        _ => Err(COUNT),
    }
}

/// A unit number is below the count, else refused with 3.
pub fn legal_unit(count: u8, unit: u32) -> Result<UnitNumber, Refusal> {
    match u8::try_from(unit) {
        Ok(unit) if unit < count => Ok(unit),
        _ => Err(UNIT),
    }
}

/// Two ends of a link: both below the count and not equal, else refused with 3.
pub fn legal_ends(count: u8, a: u32, b: u32) -> Result<(UnitNumber, UnitNumber), Refusal> {
    let ends = (legal_unit(count, a)?, legal_unit(count, b)?);
    if a == b {
        return Err(UNIT);
    }
    Ok(ends)
}

/// "Link cost: 1 to 65,535." Any other cost is refused with 4.
pub fn legal_cost(cost: u32) -> Result<u16, Refusal> {
    match u16::try_from(cost) {
        Ok(legal) if (1..=HIGHEST_COST).contains(&cost) => Ok(legal),
        _ => Err(COST),
    }
}

/// "A size of 1 to 65,535 bytes." Any other size is refused with 16.
pub fn legal_size(size: u32) -> Result<u16, Refusal> {
    match u16::try_from(size) {
        Ok(legal) if (1..=LARGEST_FRAME).contains(&size) => Ok(legal),
        _ => Err(FRAME),
    }
}
