//! The numbers of the rules, in the document's words.
//!
//! The limits stand here and nowhere else, and what depends on them is computed
//! from them. With other [`UNITS`] or another [`QUEUE_ROOM`] all of this still
//! builds and runs; only tests that quote figures of the document fail then.

/// "Units: 2 to 16": the fewest.
pub const FEWEST_UNITS: usize = 2;

/// "Units: 2 to 16": the most, and so the numbers in a row of a table.
pub const UNITS: usize = 16;

/// "Link cost: 1 to 65,535": the highest.
pub const HIGHEST_COST: u32 = 65_535;

/// "A distance is unreachable, above all numbers, or at most 983,025 (15
/// links)": the greatest that is a number.
pub const GREATEST_DISTANCE: u32 = (UNITS as u32 - 1) * HIGHEST_COST;

/// "A queue for each direction of each link: first in, first out, at most 4
/// messages."
pub const QUEUE_ROOM: usize = 4;

/// The bytes of a message before its changed units: edition, sender, kind,
/// number of entries.
pub const CONTENTS: usize = 4;

/// The bytes of an entry: its unit, and a body of three.
pub const ENTRY_BYTES: usize = 4;

/// "Number of entries, 0 to the count less one": the most.
pub const ENTRIES: usize = UNITS - 1;

/// The bytes of the longest message.
pub const MESSAGE_ROOM: usize = message_length(ENTRIES);

/// "The room asked for is 975 bytes": the messages of an event, "at most one for
/// each neighbour", "each after one byte with the neighbour's number".
pub const FIRMWARE_ROOM: usize = (UNITS - 1) * (1 + MESSAGE_ROOM);

/// "An accepted event answers 100 plus the bytes used."
pub const ACCEPTED: u32 = 100;

/// "255 and cost 0 for a removed entry": the head that stands for it.
pub const REMOVED: u32 = 255;

/// What a head counts where head and cost are one number: one more than the
/// highest cost.
pub const ENTRY_BASE: u32 = HIGHEST_COST + 1;

/// A meter "holds up to 64 frames": its places.
pub const FRAMES: usize = 64;

/// "Each with a size of 1 to 65,535 bytes": the largest.
pub const LARGEST_FRAME: u32 = 65_535;

/// "At its 64th hop it is delivered if that hop reaches the destination, else
/// dropped": the hop after which no frame is held.
pub const LAST_HOP: u8 = 64;

/// "15 entered bytes would pass 10^15": the most that enter.
pub const MOST_ENTERED: u64 = 10_u64.pow(15);

/// "Length is exactly 4 plus 4 for each entry." However many entries are asked
/// about, the length is at least as much as there is room for anywhere.
pub const fn message_length(entries: usize) -> usize {
    entries.saturating_mul(ENTRY_BYTES).saturating_add(CONTENTS)
}

#[cfg(test)]
mod tests {
    use super::*;

    /// The figures that the document gives.
    #[test]
    fn figures_of_the_document() {
        assert_eq!((FEWEST_UNITS, UNITS), (2, 16));
        assert_eq!(HIGHEST_COST, 65_535);
        assert_eq!(GREATEST_DISTANCE, 983_025);
        assert_eq!(QUEUE_ROOM, 4);
        assert_eq!(FIRMWARE_ROOM, 975);
        assert_eq!((FRAMES, LARGEST_FRAME, LAST_HOP), (64, 65_535, 64));
        assert_eq!(MOST_ENTERED, 1_000_000_000_000_000);
    }

    #[test]
    fn lengths_of_messages() {
        assert_eq!(message_length(0), 4);
        assert_eq!(message_length(2), 12);
        assert_eq!(message_length(usize::MAX), usize::MAX);
    }
}
