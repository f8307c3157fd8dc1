//! A unit's table as bytes. The numbers are [`second::unit_table`]'s.

use second::refusal::{Refusal, UNFIT};
use second::table_bytes;
use second::unit::Unit;
use second::unit_table;

pub use second::network_tables::UNIT_BYTES as BYTES;
pub use second::table_bytes::EACH;

/// The table of a unit of a legal network.
pub fn laid_out(unit: &Unit) -> Vec<u8> {
    let mut table = vec![0; BYTES];
    table_bytes::lay(&unit_table::laid_out(unit), &mut table);
    table
}

/// The unit that a table holds, or 2.
pub fn read(table: &[u8]) -> Result<Unit, Refusal> {
    if table.len() != BYTES {
        return Err(UNFIT);
    }
    unit_table::read(&table_bytes::numbers(table))
}

/// What stands at a byte of a table, for a report.
pub fn place_name(byte: usize) -> String {
    unit_table::place_name(byte / EACH)
}

#[cfg(test)]
mod tests {
    use super::*;

    /// The cost of the link to unit 1 is number 3, so bytes 12 to 15.
    #[test]
    fn the_high_byte_is_first() {
        let mut unit = Unit::fresh(2, 0).unwrap();
        unit.up(1, 0x1234).unwrap();
        let bytes = laid_out(&unit);
        assert_eq!(bytes.len(), BYTES);
        assert_eq!(bytes[12..16], [0, 0, 0x12, 0x34]);
        assert_eq!(read(&bytes), Ok(unit));
    }

    #[test]
    fn other_lengths_are_unfit() {
        let mut bytes = laid_out(&Unit::fresh(3, 1).unwrap());
        for length in [0, BYTES - EACH, BYTES - 1, BYTES + 1, BYTES + EACH] {
            bytes.resize(length, 0);
            assert_eq!(read(&bytes), Err(UNFIT), "{length}");
        }
    }
}
