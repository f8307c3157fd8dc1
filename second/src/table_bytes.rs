//! A table as bytes: "At that border a table is bytes, 4 for each number, high
//! byte first."

/// The bytes of a number.
pub const EACH: usize = 4;

/// The number at a place of a table.
pub fn number_at(table: &[u8], place: usize) -> u32 {
    number(&table[EACH * place..][..EACH])
}

/// Sets the number at a place of a table.
pub fn set_number_at(table: &mut [u8], place: usize, number: u32) {
    table[EACH * place..][..EACH].copy_from_slice(&number.to_be_bytes());
}

/// The numbers of a table of whole numbers.
pub fn numbers(table: &[u8]) -> Vec<u32> {
    table.chunks_exact(EACH).map(number).collect()
}

/// Lays numbers into a table that has a place for each.
pub fn lay(numbers: &[u32], table: &mut [u8]) {
    for (place, number) in table.chunks_exact_mut(EACH).zip(numbers) {
        place.copy_from_slice(&number.to_be_bytes());
    }
}

fn number(bytes: &[u8]) -> u32 {
    bytes
        .iter()
        .fold(0, |sum, &byte| sum << 8 | u32::from(byte))
}

#[cfg(test)]
mod tests {
    use super::*;

    #[test]
    fn the_high_byte_is_first() {
        let mut table = [9; 12];
        set_number_at(&mut table, 1, 0x0102_0304);
        assert_eq!(table, [9, 9, 9, 9, 1, 2, 3, 4, 9, 9, 9, 9]);
        assert_eq!(number_at(&table, 1), 0x0102_0304);
        assert_eq!(numbers(&table), [0x0909_0909, 0x0102_0304, 0x0909_0909]);
    }

    #[test]
    fn what_is_laid_out_is_read_back() {
        let numbers_laid = [0, 1, 255, 256, 65_536, u32::MAX - 1, u32::MAX];
        let mut table = [0xa5; 28];
        lay(&numbers_laid, &mut table);
        assert_eq!(numbers(&table), numbers_laid);
    }
}
