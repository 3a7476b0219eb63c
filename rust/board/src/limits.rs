//! The limits of the three calls, and the words' bytes.

/// The numbers of one record of a chart: category, function, height, three
/// ranges as start and end, three daughters' places.
pub const RECORD_NUMBERS: usize = 12;

/// The most records that a chart has. An allowance of 0 means this many, and a
/// greater one is taken as this many.
pub const MOST_RECORDS: usize = 2_000;

/// The numbers of a chart slice that has room for all records.
pub const CHART_NUMBERS: usize = MOST_RECORDS * RECORD_NUMBERS;

/// The most nodes that a tree list has.
pub const MOST_NODES: usize = 255;

/// The most words that a sentence has.
pub const MOST_WORDS: usize = 64;

/// No valid table is longer, so the first so many bytes of a file are enough.
pub const TABLE_BYTES: usize = 40_000;

/// Words as they are lent: two bytes each, the low byte first.
pub fn words(numbers: &[u16]) -> Vec<u8> {
    numbers.iter().flat_map(|word| word.to_le_bytes()).collect()
}

#[cfg(test)]
mod tests {
    use super::*;

    #[test]
    fn a_word_has_its_low_byte_first() {
        assert_eq!(words(&[9, 0x1234]), [9, 0, 0x34, 0x12]);
        assert_eq!(words(&[]), []);
    }
}
