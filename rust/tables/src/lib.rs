//! Worked rule tables: a description of a table, clause notation for it, its
//! bytes, and the tables that the documents and the README speak of.

pub mod clause;
pub mod description;
pub mod traps;
pub mod worked;

pub use clause::table;
pub use description::{Description, Rule, Symbol};

/// Words as they are lent to the reader: two bytes each, the low byte first.
pub fn words(numbers: &[u16]) -> Vec<u8> {
    numbers.iter().flat_map(|word| word.to_le_bytes()).collect()
}
