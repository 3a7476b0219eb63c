//! The plain Rust program of the benchmark: it repeats all rules over all
//! combinations of known items until nothing new comes. It finds the true items
//! and counts them; it keeps no heights and writes no chart. The tables are
//! taken apart by `reference`; everything else is its own.

mod items;
mod row;
mod search;

use reference::{table_check, words, Refusal};

/// What the plain reader finds.
#[derive(Clone, Copy, PartialEq, Eq, Debug)]
pub enum Found {
    /// There are more true items than the limit.
    Full,
    /// There are this many true items.
    Items(usize),
    /// The table or the words are refused.
    Refused(Refusal),
}

/// Counts the true items, stopping beyond the limit.
pub fn items(table: &[u8], words: &[u8], limit: usize) -> Found {
    let checked = table_check::check(table).and_then(|table| Ok((table, words::check(words)?)));
    match checked {
        Err(refusal) => Found::Refused(refusal),
        Ok((table, words)) => match search::search(&table, &words, limit) {
            Some(count) => Found::Items(count),
            None => Found::Full,
        },
    }
}
