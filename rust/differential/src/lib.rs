//! Compares two implementations of document 01's calls: the C library and the
//! reference, or any other two. Everything is seeded, so a difference that was
//! found once is found again.
//!
//! One file holds one topic. What is made: `chance` (seeded numbers), `grammar`
//! (tables), `sentences` (trees and near misses), `damage` (tables, words, lists
//! and charts made wrong), `foreign` (charts that others could have made). What
//! is done with it: `calls` (who is compared), `pair` (one call on both sides),
//! `mismatch` (what is printed), `round` (one random round), `bytes` (every
//! changed byte of the worked tables), `edges` (cases at the limits).

pub mod bytes;
pub mod calls;
pub mod chance;
pub mod damage;
pub mod edges;
pub mod foreign;
pub mod grammar;
pub mod mismatch;
pub mod pair;
pub mod round;
pub mod sentences;

pub use calls::{Calls, Reference};
pub use mismatch::{Compared, Mismatch};
pub use pair::Pair;

/// Everything but random rounds: each changed byte, and the limits.
pub fn fixed(pair: &mut Pair) -> Compared {
    bytes::every_change(pair)?;
    edges::all(pair)
}

/// As many random rounds as wanted, from this seed on.
pub fn rounds(pair: &mut Pair, seed: u64, number: u64) -> Compared {
    (seed..seed + number).try_for_each(|seed| round::round(pair, seed))
}
