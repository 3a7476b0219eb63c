//! The C library against the reference. It needs the library: without it, run
//! the other tests with `--no-default-features`.

use differential::calls::Library;
use differential::{fixed, rounds, Pair, Reference};

#[test]
fn the_library_agrees_on_the_fixed_cases() {
    if let Err(mismatch) = fixed(&mut Pair::new(&Reference, &Library)) {
        panic!("{mismatch}");
    }
}

/// So many rounds in each half: both run at the same time.
const HALF: u64 = 25_000;

fn agrees_from(seed: u64) {
    if let Err(mismatch) = rounds(&mut Pair::new(&Reference, &Library), seed, HALF) {
        panic!("{mismatch}");
    }
}

#[test]
fn the_library_agrees_on_random_rounds() {
    agrees_from(1);
}

#[test]
fn the_library_agrees_on_as_many_more() {
    agrees_from(1 + HALF);
}
