//! The benchmark, in one go:
//! `cargo run --release --offline -p bench`. It prints Markdown.

use std::process::ExitCode;

use bench::cases::{cases, plain, Case, Said, ALLOWANCE};
use bench::measure::median_of;
use bench::report::{trap_is_good, trap_line, Measured, COMPARISON_HEAD, TRAP_HEAD};
use board::{read, Reading};
use tables::traps::traps;

/// How often each is run, an odd number.
const RUNS: usize = 9;
const TRAP_RUNS: usize = 3;

fn main() -> ExitCode {
    println!(
        "Machine: {}. Medians of {RUNS} runs, allowance {ALLOWANCE}.\n",
        bench::machine::this()
    );
    let mut all_good = comparison();
    println!("\nTrap tables, the library alone, medians of {TRAP_RUNS} runs.\n");
    all_good &= trap_tables();
    if all_good {
        ExitCode::SUCCESS
    } else {
        ExitCode::FAILURE
    }
}

/// Both readers on all cases; says whether all is as wished.
fn comparison() -> bool {
    println!("{COMPARISON_HEAD}");
    let mut all_good = true;
    for case in &cases() {
        let measured = measured(case);
        println!("{}", measured.line());
        all_good &= measured.is_good();
    }
    all_good
}

fn measured(case: &Case) -> Measured<'_> {
    let mut chart = vec![0; ALLOWANCE * 12];
    let library = median_of(RUNS, || library(&case.table, &case.words, &mut chart));
    let plain = median_of(RUNS, || plain(case));
    Measured { case, library, plain }
}

/// The library on the traps; says whether each is read in time.
fn trap_tables() -> bool {
    println!("{TRAP_HEAD}");
    let mut all_good = true;
    let mut chart = vec![0; ALLOWANCE * 12];
    for trap in traps() {
        let words = tables::words(&vec![9; trap.nines]);
        let (time, says) = median_of(TRAP_RUNS, || library(&trap.table, &words, &mut chart));
        println!("{}", trap_line(trap.name, trap.nines, says, time));
        all_good &= trap_is_good(time);
    }
    all_good
}

/// What the library says.
fn library(table: &[u8], words: &[u8], chart: &mut [u16]) -> Said {
    match read(table, words, ALLOWANCE, chart) {
        Reading::Yes { items, .. } | Reading::No { items } => Said::Items(items),
        Reading::Full { .. } => Said::Full,
        other => panic!("the tables of the benchmark are valid, but: {other}"),
    }
}
