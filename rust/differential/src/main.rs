//! The longer run, with a seed:
//! `cargo run --release --offline -p differential -- --seed 1 --rounds 100000`.

use std::process::ExitCode;

use differential::calls::Library;
use differential::round::round;
use differential::{fixed, Pair, Reference};

fn main() -> ExitCode {
    let arguments: Vec<String> = std::env::args().skip(1).collect();
    let Some((seed, rounds)) = wanted(&arguments) else {
        eprintln!("Please say: differential --seed NUMBER --rounds NUMBER");
        return ExitCode::from(2);
    };
    let mut pair = Pair::new(&Reference, &Library);
    if let Err(mismatch) = fixed(&mut pair) {
        println!("{mismatch}");
        return ExitCode::FAILURE;
    }
    println!("the fixed cases agree");
    for seed in seed..seed + rounds {
        if let Err(mismatch) = round(&mut pair, seed) {
            println!("seed {seed}: {mismatch}");
            return ExitCode::FAILURE;
        }
        if (seed + 1) % 1000 == 0 {
            println!("agree up to seed {seed}");
        }
    }
    for ((call, code), times) in &pair.tally {
        println!("{call} answered {code}: {times} times");
    }
    ExitCode::SUCCESS
}

/// Seed and rounds; 1 and 10,000 where nothing is said.
fn wanted(arguments: &[String]) -> Option<(u64, u64)> {
    let (mut seed, mut rounds) = (1, 10_000);
    for pair in arguments.chunks(2) {
        let [name, value] = pair else { return None };
        match name.as_str() {
            "--seed" => seed = value.parse().ok()?,
            "--rounds" => rounds = value.parse().ok()?,
            _ => return None,
        }
    }
    Some((seed, rounds))
}
