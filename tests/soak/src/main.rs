//! soak COUNT [SEED]: so many random cases, the proved calls against the
//! reference. Exit status 1 at the first that differs, 2 for bad arguments.

use std::process::exit;
use std::time::{SystemTime, UNIX_EPOCH};

/// A seed from the clock, so that each run has other cases.
fn seed_now() -> u64 {
    let now = SystemTime::now().duration_since(UNIX_EPOCH);
    now.map_or(0, |now| now.as_nanos() as u64)
}

/// Count and seed.
fn arguments() -> Option<(u64, u64)> {
    let words: Vec<String> = std::env::args().skip(1).collect();
    match &words[..] {
        [count] => Some((count.parse().ok()?, seed_now())),
        [count, seed] => Some((count.parse().ok()?, seed.parse().ok()?)),
        _ => None,
    }
}

/// Tries cases, and prints how often each call gave each number.
fn try_all(seed: u64, count: u64, case: fn(u64, &mut soak::Tally)) {
    match soak::run(seed, count, case) {
        Ok(tally) => {
            for line in tally.lines() {
                println!("{line}");
            }
        }
        Err(differs) => {
            let tried = differs.wrapping_sub(seed);
            println!("{tried} cases agree; the next differs, as said above");
            println!("to repeat it: make soak COUNT=1 SEED={differs}");
            exit(1);
        }
    }
}

fn main() {
    let Some((count, seed)) = arguments() else {
        eprintln!("soak COUNT [SEED], both as decimal numbers below 2 to the 64th");
        exit(2);
    };
    println!("seed {seed}, {count} cases");
    try_all(seed, count, soak::try_case);
    // A card for every thirty of them, besides, and one for a case alone.
    try_all(seed, count.div_ceil(30), soak::try_card);
    println!("{count} cases, 0 differ");
}
