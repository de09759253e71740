//! Comparison by running: Lanovishel beside the original and beside models that are written
//! from the specification (documents 01 and 02) alone.
//!
//! The tests are the comparison. `LANOVISHEL_RUNS` sets how many random cases each takes, and
//! `LANOVISHEL_SEED` the seed of the first; a failure names the seed of its case.
pub mod call;
pub mod checking;
pub mod closed;
pub mod cutting;
pub mod damage;
pub mod editing;
pub mod field;
pub mod finder;
pub mod history;
pub mod improving;
pub mod nearest;
pub mod outlines;
pub mod price;
pub mod questions;
pub mod random;
pub mod roots;
pub mod sampling;
pub mod sheets;
pub mod surfaces;
pub mod vectors;
pub mod volume;
pub mod whole;

use random::Random;
use std::env;

/// Takes random cases, `usual` of them or `LANOVISHEL_RUNS`, and says how many.
pub fn cases(usual: u64, mut case: impl FnMut(&mut Random) -> Result<(), String>) -> u64 {
    seeded_cases(usual, |_, random| case(random))
}

/// The same, and each case is told its seed.
pub fn seeded_cases(
    usual: u64,
    mut case: impl FnMut(u64, &mut Random) -> Result<(), String>,
) -> u64 {
    let runs = number("LANOVISHEL_RUNS").unwrap_or(usual);
    let first = number("LANOVISHEL_SEED").unwrap_or(1);
    for seed in first..first + runs {
        if let Err(difference) = case(seed, &mut Random::new(seed)) {
            panic!("LANOVISHEL_RUNS=1 LANOVISHEL_SEED={seed}: {difference}");
        }
    }
    runs
}

fn number(name: &str) -> Option<u64> {
    let text = env::var(name).ok()?;
    Some(
        text.parse()
            .unwrap_or_else(|_| panic!("{name}: {text} is no number")),
    )
}

/// Prints how often each of the `wanted` numbers was answered: at least `least` times.
pub fn report(what: &str, wanted: &[u32], answered: &[u32], least: u64) {
    let count = |number: u32| answered.iter().filter(|&&n| n == number).count() as u64;
    let counts: Vec<String> = wanted
        .iter()
        .map(|&n| format!("{n}: {}", count(n)))
        .collect();
    println!("{what} {}", counts.join(", "));
    for &number in wanted {
        assert!(
            count(number) >= least,
            "{what} {number} is hit less than {least} times"
        );
    }
}

/// Says that the original is not compared, where its source was not there.
pub fn note_absence() {
    if !original::PRESENT {
        println!("the original's source is not there: its vectors stand in for it");
    }
}
