//! What the differential tests share: inputs, classes of answers, causes, and a planner by brute
//! force.
//!
//! `SONSIPLEX_SEED` gives another seed (decimal), `SONSIPLEX_TIMES` multiplies the number of cases.

pub mod brute;
pub mod causes;
pub mod compare;
pub mod generate;
pub mod lent;
pub mod tally;

use std::env;

/// The seed of all tests unless `SONSIPLEX_SEED` is set.
const SEED: u64 = 20_250_101;

/// The seed of this run, different for each test.
pub fn seed(test: u64) -> u64 {
    setting("SONSIPLEX_SEED")
        .unwrap_or(SEED)
        .wrapping_mul(31)
        .wrapping_add(test)
}

/// `cases`, or the multiple of it that `SONSIPLEX_TIMES` asks for.
pub fn times(cases: u64) -> u64 {
    cases * setting("SONSIPLEX_TIMES").unwrap_or(1)
}

fn setting(name: &str) -> Option<u64> {
    let value = env::var(name).ok()?;
    Some(
        value
            .parse()
            .unwrap_or_else(|_| panic!("{name} is a decimal number, not '{value}'")),
    )
}
