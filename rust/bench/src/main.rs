//! Compares the proved list with the fast one and the reference's, and the proved planner with the
//! reference's. A list gives rights and causes.
//!
//! `bench` prints tables of times, `bench --instructions` tables of instructions, counted by
//! callgrind. The latter runs `bench --count FUNCTION SIDE MODE LEAVES`, which makes the calls to count.

mod instructions;
mod table;
mod times;
mod work;

use std::env;
use std::process::ExitCode;

fn main() -> ExitCode {
    let arguments: Vec<String> = env::args().skip(1).collect();
    let words: Vec<&str> = arguments.iter().map(String::as_str).collect();
    match words[..] {
        [] => table::print("ns", times::costs),
        ["--instructions"] => table::print("instructions", instructions::costs),
        ["--count", function, side, mode, leaves] => {
            instructions::make_calls(function, side, mode, leaves)
        }
        _ => {
            eprintln!(
                "Usage: bench | bench --instructions | bench --count FUNCTION SIDE MODE LEAVES"
            );
            return ExitCode::from(2);
        }
    }
    ExitCode::SUCCESS
}
