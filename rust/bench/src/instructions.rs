//! Instructions of calls, counted by callgrind.

use crate::table::Costs;
use crate::work::{Function, Mode, Side, Work, MODES};
use std::env;
use std::process::Command;

/// Calls in a count.
const CALLS: usize = 20;

/// The instructions of a call.
pub(crate) fn costs(function: Function, mode: Mode) -> Costs {
    let of_sides = |leaves: &usize| {
        let sides = function.sides().iter();
        sides
            .map(|side| count(function, *side, mode, *leaves))
            .collect()
    };
    function.lengths().iter().map(of_sides).collect()
}

/// The instructions of a call of one side: this program is run under callgrind, which counts inside
/// the functions of [`Work`] that make one call.
fn count(function: Function, side: Side, mode: Mode, leaves: usize) -> f64 {
    let run = Command::new("valgrind")
        .args(["--tool=callgrind", "--callgrind-out-file=/dev/null"])
        .arg(format!("--toggle-collect=*{}_call*", function.name()))
        .arg(env::current_exe().expect("this program has a path"))
        .args(["--count", function.name(), side.name(), mode.name])
        .arg(leaves.to_string())
        .output()
        .expect("valgrind is installed");
    let text = String::from_utf8_lossy(&run.stderr);
    assert!(run.status.success(), "{text}");
    collected(&text).expect("callgrind says what it collected") / CALLS as f64
}

/// The number in callgrind's line 'Collected : N'.
fn collected(text: &str) -> Option<f64> {
    let (_, rest) = text.split_once("Collected : ")?;
    rest.lines().next()?.trim().parse().ok()
}

/// Makes the calls whose instructions are counted.
pub(crate) fn make_calls(function: &str, side: &str, mode: &str, leaves: &str) {
    let functions = [Function::List, Function::Plan];
    let function = functions.into_iter().find(|known| known.name() == function);
    let function = function.expect("FUNCTION is list or plan");
    let sides = function.sides().iter();
    let side = sides.copied().find(|known| known.name() == side);
    let mode = MODES.into_iter().find(|known| known.name == mode);
    let leaves = leaves.parse().expect("LEAVES is a number");
    let work = Work::new(mode.expect("MODE is a mode of the tables"));
    work.run(
        function,
        side.expect("SIDE has the function"),
        leaves,
        CALLS,
    );
}
