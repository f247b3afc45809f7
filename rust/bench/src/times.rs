//! Times of calls.

use crate::table::Costs;
use crate::work::{Function, Mode, Side, Work};
use reference::MOST_LEAVES;
use std::time::Instant;

/// Timed runs of each side.
const RUNS: usize = 301;
/// Leaves in a timed run: few, so that most runs are not interrupted.
const LEAVES: usize = 4 * MOST_LEAVES;

/// Medians of the time of a call in ns, the sides run in turn. All sides give the same answers.
pub(crate) fn costs(function: Function, mode: Mode) -> Costs {
    let work = Work::new(mode);
    check_equal(function, &work);
    let lengths = function.lengths().iter();
    lengths
        .map(|leaves| medians(function, &work, *leaves))
        .collect()
}

fn medians(function: Function, work: &Work, leaves: usize) -> Vec<f64> {
    let sides = function.sides();
    let calls = LEAVES / leaves.max(16);
    let mut times = vec![Vec::new(); sides.len()];
    for run in 0..RUNS {
        for place in 0..sides.len() {
            let place = (run + place) % sides.len();
            let start = Instant::now();
            work.run(function, sides[place], leaves, calls);
            times[place].push(start.elapsed().as_nanos());
        }
    }
    let call = |times| median(times) as f64 / calls as f64;
    times.into_iter().map(call).collect()
}

fn median(mut times: Vec<u128>) -> u128 {
    times.sort_unstable();
    times[times.len() / 2]
}

fn check_equal(function: Function, work: &Work) {
    let proved = work.rights(Side::Proved);
    for &side in function.sides() {
        assert!(work.rights(side) == proved, "all sides find the same");
        for calls in [1, 2] {
            let [a, b] =
                [Side::Proved, side].map(|side| work.run(function, side, MOST_LEAVES, calls));
            assert_eq!(a, b, "all sides answer the same");
        }
    }
}
