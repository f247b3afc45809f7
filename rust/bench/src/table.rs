//! Tables of what calls cost, in the form of docs/PERFORMANCE.md.

use crate::work::{Function, Mode, MODES};
use reference::MOST_LEAVES;

/// What one call costs each side of a function, for each of its lengths.
pub(crate) type Costs = Vec<Vec<f64>>;

/// Prints what lists and plans cost, in this unit.
pub(crate) fn print(unit: &str, costs: impl Fn(Function, Mode) -> Costs) {
    let lists = MODES.map(|mode| (mode, costs(Function::List, mode)));
    println!("Lists of {MOST_LEAVES} leaves, {unit} a leaf\n");
    head(&["Mode", "Proved", "Fast", "Reference", "Proved/fast"]);
    for (mode, costs) in &lists {
        row(&[mode.title], &per_leaf(&costs[0], MOST_LEAVES), &costs[0]);
    }
    println!("\nShort lists, {unit} a call and a leaf\n");
    head(&[
        "Mode",
        "Leaves",
        "Proved, a call",
        "Fast",
        "Reference",
        "Proved, a leaf",
        "Fast",
        "Reference",
        "Proved/fast",
    ]);
    for (mode, costs) in &lists {
        for (leaves, costs) in Function::List.lengths().iter().zip(costs).skip(1) {
            let figures = [costs.clone(), per_leaf(costs, *leaves)].concat();
            row(&[mode.title, &leaves.to_string()], &figures, costs);
        }
    }
    println!("\nPlans of {MOST_LEAVES} leaves, {unit} a leaf\n");
    head(&["Mode", "Proved", "Reference", "Proved/reference"]);
    for mode in MODES.into_iter().filter(|mode| Function::Plan.fits(*mode)) {
        let costs = &costs(Function::Plan, mode)[0];
        row(&[mode.title], &per_leaf(costs, MOST_LEAVES), costs);
    }
}

fn per_leaf(costs: &[f64], leaves: usize) -> Vec<f64> {
    costs.iter().map(|cost| cost / leaves as f64).collect()
}

fn head(columns: &[&str]) {
    println!("| {} |", columns.join(" | "));
    println!("|{}", "---|".repeat(columns.len()));
}

/// A row of names and figures, and the ratio of the first two costs.
fn row(names: &[&str], figures: &[f64], costs: &[f64]) {
    let mut cells: Vec<String> = names.iter().map(|name| name.to_string()).collect();
    cells.extend(figures.iter().map(|figure| cell(*figure)));
    cells.push(format!("{:.2}", costs[0] / costs[1]));
    println!("| {} |", cells.join(" | "));
}

/// A figure to about three digits; there is none of a leaf where there are no leaves.
fn cell(figure: f64) -> String {
    if !figure.is_finite() {
        "".into()
    } else if figure < 10.0 {
        format!("{figure:.2}")
    } else if figure < 100.0 {
        format!("{figure:.1}")
    } else {
        format!("{figure:.0}")
    }
}
