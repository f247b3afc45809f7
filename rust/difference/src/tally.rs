//! Counts of the classes of answers met.

use std::collections::BTreeMap;
use std::fmt::{Debug, Write};

/// How often each class was met. A class is shown by its `Debug` form.
pub struct Tally<C> {
    title: &'static str,
    counts: BTreeMap<C, u64>,
}

impl<C: Ord + Debug> Tally<C> {
    /// A tally in which each class of `required` must be met.
    pub fn new(title: &'static str, required: impl IntoIterator<Item = C>) -> Self {
        let counts = required.into_iter().map(|class| (class, 0)).collect();
        Tally { title, counts }
    }

    /// Counts one answer.
    pub fn count(&mut self, class: C) {
        *self.counts.entry(class).or_default() += 1;
    }

    /// Prints the counts and fails if a required class was never met.
    pub fn finish(&self, summary: &str) {
        let mut text = format!("{}: {summary}\n", self.title);
        let least = self.counts.iter().min_by_key(|(_, count)| **count);
        if let Some((class, count)) = least {
            let classes = self.counts.len();
            writeln!(
                text,
                "  {classes} classes, the rarest {class:?} met {count} times"
            )
            .expect("a string takes any text");
        }
        for (class, count) in &self.counts {
            writeln!(text, "  {:<64} {count:>9}", format!("{class:?}"))
                .expect("a string takes any text");
        }
        print!("{text}");
        let never = |(class, count): (&C, &u64)| (*count == 0).then(|| format!("{class:?}"));
        let missed: Vec<String> = self.counts.iter().filter_map(never).collect();
        assert!(missed.is_empty(), "{}: never met: {missed:?}", self.title);
    }
}
