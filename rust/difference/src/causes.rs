//! Which causes an access can have, and a count of those that were met.

use crate::generate::setup_of;
use reference::{control::*, list};
use std::fmt::Write;

const PR: u8 = 1;
const PW: u8 = 2;
const PX: u8 = 4;
const UR: u8 = 8;
const UW: u8 = 16;
const UX: u8 = 32;
const PRIVILEGED: u8 = PR | PW | PX;
const UNPRIVILEGED: u8 = UR | UW | UX;

/// Numbers of causes, 0 included.
pub const CAUSES: u8 = 15;

/// The accesses that can have a cause under a control word which 1, 2 and 3 do not refuse, as bits.
///
/// From document 01 and request A1; with one level, the privileged ones of these:
///
/// | Cause | Accesses | Where | Why |
/// |---|---|---|---|
/// | 0 | all | | each has a form that allows it |
/// | 1 | pw ur uw | Direct | every AP grants pr, and AP says nothing of execution |
/// | 1 | all | Indirect | code 0 grants nothing |
/// | 2 | pw ur uw | Direct, limits not disabled | no APTable takes pr or an execution |
/// | 3 | px ux | Direct | PXN and UXN take executions alone |
/// | 4 | px ux | Direct, limits not disabled | PXNTable and UXNTable take executions alone |
/// | 5 | px | Direct, two levels | one level has no uw |
/// | 6 | px ux | Direct, WXN | WXN takes executions alone |
/// | 7 | pr pw | Direct, PAN, which needs two levels | PAN takes pr and pw alone |
/// | 8 | those of a level | stage 1, the level's overlay on | slot 0 grants nothing |
/// | 9 | pr pw ur uw | stage 2, which needs two levels | S2AP grants reads and writes |
/// | 10 | px ux | stage 2 | XN grants executions |
/// | 11, 12 | all | stage 1 | every judged access reaches stage 1's descriptor |
/// | 13, 14 | all | stage 2 | stage 1 can permit each access |
///
/// Limits, AP, PXN and UXN play no part under Indirect, and WXN and PAN are refused there (3). Stage
/// 1 off takes nothing.
pub fn can_have(control: u32, cause: u8) -> u8 {
    let has = |bit| control & bit != 0;
    let where_true = |condition, accesses| if condition { accesses } else { 0 };
    let stage1 = has(STAGE1);
    let direct = stage1 && !has(INDIRECT);
    let limited = direct && !has(LIMITS_DISABLED);
    let stage2 = has(STAGE2);
    let levels = PRIVILEGED | where_true(has(TWO_LEVELS), UNPRIVILEGED);
    let all = PRIVILEGED | UNPRIVILEGED;
    let executions = PX | UX;
    let accesses = match cause {
        0 => all,
        1 if direct => PW | UR | UW,
        1 => where_true(stage1, all),
        2 => where_true(limited, PW | UR | UW),
        3 => where_true(direct, executions),
        4 => where_true(limited, executions),
        5 => where_true(direct && has(TWO_LEVELS), PX),
        6 => where_true(direct && has(WXN), executions),
        7 => where_true(direct && has(PAN), PR | PW),
        8 => {
            where_true(stage1 && has(PRIVILEGED_OVERLAY), PRIVILEGED)
                | where_true(stage1 && has(UNPRIVILEGED_OVERLAY), UNPRIVILEGED)
        }
        9 => where_true(stage2, all & !executions),
        10 => where_true(stage2, executions),
        11 | 12 => where_true(stage1, all),
        13 | 14 => where_true(stage2, all),
        _ => 0,
    };
    accesses & levels
}

/// Kinds of setups in which each cause must be met at each access that can have it.
const GROUNDS: [&str; 6] = [
    "one level, stage 1 off",
    "one level, Direct",
    "one level, Indirect",
    "two levels, stage 1 off",
    "two levels, Direct",
    "two levels, Indirect",
];

fn ground(control: u32) -> usize {
    let stage1 = match (control & STAGE1 != 0, control & INDIRECT != 0) {
        (false, _) => 0,
        (true, false) => 1,
        (true, true) => 2,
    };
    if control & TWO_LEVELS != 0 {
        3 + stage1
    } else {
        stage1
    }
}

/// How often each cause was met at each access.
pub struct Met {
    title: &'static str,
    /// By ground, cause and access.
    counts: Vec<[[u64; 6]; CAUSES as usize]>,
}

impl Met {
    /// Nothing met so far.
    pub fn new(title: &'static str) -> Self {
        Met {
            title,
            counts: vec![[[0; 6]; CAUSES as usize]; GROUNDS.len()],
        }
    }

    /// Counts the cause of one access that was not refused, and fails if the access can't have it.
    pub fn count(&mut self, control: u32, access: usize, cause: u8) {
        assert!(
            can_have(control, cause) >> access & 1 == 1,
            "access {access} has cause {cause} under control {control:#x}"
        );
        self.counts[ground(control)][usize::from(cause)][access] += 1;
    }

    /// Counts the causes of a leaf that was not refused.
    pub fn count_leaf(&mut self, control: u32, causes: &[u8; 6]) {
        let judged = if control & TWO_LEVELS != 0 { 6 } else { 3 };
        let (judged, others) = causes.split_at(judged);
        for (access, cause) in judged.iter().enumerate() {
            self.count(control, access, *cause);
        }
        assert!(others.iter().all(|&cause| cause == 0), "{causes:?}");
    }

    /// Prints the counts and fails if a cause was never met at an access that can have it.
    pub fn finish(&self) {
        let required = required();
        let mut text = format!("{}: accesses 0 to 5 by cause\n", self.title);
        let mut missed = Vec::new();
        for (place, name) in GROUNDS.iter().enumerate() {
            writeln!(text, "  {name}").expect("a string takes any text");
            for (cause, counts) in self.counts[place].iter().enumerate() {
                let accesses = required[place][cause];
                if accesses == 0 {
                    continue;
                }
                let counts: Vec<String> = counts.map(|count| format!("{count:>9}")).into();
                writeln!(text, "  {cause:>4} {}", counts.join(""))
                    .expect("a string takes any text");
                let never = |access: &usize| {
                    accesses >> access & 1 == 1 && self.counts[place][cause][*access] == 0
                };
                missed.extend((0..6).filter(never).map(|access| (name, cause, access)));
            }
        }
        print!("{text}");
        let title = self.title;
        assert!(
            missed.is_empty(),
            "{title}: setup, cause and access never met: {missed:?}"
        );
    }
}

/// The accesses that can have each cause in some accepted setup of each ground.
fn required() -> Vec<[u8; CAUSES as usize]> {
    let mut required = vec![[0; CAUSES as usize]; GROUNDS.len()];
    for control in (0..=KNOWN).filter(|control| accepted(*control)) {
        for cause in 0..CAUSES {
            required[ground(control)][usize::from(cause)] |= can_have(control, cause);
        }
    }
    required
}

/// Whether 1, 2 and 3 do not refuse a control word.
pub fn accepted(control: u32) -> bool {
    list(&setup_of(control), &[], &mut [], &mut []).is_ok()
}
