//! A list judge made for speed, to measure the proved list against (request A10).
//!
//! A leaf's rights and causes are one word (`word.rs`). The steps of a judgement are taken from the
//! last to the first, a few at a time: bits of the leaf pick a step in a table (`tables.rs`), and
//! that changes the word. Registers of the setup become rows of bytes once per list (`setup.rs`).
//! A refusal shows in the word; it is looked for after every block of leaves (`pass.rs`), and its
//! number and leaf are then asked of the reference. Nothing allocates and nothing is unsafe.
#![no_std]
#![forbid(unsafe_code)]

mod gather;
mod pass;
mod setup;
mod stage1;
mod tables;
mod word;

use crate::pass::Pass;
use crate::setup::{Setup, OVERLAYS};
use crate::stage1::{Direct, Indirect, Leaf, Off, Stage1};
use reference::control::{INDIRECT, STAGE1, STAGE2};
use reference::{Refusal, CAUSE_BYTES, MOST_LEAVES};

/// Writes one rights byte per leaf to `out` and six cause bytes per leaf to `causes`, and gives the
/// leaf count. A refusal changes no byte of either; bytes past those of the last leaf keep their
/// values.
pub fn list(
    setup: &[u8],
    leaves: &[u8],
    out: &mut [u8],
    causes: &mut [u8],
) -> Result<usize, Refusal> {
    match unrefused(setup, leaves, out, causes) {
        Some(count) => Ok(count),
        None => Err(refusal(setup, leaves, out, causes)),
    }
}

/// The refusal of a list that is refused.
#[cold]
fn refusal(setup: &[u8], leaves: &[u8], out: &mut [u8], causes: &mut [u8]) -> Refusal {
    reference::list(setup, leaves, out, causes).expect_err("the reference refuses the list too")
}

/// The list, or none where it is refused.
fn unrefused(setup: &[u8], leaves: &[u8], out: &mut [u8], causes: &mut [u8]) -> Option<usize> {
    let setup = Setup::accepted(setup)?;
    let (leaves, rest) = leaves.as_chunks();
    let count = leaves.len();
    if !rest.is_empty() || count > MOST_LEAVES {
        return None;
    }
    let out = out.get_mut(..count)?;
    let causes = causes.get_mut(..CAUSE_BYTES * count)?;
    (count == 0 || by_mode(&setup, leaves, out, causes)).then_some(count)
}

/// Chooses the pass of stage 1's mode.
fn by_mode(setup: &Setup, leaves: &[Leaf], out: &mut [u8], causes: &mut [u8]) -> bool {
    if !setup.has(STAGE1) {
        return pass::<Off>(setup, leaves, out, causes);
    }
    match (setup.has(INDIRECT), setup.has(OVERLAYS)) {
        (false, false) => pass::<Direct<false>>(setup, leaves, out, causes),
        (false, true) => pass::<Direct<true>>(setup, leaves, out, causes),
        (true, false) => pass::<Indirect<false>>(setup, leaves, out, causes),
        (true, true) => pass::<Indirect<true>>(setup, leaves, out, causes),
    }
}

#[inline(always)]
fn pass<S: Stage1>(setup: &Setup, leaves: &[Leaf], out: &mut [u8], causes: &mut [u8]) -> bool {
    if setup.has(STAGE2) {
        Pass::<S, true>::new(setup).list(leaves, out, causes)
    } else {
        Pass::<S, false>::new(setup).list(leaves, out, causes)
    }
}
