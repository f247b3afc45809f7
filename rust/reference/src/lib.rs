//! Judge, list and planner written from document 01 and request A1 alone, to compare the proved
//! library with.
//!
//! [`judge`] answers one access and follows 'The order a judgement is made in' step by step.
//! [`list`] and [`plan`] make one pass over the leaves: tables of the setup are worked out once,
//! and all six rights of a leaf with their causes come from one look at it. [`picks`] says which
//! base codes and overlay slots a leaf picks. Nothing allocates and nothing is unsafe.
#![no_std]
#![forbid(unsafe_code)]

#[cfg(test)]
extern crate std;

mod cause;
mod judge;
mod list;
mod memory;
mod pass;
mod picks;
mod planner;
mod records;
mod rights;
#[cfg(test)]
mod tests;

pub use cause::{Cause, CAUSE_BYTES};
pub use judge::{judge, leaf_rights, LeafRights};
pub use list::list;
pub use memory::Memory;
pub use picks::{picks, Grant, Overlay, Pick, Picks};
pub use planner::plan;
pub use records::{control, register, LEAF_BYTES, MOST_LEAVES, SETUP_BYTES};

/// Kind of a fault; the value is its number in the library's packing.
#[derive(Clone, Copy, Debug, PartialEq, Eq)]
pub enum Kind {
    /// The descriptor is not valid.
    Translation = 1,
    /// The Access flag is clear.
    AccessFlag = 2,
    /// The base permission lacks the right.
    Permission = 3,
    /// The base permission has the right and the overlay lacks it.
    Overlay = 4,
}

/// A fault.
#[derive(Clone, Copy, Debug, PartialEq, Eq)]
pub struct Fault {
    /// The stage that faults, 1 or 2.
    pub stage: u8,
    /// Why it faults.
    pub kind: Kind,
    /// What took the right away.
    pub cause: Cause,
}

/// Why an access is not allowed.
#[derive(Clone, Copy, Debug, PartialEq, Eq)]
pub enum Stop {
    /// A fault.
    Fault(Fault),
    /// A refusal, by its number in 'Numbers for no'.
    Refused(u8),
}

impl Stop {
    fn fault(stage: u8, kind: Kind, cause: Cause) -> Self {
        Stop::Fault(Fault { stage, kind, cause })
    }
}

/// A refusal of a list or a plan.
#[derive(Clone, Copy, Debug, PartialEq, Eq)]
pub struct Refusal {
    /// Its number in 'Numbers for no'.
    pub number: u8,
    /// Index of the leaf at fault, 0 if none is.
    pub leaf: u16,
}

impl Refusal {
    /// A refusal with no leaf at fault.
    fn whole(number: u8) -> Self {
        Refusal { number, leaf: 0 }
    }

    /// A refusal of the leaf at `index`, which is below 2,048.
    fn of_leaf(number: u8, index: usize) -> Self {
        Refusal {
            number,
            leaf: index as u16,
        }
    }
}
