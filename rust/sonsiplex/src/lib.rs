//! Safe wrapper of the map judge, list and planner for the loader.
//!
//! The judge reads a setup, a leaf and an access, and says whether the access is allowed, and with
//! which memory type and shareability, or which fault it takes and what took the right away. The
//! list gives the rights of many leaves, and the cause of each that is missing. The planner gives
//! the overlay register of a level that stops every forbidden access and no more. All three are
//! static functions without state: they allocate nothing, and a refused call changes no byte of a
//! lent buffer.
//!
//! Proved is the contract of the three exported functions: how they pack their answers, and that
//! these meet what document 01 demands. The C boundary and this crate, with its unpacking, are not
//! proved but tested. A word outside the packing is no answer of the library: it panics.
//!
//! # The loader's duties
//!
//! The answers hold for what is handed over. What the judge can't see is the loader's:
//!
//! - The table walk and the addresses. The judge sees leaf descriptors alone: it does not know
//!   which page a leaf maps, nor that two leaves map the same one.
//! - The gathering of limits. APTable, PXNTable and UXNTable of every table on the way go into
//!   the leaf's limits byte.
//! - Control bit 8, 'table limits disabled'. It is the only thing that disables the limits here.
//!   Where the Arm rules disable hierarchical permissions (an overlay in use, or AIE), the loader
//!   sets the bit.
//! - The control word. It describes the release: levels, stages, Indirect, overlays, WXN, PAN,
//!   FWB, DC, instruction cacheability, AIE. Secure state, hardware Access flag and dirty
//!   updates, GCS, tagging, XS and the 128-bit format are not covered.
//! - The registers. The judge takes their values from the setup and reads no system register.
//! - What a refusal means for a boot. A refusal is no permission: a loader that can't have a page
//!   judged does not map it.
//!
//! # Records
//!
//! A setup is 52 bytes: control word, MAIR, MAIR2, PIR privileged, PIR unprivileged, POR
//! privileged, POR unprivileged. A leaf is 18 bytes: stage 1 descriptor, stage 2 descriptor,
//! limits, forbidden. Numbers are little-endian. Another length is [`Number::IllFormed`].
//!
//! # Example
//!
//! Two pages under Indirect with an unprivileged overlay. Unprivileged writes are forbidden on
//! both; the second grants none.
//!
//! ```
//! use sonsiplex::{judge, list, plan, Access, Cause, Judgement, Level, Number, Shareability};
//!
//! let mut setup = [0; sonsiplex::SETUP_BYTES];
//! setup[0] = 0x2B; // two levels, stage 1, Indirect, unprivileged overlay
//! setup[20] = 0x11; // PIR privileged
//! setup[28] = 0x58; // PIR unprivileged
//! setup[44] = 0x07; // POR unprivileged
//!
//! let mut leaves = [[0; sonsiplex::LEAF_BYTES]; 2];
//! for (leaf, stage1) in leaves.iter_mut().zip([0x747_u64, 0x707]) {
//!     leaf[..8].copy_from_slice(&stage1.to_le_bytes());
//!     leaf[17] = 1 << Access::UnprivilegedWrite as u8;
//! }
//!
//! let (mut out, mut causes) = ([0; 2], [0; 2 * sonsiplex::CAUSE_BYTES]);
//! let listed = list(&setup, leaves.as_flattened(), &mut out, &mut causes)?;
//! assert_eq!(listed.rights(), [25, 9]);
//! for (index, leaf) in listed.iter().enumerate() {
//!     for access in Access::ALL {
//!         if let Some(cause) = leaf.cause(access) {
//!             println!("leaf {index}: no {access}, by {cause}");
//!             assert_eq!(cause, Cause::ApOrBaseCode);
//!         }
//!     }
//! }
//!
//! let register = plan(&setup, Level::Unprivileged, leaves.as_flattened());
//! assert_eq!(register, Ok(0x7777_7773));
//!
//! let refusal = plan(&setup, Level::Privileged, leaves.as_flattened()).unwrap_err();
//! assert_eq!(refusal.number, Number::OverlayOff);
//!
//! match judge(&setup, &leaves[0], Access::UnprivilegedWrite)? {
//!     Judgement::Allowed(memory) => {
//!         assert_eq!((memory.byte, memory.shareability), (0x00, Shareability::Outer));
//!     }
//!     Judgement::Fault(fault) => panic!("{fault}"),
//! }
//! # Ok::<(), sonsiplex::Refusal>(())
//! ```
#![no_std]

mod answer;
mod listed;
pub mod packed;

pub use answer::{Cause, Fault, Judgement, Kind, Memory, Number, Refusal, Shareability, Stage};
pub use listed::{Listed, ListedLeaf};

use core::fmt;

/// Length of a setup.
pub const SETUP_BYTES: usize = 52;
/// Length of a leaf.
pub const LEAF_BYTES: usize = 18;
/// Most leaves that a list has.
pub const MOST_LEAVES: usize = 2048;
/// Length of a leaf's causes in a list: a byte for each access, by its number.
pub const CAUSE_BYTES: usize = 6;

/// An access. Its value is its number, and its place in a rights or forbidden byte.
#[derive(Clone, Copy, Debug, PartialEq, Eq, Hash)]
#[repr(u8)]
pub enum Access {
    /// pr
    PrivilegedRead = 0,
    /// pw
    PrivilegedWrite = 1,
    /// px
    PrivilegedExecute = 2,
    /// ur
    UnprivilegedRead = 3,
    /// uw
    UnprivilegedWrite = 4,
    /// ux
    UnprivilegedExecute = 5,
}

impl Access {
    /// Every access, by number.
    pub const ALL: [Access; 6] = [
        Access::PrivilegedRead,
        Access::PrivilegedWrite,
        Access::PrivilegedExecute,
        Access::UnprivilegedRead,
        Access::UnprivilegedWrite,
        Access::UnprivilegedExecute,
    ];
}

impl fmt::Display for Access {
    /// The words of document 01.
    fn fmt(&self, f: &mut fmt::Formatter<'_>) -> fmt::Result {
        f.pad(match self {
            Access::PrivilegedRead => "privileged read",
            Access::PrivilegedWrite => "privileged write",
            Access::PrivilegedExecute => "privileged execute",
            Access::UnprivilegedRead => "unprivileged read",
            Access::UnprivilegedWrite => "unprivileged write",
            Access::UnprivilegedExecute => "unprivileged execute",
        })
    }
}

/// A privilege level. Its value is its number.
#[derive(Clone, Copy, Debug, PartialEq, Eq, Hash)]
#[repr(u8)]
pub enum Level {
    /// Level 0.
    Privileged = 0,
    /// Level 1.
    Unprivileged = 1,
}

/// Judges one access to a leaf.
pub fn judge(setup: &[u8], leaf: &[u8], access: Access) -> Result<Judgement, Refusal> {
    judge_number(setup, leaf, access as u64)
}

/// Judges one access by its number; a number that the setup does not have is refused.
pub fn judge_number(setup: &[u8], leaf: &[u8], access: u64) -> Result<Judgement, Refusal> {
    packed::unpack_judge(packed::judge(setup, leaf, access))
}

/// Writes the rights byte of each leaf to the start of `out` and the six cause bytes of each to the
/// start of `causes`: byte `6 * i + a` is the number of the cause of access `a` to leaf `i`, 0 where
/// there is none. Gives both as typed answers. `out` needs a byte and `causes` [`CAUSE_BYTES`] for
/// each leaf. Later bytes of both keep their values, and all of them do in a refusal.
pub fn list<'a>(
    setup: &[u8],
    leaves: &[u8],
    out: &'a mut [u8],
    causes: &'a mut [u8],
) -> Result<Listed<'a>, Refusal> {
    let word = packed::list(setup, leaves, out, causes);
    packed::unpack_list(word, out, causes)
}

/// Plans the overlay register of a level: the usable register that stops every forbidden access
/// of that level and has every slot bit that such a register can have.
pub fn plan(setup: &[u8], level: Level, leaves: &[u8]) -> Result<u64, Refusal> {
    plan_number(setup, level as u64, leaves)
}

/// Plans the overlay register of a level by its number; a number above 1 is refused.
pub fn plan_number(setup: &[u8], level: u64, leaves: &[u8]) -> Result<u64, Refusal> {
    packed::unpack_plan(packed::plan(setup, level, leaves))
}
