//! One access, in document 01's order; and a leaf's rights and causes read off its accesses.

use crate::cause::CAUSE_BYTES;
use crate::memory::{memory, Memory};
use crate::records::{Leaf, Setup, LEAF_BYTES};
use crate::rights::{stages, Access};
use crate::Stop;

/// Answers one access: 13, 1, 2, 3, 4, 5, the stages, then 8, 8, 9 and the memory. The first that
/// applies is the answer.
pub fn judge(setup: &[u8], leaf: &[u8], access: u64) -> Result<Memory, Stop> {
    let decoded = Setup::decode(setup).map_err(Stop::Refused)?;
    let leaf: &[u8; LEAF_BYTES] = leaf.try_into().map_err(|_| Stop::Refused(13))?;
    decoded.check().map_err(Stop::Refused)?;
    let access = Access::check(&decoded, access)?;
    let leaf = Leaf::decode(leaf);
    leaf.check()?;
    judge_access(&decoded, &leaf, access)
}

/// The part of a judgement after 1 to 5.
pub(crate) fn judge_access(setup: &Setup, leaf: &Leaf, access: Access) -> Result<Memory, Stop> {
    stages(setup, leaf, access)?;
    memory(setup, leaf, access)
}

/// A leaf's rights, and the causes of those that are missing.
#[derive(Clone, Copy, Debug, Default, PartialEq, Eq)]
pub struct LeafRights {
    /// The six accesses as bits.
    pub rights: u8,
    /// By access number: 0 where the access is allowed or not judged, else the number of the cause.
    pub causes: [u8; CAUSE_BYTES],
}

/// A leaf's rights and causes by their definition: six judgements, three with one level; the lowest
/// refused access refuses the leaf. Records of the wrong length give 13.
pub fn leaf_rights(setup: &[u8], leaf: &[u8]) -> Result<LeafRights, u8> {
    let decoded = Setup::decode(setup)?;
    let mut found = LeafRights::default();
    for access in Access::all(&decoded) {
        let number = access.number();
        match judge(setup, leaf, number as u64) {
            Ok(_) => found.rights |= access.right(),
            Err(Stop::Fault(fault)) => found.causes[number] = fault.cause as u8,
            Err(Stop::Refused(number)) => return Err(number),
        }
    }
    Ok(found)
}
