//! The rights of a list of leaves, one byte each, and their causes, six bytes each.

use crate::cause::CAUSE_BYTES;
use crate::judge::judge_access;
use crate::pass::Pass;
use crate::records::{Leaf, Setup, LEAF_BYTES, MOST_LEAVES};
use crate::rights::Access;
use crate::{Refusal, Stop};

/// Writes one rights byte per leaf to `out` and six cause bytes per leaf to `causes`, and gives the
/// leaf count. Checks 13, 1, 2, 3, 11, then the leaves in order. A refusal changes no byte of
/// either; bytes past those of the last leaf keep their values.
pub fn list(
    setup: &[u8],
    leaves: &[u8],
    out: &mut [u8],
    causes: &mut [u8],
) -> Result<usize, Refusal> {
    let setup = Setup::decode(setup).map_err(Refusal::whole)?;
    setup.check().map_err(Refusal::whole)?;
    let leaves = leaf_records(leaves)?;
    let count = leaves.len();
    let out = out.get_mut(..count).ok_or(Refusal::whole(11))?;
    let causes = causes
        .get_mut(..CAUSE_BYTES * count)
        .ok_or(Refusal::whole(11))?;
    let pass = Pass::new(&setup);
    let mut found_rights = [0; MOST_LEAVES];
    let mut found_causes = [[0; CAUSE_BYTES]; MOST_LEAVES];
    let places = found_rights.iter_mut().zip(&mut found_causes);
    for (index, (bytes, (rights, causes))) in leaves.iter().zip(places).enumerate() {
        let leaf = Leaf::decode(bytes);
        let Some(found) = pass.rights(&leaf) else {
            return Err(Refusal::of_leaf(refusal(&setup, &leaf), index));
        };
        *rights = found.rights;
        *causes = found.causes;
    }
    out.copy_from_slice(&found_rights[..count]);
    causes.copy_from_slice(found_causes[..count].as_flattened());
    Ok(count)
}

/// The leaves of a list, or 11 where its length is wrong.
pub(crate) fn leaf_records(bytes: &[u8]) -> Result<&[[u8; LEAF_BYTES]], Refusal> {
    let (leaves, rest) = bytes.as_chunks();
    if !rest.is_empty() || leaves.len() > MOST_LEAVES {
        return Err(Refusal::whole(11));
    }
    Ok(leaves)
}

/// The number that refuses a leaf: 5, else that of its lowest refused access.
#[cold]
fn refusal(setup: &Setup, leaf: &Leaf) -> u8 {
    if leaf.out_of_range() {
        return 5;
    }
    let number = |access| match judge_access(setup, leaf, access) {
        Err(Stop::Refused(number)) => Some(number),
        _ => None,
    };
    Access::all(setup)
        .find_map(number)
        .expect("a leaf that the pass refuses has a refused access")
}
