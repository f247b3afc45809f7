//! The overlay planner ('The planner').

use crate::list::leaf_records;
use crate::pass::Pass;
use crate::records::{control, Leaf, Setup};
use crate::rights::{stages, Access, LEVEL};
use crate::{Refusal, Stop};

/// The usable register that grants the most.
const MOST: u64 = 0x7777_7777;

/// Slot bits (bit 0 R, bit 1 X, bit 2 W) of a set of rights of one level (bit 0 read, bit 1 write,
/// bit 2 execute).
static SLOT_BITS: [u8; 8] = [0, 1, 4, 5, 2, 3, 6, 7];

/// Plans the POR of a level (0 privileged, 1 unprivileged). Checks 13, 1, 2, 3, 4, 12, 11; then
/// each leaf for 5, 6 and 7; then 10.
pub fn plan(setup: &[u8], level: u64, leaves: &[u8]) -> Result<u64, Refusal> {
    let mut setup = Setup::decode(setup).map_err(Refusal::whole)?;
    setup.check().map_err(Refusal::whole)?;
    if level > 1 {
        return Err(Refusal::whole(4));
    }
    let level = level as usize;
    if !setup.has(control::STAGE1) || !setup.overlay(level) {
        return Err(Refusal::whole(12));
    }
    let leaves = leaf_records(leaves)?;
    setup.por[level] = MOST;
    let pass = Pass::new(&setup);
    let mut register = MOST as u32;
    let mut uncured = None;
    for (index, bytes) in leaves.iter().enumerate() {
        let leaf = Leaf::decode(bytes);
        let Some(open) = open(&pass, &leaf, level) else {
            return Err(Refusal::of_leaf(refusal(&setup, &leaf, level), index));
        };
        register &= !(open.cut << (4 * leaf.stage1.po_index().place()));
        if open.uncured & uncured.is_none() {
            uncured = Some(index);
        }
    }
    match uncured {
        Some(index) => Err(Refusal::of_leaf(10, index)),
        None => Ok(u64::from(register)),
    }
}

/// Forbidden accesses of one leaf that are allowed with slot value 7.
struct Open {
    /// The slot bits to take away.
    cut: u32,
    /// Whether no slot value stops them, since no overlay applies.
    uncured: bool,
}

/// What is open at a leaf, or none where 5, 6 or 7 refuses it.
#[inline(always)]
fn open(pass: &Pass, leaf: &Leaf, level: usize) -> Option<Open> {
    let first = pass.stage1(leaf);
    let mine = LEVEL << (3 * level);
    let (rights, dirty) = pass.stage2(leaf.stage2, first.rights & mine);
    if leaf.out_of_range() | first.refused | dirty {
        return None;
    }
    let open = (rights & leaf.forbidden) >> (3 * level) & LEVEL;
    let overlaid = first.overlaid & mine != 0;
    Some(Open {
        cut: u32::from(SLOT_BITS[usize::from(open)]),
        uncured: (open != 0) & !overlaid,
    })
}

/// The number that refuses a leaf for a level whose POR has been replaced: 5, else that of its
/// lowest refused access.
#[cold]
fn refusal(setup: &Setup, leaf: &Leaf, level: usize) -> u8 {
    if leaf.out_of_range() {
        return 5;
    }
    let number = |access| match stages(setup, leaf, access) {
        Err(Stop::Refused(number)) => Some(number),
        _ => None,
    };
    Access::of_level(level)
        .find_map(number)
        .expect("a leaf that the pass refuses has a refused access")
}
