//! What a leaf picks by PIIndex and POIndex, for people to read.

use crate::records::{control, Leaf, Setup, LEAF_BYTES};
use crate::rights::{base, code_rights, slot_rights};

/// A base code or an overlay slot.
#[derive(Clone, Copy, Debug, PartialEq, Eq)]
pub struct Pick {
    /// Its number, as the register has it.
    pub number: u8,
    /// What it grants its level.
    pub grant: Grant,
}

/// What a base code or an overlay slot grants its level.
#[derive(Clone, Copy, Debug, PartialEq, Eq)]
pub enum Grant {
    /// Rights: bit 0 R, bit 1 W, bit 2 X.
    Rights(u8),
    /// The number is reserved: 6 where it is reached.
    Reserved,
    /// The code is not judged yet: 7.
    NotJudged,
}

/// The overlay of a level, which is on.
#[derive(Clone, Copy, Debug, PartialEq, Eq)]
pub enum Overlay {
    /// The slot at POIndex.
    Slot(Pick),
    /// Base codes 8 and above have no overlay.
    NotApplied,
}

/// What a leaf picks of the registers. Of the levels the privileged one is first, and a level whose
/// register is not read has nothing.
#[derive(Clone, Copy, Debug, Default, PartialEq, Eq)]
pub struct Picks {
    /// Under Indirect, PIIndex and each level's base code.
    pub codes: Option<(u8, [Option<Pick>; 2])>,
    /// Where an overlay is on, POIndex and each level's overlay.
    pub overlays: Option<(u8, [Option<Overlay>; 2])>,
}

/// What a leaf picks at stage 1, as far as a judgement gets: nothing where stage 1 is off, has a
/// Translation or Access flag fault or is refused before its codes, and no overlay where the codes
/// are refused.
pub fn picks(setup: &[u8], leaf: &[u8]) -> Picks {
    let mut picks = Picks::default();
    let Ok(setup) = Setup::decode(setup) else {
        return picks;
    };
    let Ok(leaf) = <&[u8; LEAF_BYTES]>::try_from(leaf).map(Leaf::decode) else {
        return picks;
    };
    let accepted = setup.check().is_ok() && leaf.check().is_ok();
    if !accepted || !setup.has(control::STAGE1) || !leaf.stage1.usable() {
        return picks;
    }
    let levels = [0, 1];
    if setup.has(control::INDIRECT) && !leaf.stage1.dirty_indirect() {
        let index = leaf.stage1.pi_index();
        let read = |level| level == 0 || setup.has(control::TWO_LEVELS);
        let code = |level: usize| read(level).then(|| base_code(index.code(setup.pir[level])));
        picks.codes = Some((index.place() as u8, levels.map(code)));
    }
    let Ok(base) = base(&setup, &leaf) else {
        return picks;
    };
    if levels.iter().any(|level| setup.overlay(*level)) {
        let index = leaf.stage1.po_index();
        let overlay = |level: usize| match base.overlaid[level] {
            true => Overlay::Slot(overlay_slot(index.slot(setup.por[level]))),
            false => Overlay::NotApplied,
        };
        let overlays = levels.map(|level| setup.overlay(level).then(|| overlay(level)));
        picks.overlays = Some((index.place() as u8, overlays));
    }
    picks
}

fn base_code(number: u8) -> Pick {
    let grant = match code_rights(number) {
        Ok(_) if number == 6 => Grant::NotJudged,
        granted => granted.map_or(Grant::Reserved, Grant::Rights),
    };
    Pick { number, grant }
}

fn overlay_slot(number: u8) -> Pick {
    let grant = slot_rights(number).map_or(Grant::Reserved, Grant::Rights);
    Pick { number, grant }
}
