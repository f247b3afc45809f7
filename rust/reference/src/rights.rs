//! Permissions of both stages ('Stage 1 rights', 'Stage 2 rights'), with what takes each missing
//! right away. A set of rights is a byte with a bit for each access.

use crate::cause::{first_remover, Cause, Steps, REMOVERS};
use crate::records::{control, Leaf, PIIndex, POIndex, Setup, Stage1Descriptor, Stage2Descriptor};
use crate::{Kind, Stop};

pub(crate) const PR: u8 = 1;
pub(crate) const PW: u8 = 2;
pub(crate) const PX: u8 = 4;
pub(crate) const UR: u8 = 8;
pub(crate) const UW: u8 = 16;
pub(crate) const UX: u8 = 32;
/// All six rights.
pub(crate) const ALL: u8 = 63;
/// The rights of the privileged level; three places up, those of the unprivileged level.
pub(crate) const LEVEL: u8 = 7;

/// An access that the setup has: 0 to 5, or 0 to 2 with one level.
#[derive(Clone, Copy)]
pub(crate) struct Access(u8);

impl Access {
    /// Check 4.
    pub(crate) fn check(setup: &Setup, number: u64) -> Result<Self, Stop> {
        let most = if setup.has(control::TWO_LEVELS) { 5 } else { 2 };
        if number > most {
            return Err(Stop::Refused(4));
        }
        Ok(Access(number as u8))
    }

    /// The accesses that the setup has.
    pub(crate) fn all(setup: &Setup) -> impl Iterator<Item = Access> {
        let levels = if setup.has(control::TWO_LEVELS) { 2 } else { 1 };
        (0..levels).flat_map(Access::of_level)
    }

    /// The three accesses of a level.
    pub(crate) fn of_level(level: usize) -> impl Iterator<Item = Access> {
        let first = 3 * level as u8;
        (first..first + 3).map(Access)
    }

    /// The access's bit in a set of rights.
    pub(crate) fn right(self) -> u8 {
        1 << self.0
    }

    pub(crate) fn is_fetch(self) -> bool {
        self.right() & (PX | UX) != 0
    }

    /// The access's number.
    pub(crate) fn number(self) -> usize {
        usize::from(self.0)
    }

    /// 0 privileged, 1 unprivileged.
    fn level(self) -> usize {
        usize::from(self.0 / 3)
    }
}

/// Both stages of one access, in document 01's order, up to where the attribute steps begin.
pub(crate) fn stages(setup: &Setup, leaf: &Leaf, access: Access) -> Result<(), Stop> {
    if setup.has(control::STAGE1) {
        stage1(setup, leaf, access)?;
    }
    if setup.has(control::STAGE2) {
        stage2(leaf.stage2, access)?;
    }
    Ok(())
}

fn stage1(setup: &Setup, leaf: &Leaf, access: Access) -> Result<(), Stop> {
    let descriptor = leaf.stage1;
    if !descriptor.valid() {
        return Err(Stop::fault(1, Kind::Translation, Cause::Stage1Translation));
    }
    if !descriptor.access_flag() {
        return Err(Stop::fault(1, Kind::AccessFlag, Cause::Stage1AccessFlag));
    }
    let base = base(setup, leaf)?;
    if let Some(cause) = first_remover(&base.steps, access.right()) {
        return Err(Stop::fault(1, Kind::Permission, cause));
    }
    if setup.overlay(access.level()) && base.overlaid[access.level()] {
        overlay(setup, descriptor.po_index(), access)?;
    }
    Ok(())
}

/// What the steps before overlays leave, and at which levels an overlay applies.
pub(crate) struct Base {
    pub(crate) steps: Steps,
    pub(crate) overlaid: [bool; 2],
}

impl Base {
    /// The rights before overlays: what the last step leaves.
    pub(crate) fn rights(&self) -> u8 {
        last(&self.steps)
    }
}

/// What the last step leaves.
pub(crate) const fn last(steps: &Steps) -> u8 {
    steps[steps.len() - 1]
}

/// 7 for dirty state, then the base rights; under Indirect with 6 and 7 for the codes.
pub(crate) fn base(setup: &Setup, leaf: &Leaf) -> Result<Base, Stop> {
    let descriptor = leaf.stage1;
    if setup.has(control::INDIRECT) {
        if descriptor.dirty_indirect() {
            return Err(Stop::Refused(7));
        }
        return indirect(setup, descriptor.pi_index()).map_err(Stop::Refused);
    }
    if descriptor.dirty_direct() {
        return Err(Stop::Refused(7));
    }
    let limits = applied_limits(setup, leaf);
    Ok(Base {
        steps: direct(Mode::of(setup), descriptor_bits(descriptor), limits),
        overlaid: [true; 2],
    })
}

/// The limits that count: none where they are disabled.
fn applied_limits(setup: &Setup, leaf: &Leaf) -> u8 {
    if setup.has(control::LIMITS_DISABLED) {
        0
    } else {
        leaf.limits
    }
}

/// AP[2:1] in bits 1:0, PXN in bit 2, UXN or XN in bit 3.
pub(crate) fn descriptor_bits(descriptor: Stage1Descriptor) -> u8 {
    descriptor.execute_never() << 2 | descriptor.ap()
}

/// What Direct reads of a setup beside the limits: two levels in bit 0, WXN in bit 1, PAN in bit 2.
#[derive(Clone, Copy)]
pub(crate) struct Mode(pub(crate) u8);

impl Mode {
    const fn two_levels(self) -> bool {
        self.0 & 1 != 0
    }

    const fn wxn(self) -> bool {
        self.0 & 2 != 0
    }

    const fn pan(self) -> bool {
        self.0 & 4 != 0
    }

    pub(crate) fn of(setup: &Setup) -> Self {
        let flag = |mask, place: u8| u8::from(setup.has(mask)) << place;
        Mode(flag(control::TWO_LEVELS, 0) | flag(control::WXN, 1) | flag(control::PAN, 2))
    }
}

/// Direct, step by step. `descriptor` is as [`descriptor_bits`] gives it and `limits` has four bits,
/// which are 0 where limits are disabled.
pub(crate) const fn direct(mode: Mode, descriptor: u8, limits: u8) -> Steps {
    let ap = ap_rights(mode, descriptor & 3);
    let ap_table = ap & !ap_table_removes(mode, limits & 3);
    let execute_never = ap_table & !never_executed(mode, descriptor >> 2);
    let execute_never_table = execute_never & !never_executed(mode, limits >> 2);
    let mut rights = execute_never_table;
    if rights & UW != 0 {
        rights &= !PX;
    }
    let unprivileged_write = rights;
    if mode.wxn() {
        // The execute bits stand one place above the write bits.
        rights &= !((rights & (PW | UW)) << 1);
    }
    let wxn = rights;
    if mode.pan() && rights & (UR | UW) != 0 {
        rights &= !(PR | PW);
    }
    let pan = rights;
    [
        ap,
        ap_table,
        execute_never,
        execute_never_table,
        unprivileged_write,
        wxn,
        pan,
    ]
}

/// What AP[2:1] leaves: it says nothing of execution. With one level AP[1] is ignored.
const fn ap_rights(mode: Mode, ap: u8) -> u8 {
    if !mode.two_levels() {
        return if ap & 2 == 0 { PR | PW | PX } else { PR | PX };
    }
    let granted = match ap {
        0 => PR | PW,
        1 => PR | PW | UR | UW,
        2 => PR,
        _ => PR | UR,
    };
    granted | PX | UX
}

/// What APTable takes. With one level APTable[0] is ignored.
const fn ap_table_removes(mode: Mode, ap_table: u8) -> u8 {
    if !mode.two_levels() {
        return if ap_table & 2 != 0 { PW } else { 0 };
    }
    match ap_table {
        0 => 0,
        1 => UR | UW,
        2 => PW | UW,
        _ => PW | UR | UW,
    }
}

/// What PXN (bit 0) and UXN (bit 1) take, of a descriptor or of its tables. With one level bit 0 is
/// ignored and bit 1 is XN.
const fn never_executed(mode: Mode, bits: u8) -> u8 {
    let (pxn, uxn) = (bits & 1 != 0, bits & 2 != 0);
    if !mode.two_levels() {
        return if uxn { PX } else { 0 };
    }
    let privileged = if pxn { PX } else { 0 };
    let unprivileged = if uxn { UX } else { 0 };
    privileged | unprivileged
}

/// The rights of a base code, as those of the privileged level, or 6 where it is reserved. Code 6
/// has none here: see [`indirect`].
pub(crate) fn code_rights(code: u8) -> Result<u8, u8> {
    match code {
        0 | 6 => Ok(0),
        1 | 8 | 9 => Ok(PR),
        2 => Ok(PX),
        3 | 10 => Ok(PR | PX),
        5 | 12 => Ok(PR | PW),
        7 | 14 => Ok(PR | PW | PX),
        _ => Err(6),
    }
}

/// Base rights under Indirect: 6 where a code is reserved, then 7 for code 6 and for px together
/// with uw. The codes are the only step: nothing else takes a base right away.
pub(crate) fn indirect(setup: &Setup, index: PIIndex) -> Result<Base, u8> {
    let privileged = index.code(setup.pir[0]);
    // With one level PIR unprivileged is not read; code 0 grants nothing.
    let unprivileged = if setup.has(control::TWO_LEVELS) {
        index.code(setup.pir[1])
    } else {
        0
    };
    let rights = code_rights(privileged)? | code_rights(unprivileged)? << 3;
    if privileged == 6 || unprivileged == 6 || rights & (PX | UW) == PX | UW {
        return Err(7);
    }
    Ok(Base {
        steps: [rights; REMOVERS.len()],
        overlaid: [privileged < 8, unprivileged < 8],
    })
}

/// 6 for a reserved slot, then the Overlay fault.
fn overlay(setup: &Setup, index: POIndex, access: Access) -> Result<(), Stop> {
    let level = access.level();
    let granted = slot_rights(index.slot(setup.por[level])).map_err(Stop::Refused)?;
    if granted << (3 * level) & access.right() == 0 {
        return Err(Stop::fault(1, Kind::Overlay, Cause::Overlay));
    }
    Ok(())
}

/// The rights of an overlay slot, as those of the privileged level: bit 0 R, bit 1 X, bit 2 W.
pub(crate) fn slot_rights(slot: u8) -> Result<u8, u8> {
    if slot > 7 {
        return Err(6);
    }
    let read = slot & 1;
    let execute = slot >> 1 & 1;
    let write = slot >> 2 & 1;
    Ok(read | write << 1 | execute << 2)
}

fn stage2(descriptor: Stage2Descriptor, access: Access) -> Result<(), Stop> {
    if !descriptor.valid() {
        return Err(Stop::fault(2, Kind::Translation, Cause::Stage2Translation));
    }
    if !descriptor.access_flag() {
        return Err(Stop::fault(2, Kind::AccessFlag, Cause::Stage2AccessFlag));
    }
    if descriptor.dirty() {
        return Err(Stop::Refused(7));
    }
    if stage2_rights(descriptor.s2ap(), descriptor.xn()) & access.right() == 0 {
        return Err(Stop::fault(2, Kind::Permission, stage2_cause(access)));
    }
    Ok(())
}

/// What takes a right away at stage 2: XN executions, S2AP reads and writes.
fn stage2_cause(access: Access) -> Cause {
    if access.is_fetch() {
        Cause::Stage2Xn
    } else {
        Cause::S2ap
    }
}

/// Rights of S2AP and XN.
pub(crate) const fn stage2_rights(s2ap: u8, xn: u8) -> u8 {
    let read = if s2ap & 1 != 0 { PR | UR } else { 0 };
    let write = if s2ap & 2 != 0 { PW | UW } else { 0 };
    let execute = match xn {
        0 => PX | UX,
        1 => UX,
        2 => 0,
        _ => PX,
    };
    read | write | execute
}
