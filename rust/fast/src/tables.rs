//! Tables of steps. No register of a setup changes them.
//!
//! Masks and factors stand in the tables so that they are read from memory: as constants they
//! would be put into a register again for each leaf.

use crate::gather::{form, Gather, FORMS, MEMORY, PERMISSIONS};
use crate::word::*;

/// Causes, by request A1.
mod cause {
    pub(crate) const BASE: u8 = 1;
    pub(crate) const AP_TABLE: u8 = 2;
    pub(crate) const EXECUTE_NEVER: u8 = 3;
    pub(crate) const EXECUTE_NEVER_TABLE: u8 = 4;
    pub(crate) const UNPRIVILEGED_WRITE: u8 = 5;
    pub(crate) const WXN: u8 = 6;
    pub(crate) const PAN: u8 = 7;
    pub(crate) const OVERLAY: u8 = 8;
    pub(crate) const S2AP: u8 = 9;
    pub(crate) const STAGE2_XN: u8 = 10;
    /// Translation fault and Access flag fault of each stage.
    pub(crate) const FAULTS1: [u8; 2] = [11, 12];
    pub(crate) const FAULTS2: [u8; 2] = [13, 14];
}

/// A table that has `$step` at each `$place`.
macro_rules! steps {
    ($size:expr, $place:ident => $step:expr) => {{
        let mut steps = Steps::<{ $size }>::NONE;
        let mut $place = 0;
        while $place < $size {
            steps.put($place, $step);
            $place += 1;
        }
        steps
    }};
}

/// What all modes read.
pub(crate) struct Shared {
    /// Where stage 1's permissions stand in a descriptor, and stage 2's.
    pub(crate) permissions: [Gather<7>; 2],
    /// Where stage 1's memory stands.
    pub(crate) memory1: Gather<6>,
    /// Stage 2 at its permissions.
    pub(crate) stage2: Steps<FORMS>,
    /// The attribute steps at [`STAGE2_MEMORY`], with bit 0 set where stage 1's memory is refused.
    pub(crate) memory: [Word; 1024],
    /// The overlays at a pair of slots: see [`slots`].
    pub(crate) slots: Steps<256>,
    /// At a pair of base codes, 15 in the half of each level at which an overlay applies.
    pub(crate) overlaid: [u8; 256],
}

/// With FWB clear and set.
pub(crate) static SHARED: [Shared; 2] = [shared(false), shared(true)];

const fn shared(fwb: bool) -> Shared {
    Shared {
        permissions: [PERMISSIONS, PERMISSIONS],
        memory1: MEMORY,
        stage2: steps!(FORMS, place => stage2(form(place))),
        memory: memory(fwb),
        slots: steps!(256, place => slots(place)),
        overlaid: overlaid(),
    }
}

/// Stage 1 under Direct.
pub(crate) struct Direct {
    /// Its faults, dirty state, AP, PXN and UXN, at its permissions.
    pub(crate) descriptor: Steps<FORMS>,
    /// What follows these but for overlays, at AP[2:1] in bits 7:6 and limits.
    pub(crate) limits: Steps<256>,
}

/// By [`Mode`].
pub(crate) static DIRECT: [Direct; 16] = {
    const NONE: Direct = Direct {
        descriptor: Steps::NONE,
        limits: Steps::NONE,
    };
    let mut tables = [NONE; 16];
    let mut mode = 0;
    while mode < 16 {
        let here = Mode(mode);
        tables[mode] = Direct {
            descriptor: steps!(FORMS, place => direct(here, form(place))),
            limits: steps!(256, place => limits(here, (place >> 6) as u8, place as u8 & 15)),
        };
        mode += 1;
    }
    tables
};

/// Stage 1 under Indirect at a pair of base codes or a mark, with one level and with two.
pub(crate) static INDIRECT: [Steps<256>; 2] = [
    steps!(256, place => indirect(Mode(0), place as u8)),
    steps!(256, place => indirect(Mode(1), place as u8)),
];

/// What stage 1 reads of the control word: two levels in bit 0, WXN in bit 1, PAN in bit 2, limits
/// disabled in bit 3.
#[derive(Clone, Copy)]
pub(crate) struct Mode(pub(crate) usize);

impl Mode {
    const fn has(self, bit: u32) -> bool {
        self.0 >> bit & 1 == 1
    }

    const fn two_levels(self) -> bool {
        self.has(0)
    }

    /// The accesses that are judged.
    const fn levels(self) -> Accesses {
        if self.two_levels() {
            ALL
        } else {
            PRIVILEGED
        }
    }
}

const fn bit(descriptor: u64, place: u32) -> bool {
    descriptor >> place & 1 == 1
}

/// Translation fault, Access flag fault, dirty state.
const fn faults(descriptor: u64, causes: [u8; 2], dirty: bool) -> Step {
    let translation = Step::remove(ALL, causes[0]).when(!bit(descriptor, 0));
    let access_flag = Step::remove(ALL, causes[1]).when(!bit(descriptor, 10));
    translation
        .then(access_flag)
        .then(Step::refuse(ALL).when(dirty))
}

const fn direct(mode: Mode, descriptor: u64) -> Step {
    let lacking = ALL & !ap_grants(mode, (descriptor >> 6) as u8 & 3);
    let never = never_executed(mode, (descriptor >> 53) as u8 & 3);
    faults(descriptor, cause::FAULTS1, bit(descriptor, 51))
        .then(Step::remove(lacking, cause::BASE))
        .then(Step::remove(never, cause::EXECUTE_NEVER))
        .only(mode.levels())
}

/// What AP[2:1] grants; it says nothing of execution.
const fn ap_grants(mode: Mode, ap: u8) -> Accesses {
    let data = match (mode.two_levels(), ap) {
        (true, 0) | (false, 0 | 1) => PR | PW,
        (true, 1) => PR | PW | UR | UW,
        (true, 2) | (false, _) => PR,
        (true, _) => PR | UR,
    };
    data | PX | UX
}

/// What PXN in bit 0 and UXN or XN in bit 1 take, of a descriptor or of its tables.
const fn never_executed(mode: Mode, bits: u8) -> Accesses {
    match (mode.two_levels(), bits) {
        (true, 1) | (false, 2 | 3) => PX,
        (true, 2) => UX,
        (true, 3) => PX | UX,
        _ => 0,
    }
}

/// APTable, PXNTable and UXNTable, unprivileged write, WXN, PAN.
const fn limits(mode: Mode, ap: u8, limits: u8) -> Step {
    let (wxn, pan, disabled) = (mode.has(1), mode.has(2), mode.has(3));
    let limits = if disabled { 0 } else { limits };
    let ap_table = ap_table_takes(mode, limits & 3);
    let data = ap_grants(mode, ap) & !ap_table;
    let (pw, ur, uw) = (data & PW != 0, data & UR != 0, data & UW != 0);
    let never = never_executed(mode, limits >> 2);
    Step::remove(ap_table, cause::AP_TABLE)
        .then(Step::remove(never, cause::EXECUTE_NEVER_TABLE))
        .then(Step::remove(PX, cause::UNPRIVILEGED_WRITE).when(uw))
        .then(Step::remove(PX, cause::WXN).when(wxn && pw))
        .then(Step::remove(UX, cause::WXN).when(wxn && uw))
        .then(Step::remove(PR | PW, cause::PAN).when(pan && (ur || uw)))
}

const fn ap_table_takes(mode: Mode, ap_table: u8) -> Accesses {
    match (mode.two_levels(), ap_table) {
        (true, 1) => UR | UW,
        (true, 2) => PW | UW,
        (true, 3) => PW | UR | UW,
        (false, 2 | 3) => PW,
        _ => 0,
    }
}

/// Marks in place of a pair of codes, for descriptors that no code is read for. All have 15 in the
/// privileged half, which no pair has.
pub(crate) mod mark {
    pub(crate) const NOT_VALID: u8 = 0x0F;
    pub(crate) const AF_CLEAR: u8 = 0x1F;
    pub(crate) const DIRTY: u8 = 0x2F;
}

/// `codes` has the privileged code in its lower half, and the unprivileged one in its upper half.
const fn indirect(mode: Mode, codes: u8) -> Step {
    let step = match codes {
        mark::NOT_VALID => Step::remove(ALL, cause::FAULTS1[0]),
        mark::AF_CLEAR => Step::remove(ALL, cause::FAULTS1[1]),
        _ => base_codes(codes & 15, codes >> 4),
    };
    step.only(mode.levels())
}

const fn base_codes(privileged: u8, unprivileged: u8) -> Step {
    let (Some(privileged), Some(unprivileged)) = (code(privileged), code(unprivileged)) else {
        return Step::refuse(ALL);
    };
    let granted = privileged | unprivileged << 3;
    if granted & (PX | UW) == PX | UW {
        return Step::refuse(ALL);
    }
    Step::remove(ALL & !granted, cause::BASE)
}

/// What a base code grants, as accesses of the privileged level; none where 6 or 7 refuses it.
const fn code(code: u8) -> Option<Accesses> {
    match code {
        0 => Some(0),
        1 | 8 | 9 => Some(PR),
        2 => Some(PX),
        3 | 10 => Some(PR | PX),
        5 | 12 => Some(PR | PW),
        7 | 14 => Some(PR | PW | PX),
        _ => None,
    }
}

const fn overlaid() -> [u8; 256] {
    let mut table = [0; 256];
    let mut codes = 0;
    while codes < 256 {
        let privileged = if codes & 8 == 0 { 0x0F } else { 0 };
        let unprivileged = if codes & 0x80 == 0 { 0xF0 } else { 0 };
        table[codes] = privileged | unprivileged;
        codes += 1;
    }
    table
}

/// The privileged slot in the lower half, the unprivileged one in the upper half: of each, the
/// rights that it lacks, and bit 3 where it is reserved.
const fn slots(pair: usize) -> Step {
    slot(pair & 15, [PR, PX, PW]).then(slot(pair >> 4, [UR, UX, UW]))
}

/// `level` has the accesses in the order of a slot's bits.
const fn slot(lacks: usize, level: [Accesses; 3]) -> Step {
    let [read, execute, write] = level;
    if lacks & 8 != 0 {
        return Step::refuse(read | execute | write);
    }
    Step::remove(read, cause::OVERLAY)
        .when(lacks & 1 != 0)
        .then(Step::remove(execute, cause::OVERLAY).when(lacks & 2 != 0))
        .then(Step::remove(write, cause::OVERLAY).when(lacks & 4 != 0))
}

const fn stage2(descriptor: u64) -> Step {
    let never = match descriptor >> 53 & 3 {
        0 => 0,
        1 => PX,
        2 => PX | UX,
        _ => UX,
    };
    faults(descriptor, cause::FAULTS2, bit(descriptor, 51))
        .then(Step::remove(PR | UR, cause::S2AP).when(!bit(descriptor, 6)))
        .then(Step::remove(PW | UW, cause::S2AP).when(!bit(descriptor, 7)))
        .then(Step::remove(never, cause::STAGE2_XN))
}

/// MemAttr and SH of a stage 2 descriptor, where they stand.
pub(crate) const STAGE2_MEMORY: u64 = 0xF << 2 | 3 << 8;

/// 8 and 9.
const fn memory(fwb: bool) -> [Word; 1024] {
    let mut words = [ALLOWED; 1024];
    let mut place = 0;
    while place < words.len() {
        let (mem_attr, sh) = (place >> 2 & 15, place >> 8);
        let unknown = if fwb {
            mem_attr == 4 || mem_attr > 7
        } else {
            matches!(mem_attr, 4 | 8 | 12)
        };
        if unknown || sh == 1 || place & 1 == 1 {
            words[place] |= REFUSED;
        }
        place += 1;
    }
    words
}
