//! A leaf's rights and causes in one pass: what the setup decides is worked out once, in small
//! tables over the descriptor's indices.
//!
//! The causes of a leaf are one word with a byte for each access. A right is taken once, so the
//! word is put together from parts that share no byte: stage 1 before overlays, overlays, stage 2.
//!
//! A pass tells whether some access is refused, not with which number: a refused leaf ends a list
//! or a plan, so its number is then read off the single accesses.

use crate::cause::{first_remover, Cause, Steps, CAUSE_BYTES};
use crate::judge::LeafRights;
use crate::memory::{byte_is_known, mem_attr_is_known};
use crate::records::{control, Leaf, PIIndex, POIndex, Setup, Stage2Descriptor};
use crate::rights::{
    descriptor_bits, direct, indirect, last, slot_rights, stage2_rights, Mode, ALL, LEVEL, PX, UX,
};

/// Causes of a leaf: the cause of access `a` in byte `a`, 0 where there is none.
type Causes = u64;

/// A word with 1 in the byte of each access.
const EVERY: Causes = 0x0101_0101_0101;

/// The bytes of the accesses in a set of rights, all ones.
static BYTES: [Causes; 64] = bytes_table();

const fn bytes_table() -> [Causes; 64] {
    let mut table = [0; 64];
    let mut place = 0;
    while place < 6 * 64 {
        let (access, set) = (place / 64, place % 64);
        if set >> access & 1 == 1 {
            table[set] |= 0xFF << (8 * access);
        }
        place += 1;
    }
    table
}

/// The bytes of `causes` at the accesses in `rights`.
#[inline(always)]
const fn at(rights: u8, causes: Causes) -> Causes {
    BYTES[(rights & ALL) as usize] & causes
}

/// The same cause at every access.
const fn every(cause: Cause) -> Causes {
    EVERY * cause as u64
}

/// The causes of the rights in `levels` that the steps take.
const fn removed(steps: &Steps, levels: u8) -> Causes {
    let mut causes = 0;
    let mut access = 0;
    while access < 6 {
        if let (1, Some(cause)) = (levels >> access & 1, first_remover(steps, 1 << access)) {
            causes |= (cause as u64) << (8 * access);
        }
        access += 1;
    }
    causes
}

/// Rights under Direct for each [`Mode`], at `descriptor_bits << 4 | limits`.
static DIRECT: [[u8; 256]; 8] = direct_tables().0;
/// Their causes, at the same places.
static DIRECT_CAUSES: [[Causes; 256]; 8] = direct_tables().1;

const fn direct_tables() -> ([[u8; 256]; 8], [[Causes; 256]; 8]) {
    let (mut rights, mut causes) = ([[0; 256]; 8], [[0; 256]; 8]);
    let mut place = 0;
    while place < 8 * 256 {
        let (mode, index) = (place / 256, place % 256);
        let steps = direct(Mode(mode as u8), (index >> 4) as u8, index as u8 & 15);
        let levels = if mode & 1 != 0 { ALL } else { LEVEL };
        rights[mode][index] = last(&steps);
        causes[mode][index] = removed(&steps, levels);
        place += 1;
    }
    (rights, causes)
}

/// Stage 2 rights at `XN << 2 | S2AP`.
static STAGE2: [u8; 16] = stage2_table();

const fn stage2_table() -> [u8; 16] {
    let mut table = [0; 16];
    let mut place = 0;
    while place < 16 {
        table[place] = stage2_rights(place as u8 & 3, place as u8 >> 2);
        place += 1;
    }
    table
}

/// What stage 2 takes rights away with, at AF in bit 1 and valid in bit 0. The last are those of a
/// usable descriptor.
static STAGE2_CAUSES: [Causes; 4] = [
    every(Cause::Stage2Translation),
    every(Cause::Stage2AccessFlag),
    every(Cause::Stage2Translation),
    at(!(PX | UX), every(Cause::S2ap)) | at(PX | UX, every(Cause::Stage2Xn)),
];

/// What stage 1 grants before overlays, one set of rights each.
#[derive(Clone, Copy, Default)]
pub(crate) struct Granted {
    /// The rights; none where the descriptor faults.
    pub(crate) rights: u8,
    /// The rights of the levels at which an overlay applies.
    pub(crate) overlaid: u8,
    /// Whether the leaf is refused before its rights are read.
    pub(crate) refused: bool,
}

/// What one overlay slot does, both levels together.
#[derive(Clone, Copy, Default)]
struct Slot {
    /// The rights that it grants.
    granted: u8,
    /// The rights of the levels at which it is reserved.
    reserved: u8,
}

/// The tables of one setup.
pub(crate) struct Pass {
    stage1: bool,
    stage2: bool,
    indirect: bool,
    /// The rights of the levels that the setup has.
    levels: u8,
    /// The limits bits that count.
    limits: u8,
    direct: &'static [u8; 256],
    direct_causes: &'static [Causes; 256],
    /// Under Indirect, at PIIndex.
    base: [Granted; 16],
    /// Under Indirect, at PIIndex: the causes of what the codes lack.
    base_causes: [Causes; 16],
    /// The causes of a stage 1 descriptor that is not usable, at AF in bit 1 and valid in bit 0.
    stage1_faults: [Causes; 4],
    /// At POIndex.
    slots: [Slot; 8],
    /// A bit for each AttrIndx that gives 8.
    unknown_attributes: u16,
    /// A bit for each MemAttr that gives 8.
    unknown_mem_attr: u16,
}

impl Pass {
    pub(crate) fn new(setup: &Setup) -> Self {
        let levels = levels(setup);
        let mode = usize::from(Mode::of(setup).0);
        let (base, base_causes) = base_tables(setup);
        Pass {
            stage1: setup.has(control::STAGE1),
            stage2: setup.has(control::STAGE2),
            indirect: setup.has(control::INDIRECT),
            levels,
            limits: if setup.has(control::LIMITS_DISABLED) {
                0
            } else {
                15
            },
            direct: &DIRECT[mode],
            direct_causes: &DIRECT_CAUSES[mode],
            base,
            base_causes,
            stage1_faults: [
                at(levels, every(Cause::Stage1Translation)),
                at(levels, every(Cause::Stage1AccessFlag)),
                at(levels, every(Cause::Stage1Translation)),
                0,
            ],
            slots: slot_table(setup),
            unknown_attributes: unknown_attributes(setup),
            unknown_mem_attr: unknown_mem_attr(setup),
        }
    }

    /// The leaf's rights and causes, or none where an access of it is refused.
    #[inline(always)]
    pub(crate) fn rights(&self, leaf: &Leaf) -> Option<LeafRights> {
        let first = self.stage1(leaf);
        let slot = self.slots[leaf.stage1.po_index().place()];
        let reserved = first.rights & first.overlaid & slot.reserved != 0;
        let after1 = first.rights & (slot.granted | !first.overlaid);
        let (rights, dirty) = self.stage2(leaf.stage2, after1);
        let unknown = (rights != 0) & self.memory_refused(leaf);
        let refused = leaf.out_of_range() | first.refused | reserved | dirty | unknown;
        let causes = self.stage1_causes(leaf)
            | at(first.rights & !after1, every(Cause::Overlay))
            | at(after1 & !rights, stage2_causes(leaf.stage2));
        (!refused).then_some(LeafRights {
            rights,
            causes: first_bytes(causes),
        })
    }

    /// The causes of what stage 1 takes before overlays.
    #[inline(always)]
    fn stage1_causes(&self, leaf: &Leaf) -> Causes {
        if !self.stage1 {
            return 0;
        }
        let descriptor = leaf.stage1;
        let removed = if self.indirect {
            self.base_causes[descriptor.pi_index().place()]
        } else {
            self.direct_causes[self.direct_place(leaf)]
        };
        if descriptor.usable() {
            removed
        } else {
            self.stage1_faults[flags(descriptor.valid(), descriptor.access_flag())]
        }
    }

    /// What stage 1 grants before overlays, and whether its dirty state or base codes refuse the
    /// leaf.
    #[inline(always)]
    pub(crate) fn stage1(&self, leaf: &Leaf) -> Granted {
        let descriptor = leaf.stage1;
        if !self.stage1 {
            return Granted {
                rights: self.levels,
                ..Granted::default()
            };
        }
        let usable = descriptor.usable();
        let (base, dirty) = if self.indirect {
            (
                self.base[descriptor.pi_index().place()],
                descriptor.dirty_indirect(),
            )
        } else {
            (self.direct(leaf), descriptor.dirty_direct())
        };
        Granted {
            rights: if usable { base.rights } else { 0 },
            overlaid: base.overlaid,
            refused: usable & (dirty | base.refused),
        }
    }

    #[inline(always)]
    fn direct(&self, leaf: &Leaf) -> Granted {
        Granted {
            rights: self.direct[self.direct_place(leaf)],
            overlaid: ALL,
            refused: false,
        }
    }

    /// The leaf's place in the tables of Direct.
    #[inline(always)]
    fn direct_place(&self, leaf: &Leaf) -> usize {
        usize::from(descriptor_bits(leaf.stage1) << 4 | leaf.limits & self.limits)
    }

    /// Which of `rights` stage 2 grants too, and whether its dirty state refuses one of them.
    #[inline(always)]
    pub(crate) fn stage2(&self, descriptor: Stage2Descriptor, rights: u8) -> (u8, bool) {
        if !self.stage2 {
            return (rights, false);
        }
        let reached = if descriptor.usable() { rights } else { 0 };
        let granted = STAGE2[usize::from(descriptor.xn() << 2 | descriptor.s2ap())];
        (reached & granted, descriptor.dirty() & (reached != 0))
    }

    /// Whether 8 or 9 applies to an access that reaches the attribute steps.
    #[inline(always)]
    fn memory_refused(&self, leaf: &Leaf) -> bool {
        let attribute = leaf.stage1.attribute_high() << 3 | leaf.stage1.attribute_low();
        let unknown =
            self.unknown_attributes >> attribute | self.unknown_mem_attr >> leaf.stage2.mem_attr();
        let first = self.stage1 & (leaf.stage1.shareability() == 1);
        let second = self.stage2 & (leaf.stage2.shareability() == 1);
        (unknown & 1 == 1) | first | second
    }
}

/// The rights of the levels that the setup has.
fn levels(setup: &Setup) -> u8 {
    if setup.has(control::TWO_LEVELS) {
        ALL
    } else {
        LEVEL
    }
}

/// Valid in bit 0 and AF in bit 1.
fn flags(valid: bool, access_flag: bool) -> usize {
    usize::from(valid) | usize::from(access_flag) << 1
}

/// What stage 2 takes each right away with, where it does.
#[inline(always)]
fn stage2_causes(descriptor: Stage2Descriptor) -> Causes {
    STAGE2_CAUSES[flags(descriptor.valid(), descriptor.access_flag())]
}

fn first_bytes(causes: Causes) -> [u8; CAUSE_BYTES] {
    let [bytes @ .., _, _] = causes.to_le_bytes();
    bytes
}

/// Base rights and their causes at each PIIndex.
fn base_tables(setup: &Setup) -> ([Granted; 16], [Causes; 16]) {
    let (mut granted, mut causes) = ([Granted::default(); 16], [0; 16]);
    if !setup.has(control::INDIRECT) {
        return (granted, causes);
    }
    for index in PIIndex::all() {
        let place = index.place();
        match indirect(setup, index) {
            Ok(base) => {
                granted[place].rights = base.rights();
                granted[place].overlaid = of_levels(base.overlaid);
                causes[place] = removed(&base.steps, levels(setup));
            }
            Err(_) => granted[place].refused = true,
        }
    }
    (granted, causes)
}

/// All rights of the levels where `on` is set.
fn of_levels(on: [bool; 2]) -> u8 {
    let privileged = if on[0] { LEVEL } else { 0 };
    let unprivileged = if on[1] { LEVEL << 3 } else { 0 };
    privileged | unprivileged
}

/// What the overlays do at each POIndex; an overlay that is off grants everything.
fn slot_table(setup: &Setup) -> [Slot; 8] {
    let mut table = [Slot::default(); 8];
    for index in POIndex::all() {
        let slot = &mut table[index.place()];
        for level in 0..2 {
            let value = if setup.overlay(level) {
                index.slot(setup.por[level])
            } else {
                7
            };
            match slot_rights(value) {
                Ok(rights) => slot.granted |= rights << (3 * level),
                Err(_) => slot.reserved |= LEVEL << (3 * level),
            }
        }
    }
    table
}

/// A bit for each AttrIndx[3:0] whose MAIR byte gives 8. Without AIE, AttrIndx[3] does not count.
fn unknown_attributes(setup: &Setup) -> u16 {
    if !setup.has(control::STAGE1) {
        return 0;
    }
    let half = |mair: u64| {
        let unknown = |(place, byte): (usize, u8)| u16::from(!byte_is_known(byte)) << place;
        mair.to_le_bytes()
            .into_iter()
            .enumerate()
            .map(unknown)
            .sum::<u16>()
    };
    let high = setup.mair[usize::from(setup.has(control::AIE))];
    half(setup.mair[0]) | half(high) << 8
}

/// A bit for each MemAttr that gives 8.
fn unknown_mem_attr(setup: &Setup) -> u16 {
    if !setup.has(control::STAGE2) {
        return 0;
    }
    let fwb = setup.has(control::FWB);
    (0..16)
        .map(|code| u16::from(!mem_attr_is_known(fwb, code)) << code)
        .sum()
}
