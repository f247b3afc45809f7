//! Setup and leaf records ('Setup and leaf records') and the checks 1, 2, 3 and 5 on them.

use crate::Stop;

/// Length of a setup.
pub const SETUP_BYTES: usize = 52;
/// Length of a leaf.
pub const LEAF_BYTES: usize = 18;
/// Most leaves that a list or a file has.
pub const MOST_LEAVES: usize = 2048;

/// Bits of the control word.
#[allow(missing_docs)]
pub mod control {
    pub const TWO_LEVELS: u32 = 1;
    pub const STAGE1: u32 = 1 << 1;
    pub const STAGE2: u32 = 1 << 2;
    pub const INDIRECT: u32 = 1 << 3;
    pub const PRIVILEGED_OVERLAY: u32 = 1 << 4;
    pub const UNPRIVILEGED_OVERLAY: u32 = 1 << 5;
    pub const WXN: u32 = 1 << 6;
    pub const PAN: u32 = 1 << 7;
    pub const LIMITS_DISABLED: u32 = 1 << 8;
    pub const FWB: u32 = 1 << 9;
    pub const DC: u32 = 1 << 10;
    pub const INSTRUCTION_CACHEABLE: u32 = 1 << 11;
    pub const AIE: u32 = 1 << 12;
    /// Bits above this mask give refusal 1.
    pub const KNOWN: u32 = (1 << 13) - 1;
}

/// Places of the registers in a setup, counted after the control word.
#[allow(missing_docs)]
pub mod register {
    pub const MAIR: usize = 0;
    pub const MAIR2: usize = 1;
    pub const PIR_PRIVILEGED: usize = 2;
    pub const PIR_UNPRIVILEGED: usize = 3;
    pub const POR_PRIVILEGED: usize = 4;
    pub const POR_UNPRIVILEGED: usize = 5;
}

/// A decoded setup. Arrays over the levels have the privileged level first.
#[derive(Clone, Copy)]
pub(crate) struct Setup {
    pub(crate) control: u32,
    pub(crate) mair: [u64; 2],
    pub(crate) pir: [u64; 2],
    pub(crate) por: [u64; 2],
}

impl Setup {
    /// The setup in `bytes`, or 13 where they are not 52.
    pub(crate) fn decode(bytes: &[u8]) -> Result<Self, u8> {
        let bytes: &[u8; SETUP_BYTES] = bytes.try_into().map_err(|_| 13)?;
        let word = |place: usize| number(&bytes[4 + 8 * place..]);
        Ok(Setup {
            control: u32::from_le_bytes([bytes[0], bytes[1], bytes[2], bytes[3]]),
            mair: [word(register::MAIR), word(register::MAIR2)],
            pir: [
                word(register::PIR_PRIVILEGED),
                word(register::PIR_UNPRIVILEGED),
            ],
            por: [
                word(register::POR_PRIVILEGED),
                word(register::POR_UNPRIVILEGED),
            ],
        })
    }

    /// Whether any control bit of `mask` is set.
    pub(crate) fn has(&self, mask: u32) -> bool {
        self.control & mask != 0
    }

    /// Whether the overlay of `level` is on.
    pub(crate) fn overlay(&self, level: usize) -> bool {
        self.has(control::PRIVILEGED_OVERLAY << level)
    }

    /// Checks 1, 2 and 3, in that order.
    pub(crate) fn check(&self) -> Result<(), u8> {
        use control::*;
        let one_level = !self.has(TWO_LEVELS);
        if self.has(!KNOWN) {
            return Err(1);
        }
        if one_level && self.has(STAGE2 | UNPRIVILEGED_OVERLAY | PAN) {
            return Err(2);
        }
        if self.has(DC) && (self.has(STAGE1) || !self.has(STAGE2)) {
            return Err(2);
        }
        let overlays = PRIVILEGED_OVERLAY | UNPRIVILEGED_OVERLAY;
        if self.has(STAGE1) && self.has(WXN | PAN) && self.has(INDIRECT | overlays) {
            return Err(3);
        }
        Ok(())
    }
}

/// A leaf's record.
#[derive(Clone, Copy)]
pub(crate) struct Leaf {
    pub(crate) stage1: Stage1Descriptor,
    pub(crate) stage2: Stage2Descriptor,
    pub(crate) limits: u8,
    pub(crate) forbidden: u8,
}

impl Leaf {
    pub(crate) fn decode(bytes: &[u8; LEAF_BYTES]) -> Self {
        Leaf {
            stage1: Stage1Descriptor(number(bytes)),
            stage2: Stage2Descriptor(number(&bytes[8..])),
            limits: bytes[16],
            forbidden: bytes[17],
        }
    }

    /// Whether 5 applies.
    pub(crate) fn out_of_range(&self) -> bool {
        (self.limits > 15) | (self.forbidden > 63)
    }

    /// Check 5.
    pub(crate) fn check(&self) -> Result<(), Stop> {
        if self.out_of_range() {
            return Err(Stop::Refused(5));
        }
        Ok(())
    }
}

/// Which base code of a PIR a leaf picks, 0 to 15.
#[derive(Clone, Copy)]
pub(crate) struct PIIndex(u8);

impl PIIndex {
    /// Every index, in order.
    pub(crate) fn all() -> impl Iterator<Item = PIIndex> {
        (0..16).map(PIIndex)
    }

    /// The code that the index picks.
    pub(crate) fn code(self, pir: u64) -> u8 {
        (pir >> (4 * self.0)) as u8 & 15
    }

    /// The index as a place in a table of sixteen.
    pub(crate) fn place(self) -> usize {
        usize::from(self.0 & 15)
    }
}

/// Which overlay slot of a POR a leaf picks, 0 to 7.
#[derive(Clone, Copy)]
pub(crate) struct POIndex(u8);

impl POIndex {
    /// Every index, in order.
    pub(crate) fn all() -> impl Iterator<Item = POIndex> {
        (0..8).map(POIndex)
    }

    /// The slot's value.
    pub(crate) fn slot(self, por: u64) -> u8 {
        (por >> (4 * self.0)) as u8 & 15
    }

    /// The index as a place in a table of eight.
    pub(crate) fn place(self) -> usize {
        usize::from(self.0 & 7)
    }
}

/// Valid and AF: what both stages need before any permission is read.
const USABLE: u64 = 1 | 1 << 10;

/// A stage 1 descriptor.
#[derive(Clone, Copy)]
pub(crate) struct Stage1Descriptor(u64);

impl Stage1Descriptor {
    pub(crate) fn valid(self) -> bool {
        bit(self.0, 0)
    }

    pub(crate) fn access_flag(self) -> bool {
        bit(self.0, 10)
    }

    pub(crate) fn usable(self) -> bool {
        self.0 & USABLE == USABLE
    }

    /// AP[2:1].
    pub(crate) fn ap(self) -> u8 {
        (self.0 >> 6) as u8 & 3
    }

    /// PXN in bit 0, UXN or XN in bit 1.
    pub(crate) fn execute_never(self) -> u8 {
        (self.0 >> 53) as u8 & 3
    }

    /// AttrIndx[2:0].
    pub(crate) fn attribute_low(self) -> u8 {
        (self.0 >> 2) as u8 & 7
    }

    /// AttrIndx[3].
    pub(crate) fn attribute_high(self) -> u8 {
        (self.0 >> 59) as u8 & 1
    }

    pub(crate) fn shareability(self) -> u8 {
        (self.0 >> 8) as u8 & 3
    }

    /// Dirty state under Direct: bit 51.
    pub(crate) fn dirty_direct(self) -> bool {
        bit(self.0, 51)
    }

    /// Dirty state under Indirect: bit 7.
    pub(crate) fn dirty_indirect(self) -> bool {
        bit(self.0, 7)
    }

    /// Bits 54, 53, 51 and 6.
    pub(crate) fn pi_index(self) -> PIIndex {
        let upper = (self.0 >> 53) as u8 & 3;
        let middle = (self.0 >> 51) as u8 & 1;
        let lower = (self.0 >> 6) as u8 & 1;
        PIIndex(upper << 2 | middle << 1 | lower)
    }

    /// Bits 62 to 60.
    pub(crate) fn po_index(self) -> POIndex {
        POIndex((self.0 >> 60) as u8 & 7)
    }
}

/// A stage 2 descriptor.
#[derive(Clone, Copy)]
pub(crate) struct Stage2Descriptor(u64);

impl Stage2Descriptor {
    pub(crate) fn valid(self) -> bool {
        bit(self.0, 0)
    }

    pub(crate) fn access_flag(self) -> bool {
        bit(self.0, 10)
    }

    pub(crate) fn usable(self) -> bool {
        self.0 & USABLE == USABLE
    }

    pub(crate) fn mem_attr(self) -> u8 {
        (self.0 >> 2) as u8 & 15
    }

    pub(crate) fn s2ap(self) -> u8 {
        (self.0 >> 6) as u8 & 3
    }

    pub(crate) fn shareability(self) -> u8 {
        (self.0 >> 8) as u8 & 3
    }

    pub(crate) fn dirty(self) -> bool {
        bit(self.0, 51)
    }

    pub(crate) fn xn(self) -> u8 {
        (self.0 >> 53) as u8 & 3
    }
}

fn bit(word: u64, place: u32) -> bool {
    word >> place & 1 == 1
}

/// The little-endian number in the first eight bytes.
fn number(bytes: &[u8]) -> u64 {
    let mut eight = [0; 8];
    eight.copy_from_slice(&bytes[..8]);
    u64::from_le_bytes(eight)
}
