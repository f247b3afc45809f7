//! A setup, its checks, and its registers as rows of bytes that pick steps.

use crate::gather::{form, FORMS, PERMISSIONS};
use crate::tables::{mark, Mode};
use reference::{control::*, register, SETUP_BYTES};

/// 1 in each byte, and 15 in each lower half of a byte.
const ONES: u64 = 0x0101_0101_0101_0101;
const LOWER: u64 = 0x0F0F_0F0F_0F0F_0F0F;

pub(crate) struct Setup<'a>(&'a [u8; SETUP_BYTES]);

impl<'a> Setup<'a> {
    /// The setup in `bytes`, unless 13, 1, 2 or 3 refuses it.
    pub(crate) fn accepted(bytes: &'a [u8]) -> Option<Self> {
        let setup = Setup(bytes.try_into().ok()?);
        let has = |mask| setup.has(mask);
        let refused1 = has(!KNOWN);
        let refused2 = !has(TWO_LEVELS) & has(STAGE2 | UNPRIVILEGED_OVERLAY | PAN)
            | has(DC) & (has(STAGE1) | !has(STAGE2));
        let refused3 = has(STAGE1) & has(WXN | PAN) & has(INDIRECT | OVERLAYS);
        (!(refused1 | refused2 | refused3)).then_some(setup)
    }

    fn control(&self) -> u32 {
        let [a, b, c, d, ..] = *self.0;
        u32::from_le_bytes([a, b, c, d])
    }

    /// Whether any control bit of `mask` is set.
    pub(crate) fn has(&self, mask: u32) -> bool {
        self.control() & mask != 0
    }

    pub(crate) fn mode(&self) -> Mode {
        let control = self.control() as usize;
        Mode(control & 1 | control >> 5 & 14)
    }

    fn register(&self, place: usize) -> u64 {
        let (_, registers) = self.0.split_at(4);
        u64::from_le_bytes(registers.as_chunks().0[place])
    }

    /// For each place of stage 1's memory, 1 where it is refused: by its MAIR byte or SH.
    pub(crate) fn memory(&self) -> [u8; 64] {
        let low = unknown(self.register(register::MAIR));
        let high = if self.has(AIE) {
            unknown(self.register(register::MAIR2))
        } else {
            low
        };
        let rows = [low, ONES, low, low, high, ONES, high, high];
        let mut row = [0; 64];
        for (part, bytes) in row.as_chunks_mut().0.iter_mut().zip(rows) {
            *part = bytes.to_le_bytes();
        }
        row
    }

    /// For each form of a stage 1 descriptor under Indirect, its pair of base codes or its mark.
    pub(crate) fn codes(&self) -> [u8; FORMS] {
        let privileged = without_15(self.register(register::PIR_PRIVILEGED));
        let unprivileged = if self.has(TWO_LEVELS) {
            self.register(register::PIR_UNPRIVILEGED)
        } else {
            0
        };
        // The pairs of even and of odd indices.
        let even = privileged & LOWER | (unprivileged & LOWER) << 4;
        let odd = privileged >> 4 & LOWER | unprivileged & !LOWER;
        let mut row = MARKS;
        for index in 0..8 {
            row[CODE_PLACES[2 * index]] = (even >> (8 * index)) as u8;
            row[CODE_PLACES[2 * index + 1]] = (odd >> (8 * index)) as u8;
        }
        row
    }

    /// For each POIndex, and again for those with bit 63 of the descriptor set, the pair of slots
    /// by the rights that they lack. A level whose overlay is off lacks none.
    pub(crate) fn slots(&self) -> [u8; 16] {
        let lacking = |overlay, place| {
            if self.has(overlay) {
                bytes(self.register(place) as u32 ^ 0x7777_7777)
            } else {
                0
            }
        };
        let privileged = lacking(PRIVILEGED_OVERLAY, register::POR_PRIVILEGED);
        let unprivileged = lacking(UNPRIVILEGED_OVERLAY, register::POR_UNPRIVILEGED);
        let pairs = u128::from(privileged | unprivileged << 4);
        (pairs << 64 | pairs).to_le_bytes()
    }
}

pub(crate) const OVERLAYS: u32 = PRIVILEGED_OVERLAY | UNPRIVILEGED_OVERLAY;

/// 1 for each byte of a MAIR that gives 8.
fn unknown(mair: u64) -> u64 {
    // In bit 0 of each byte: whether its inner half has a bit set, and its outer half.
    let inner = mair | mair >> 1 | mair >> 2 | mair >> 3;
    let outer = inner >> 4;
    let device = !(outer | mair | mair >> 1);
    !(inner & outer | device) & ONES
}

/// The register with code 11 in place of 15, which is reserved too: 15 is free for marks.
fn without_15(pir: u64) -> u64 {
    let fifteen = pir & pir >> 1 & pir >> 2 & pir >> 3 & (ONES | ONES << 4);
    pir ^ fifteen << 2
}

/// Each half byte in a byte of its own.
fn bytes(halves: u32) -> u64 {
    let spread = u64::from(halves);
    let spread = (spread | spread << 16) & 0x0000_FFFF_0000_FFFF;
    let spread = (spread | spread << 8) & 0x00FF_00FF_00FF_00FF;
    (spread | spread << 4) & LOWER
}

/// The mark of each form of a stage 1 descriptor; of those that are usable, the last.
const MARKS: [u8; FORMS] = {
    let mut marks = [mark::DIRTY; FORMS];
    let mut place = 0;
    while place < FORMS {
        if form(place) & 1 == 0 {
            marks[place] = mark::NOT_VALID;
        } else if form(place) & 1 << 10 == 0 {
            marks[place] = mark::AF_CLEAR;
        }
        place += 1;
    }
    marks
};

/// The place of each PIIndex among the forms of usable descriptors.
const CODE_PLACES: [usize; 16] = {
    let mut places = [0; 16];
    let mut index = 0;
    while index < 16 {
        let pi = index as u64;
        let descriptor = 1 | 1 << 10 | (pi & 1) << 6 | (pi >> 1 & 1) << 51 | pi >> 2 << 53;
        places[index] = PERMISSIONS.place(descriptor);
        index += 1;
    }
    places
};
