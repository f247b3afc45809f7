//! What stage 1 does to a leaf, in each of its modes.

use crate::gather::FORMS;
use crate::setup::Setup;
use crate::tables::{self, Shared, DIRECT, INDIRECT};
use crate::word::{bits, Steps, Word, ALL, PRIVILEGED};
use reference::control::TWO_LEVELS;
use reference::LEAF_BYTES;

/// A leaf's record.
pub(crate) type Leaf = [u8; LEAF_BYTES];

/// A leaf's descriptor: at 0 stage 1's, at 1 stage 2's.
#[inline(always)]
pub(crate) fn descriptor(leaf: &Leaf, place: usize) -> u64 {
    u64::from_le_bytes(leaf.as_chunks().0[place])
}

/// A mode of stage 1, with what a setup says of it.
pub(crate) trait Stage1 {
    /// Stage 1 of a setup in this mode.
    fn new(setup: &Setup) -> Self;

    /// 1 where the leaf's memory is refused, else 0.
    fn memory(&self, shared: &Shared, leaf: &Leaf) -> u8;

    /// Stage 1 before what `word` says of the steps after it.
    fn before(&self, shared: &Shared, leaf: &Leaf, word: Word) -> Word;
}

/// Stage 1 off.
pub(crate) struct Off {
    levels: Word,
}

impl Stage1 for Off {
    #[inline(always)]
    fn new(setup: &Setup) -> Self {
        let two = setup.has(TWO_LEVELS);
        let levels = if two { bits(ALL) } else { bits(PRIVILEGED) };
        Off { levels }
    }

    #[inline(always)]
    fn memory(&self, _: &Shared, _: &Leaf) -> u8 {
        0
    }

    #[inline(always)]
    fn before(&self, _: &Shared, _: &Leaf, word: Word) -> Word {
        word & self.levels
    }
}

/// What a setup with stage 1 on says of memory and overlays.
struct Registers<const OVERLAYS: bool> {
    memory: [u8; 64],
    slots: [u8; 16],
}

impl<const OVERLAYS: bool> Registers<OVERLAYS> {
    #[inline(always)]
    fn new(setup: &Setup) -> Self {
        Registers {
            memory: setup.memory(),
            slots: if OVERLAYS { setup.slots() } else { [0; 16] },
        }
    }

    #[inline(always)]
    fn memory(&self, shared: &Shared, leaf: &Leaf) -> u8 {
        self.memory[shared.memory1.place(descriptor(leaf, 0))]
    }

    /// The overlays of the levels in `overlaid`.
    #[inline(always)]
    fn overlays(&self, shared: &Shared, leaf: &Leaf, overlaid: u8, word: Word) -> Word {
        if !OVERLAYS {
            return word;
        }
        let pair = self.slots[(descriptor(leaf, 0) >> 60) as usize] & overlaid;
        shared.slots.before(usize::from(pair), word)
    }
}

/// Stage 1 under Direct.
pub(crate) struct Direct<const OVERLAYS: bool> {
    registers: Registers<OVERLAYS>,
    tables: &'static tables::Direct,
}

impl<const OVERLAYS: bool> Stage1 for Direct<OVERLAYS> {
    #[inline(always)]
    fn new(setup: &Setup) -> Self {
        Direct {
            registers: Registers::new(setup),
            tables: &DIRECT[setup.mode().0 & 15],
        }
    }

    #[inline(always)]
    fn memory(&self, shared: &Shared, leaf: &Leaf) -> u8 {
        self.registers.memory(shared, leaf)
    }

    #[inline(always)]
    fn before(&self, shared: &Shared, leaf: &Leaf, word: Word) -> Word {
        let word = self.registers.overlays(shared, leaf, 0xFF, word);
        // AP[2:1] stands in bits 7:6 of the first byte. Limits above 15 refuse the list in the end.
        let limits = usize::from(leaf[0] & 0xC0 | leaf[16]);
        let word = self.tables.limits.before(limits, word);
        let place = shared.permissions[0].place(descriptor(leaf, 0));
        self.tables.descriptor.before(place, word)
    }
}

/// Stage 1 under Indirect.
pub(crate) struct Indirect<const OVERLAYS: bool> {
    registers: Registers<OVERLAYS>,
    codes: [u8; FORMS],
    table: &'static Steps<256>,
}

impl<const OVERLAYS: bool> Stage1 for Indirect<OVERLAYS> {
    #[inline(always)]
    fn new(setup: &Setup) -> Self {
        Indirect {
            registers: Registers::new(setup),
            codes: setup.codes(),
            table: &INDIRECT[setup.mode().0 & 1],
        }
    }

    #[inline(always)]
    fn memory(&self, shared: &Shared, leaf: &Leaf) -> u8 {
        self.registers.memory(shared, leaf)
    }

    #[inline(always)]
    fn before(&self, shared: &Shared, leaf: &Leaf, word: Word) -> Word {
        let place = shared.permissions[0].place(descriptor(leaf, 0));
        let codes = usize::from(self.codes[place]);
        let overlaid = shared.overlaid[codes];
        let word = self.registers.overlays(shared, leaf, overlaid, word);
        self.table.before(codes, word)
    }
}
