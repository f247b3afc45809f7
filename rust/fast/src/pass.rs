//! The one pass over the leaves.

use crate::setup::Setup;
use crate::stage1::{descriptor, Leaf, Stage1};
use crate::tables::{Shared, SHARED, STAGE2_MEMORY};
use crate::word::{Word, REFUSED};
use reference::control::FWB;
use reference::CAUSE_BYTES;

/// Most leaves of a block.
const BLOCK: usize = 128;

/// Bytes of a word before its causes.
const BEFORE_CAUSES: usize = 2;

/// What is found of the leaves of a block.
struct Block {
    rights: [u8; BLOCK],
    /// From [`BEFORE_CAUSES`] on. A leaf's word is written whole: what stands before its causes is
    /// written over by the leaf before it, which comes next.
    causes: [u8; BEFORE_CAUSES + CAUSE_BYTES * BLOCK],
}

/// A pass under one setup; `SECOND` says whether stage 2 is on.
pub(crate) struct Pass<S, const SECOND: bool> {
    stage1: S,
    shared: &'static Shared,
}

impl<S: Stage1, const SECOND: bool> Pass<S, SECOND> {
    #[inline(always)]
    pub(crate) fn new(setup: &Setup) -> Self {
        Pass {
            stage1: S::new(setup),
            shared: &SHARED[usize::from(setup.has(FWB))],
        }
    }

    /// Writes the leaves' rights and causes; or, where one is refused, writes nothing and gives
    /// false. What a block finds is written after all blocks behind it were judged.
    #[inline(never)]
    pub(crate) fn list(&self, leaves: &[Leaf], out: &mut [u8], causes: &mut [u8]) -> bool {
        let mut block = Block {
            rights: [0; BLOCK],
            causes: [0; BEFORE_CAUSES + CAUSE_BYTES * BLOCK],
        };
        let (leaves, later) = leaves.split_at(leaves.len().min(BLOCK));
        if !self.judge(leaves, &mut block) {
            return false;
        }
        let (out, out_later) = out.split_at_mut(leaves.len());
        let (causes, causes_later) = causes.split_at_mut(CAUSE_BYTES * leaves.len());
        if !later.is_empty() && !self.list(later, out_later, causes_later) {
            return false;
        }
        out.copy_from_slice(&block.rights[..out.len()]);
        causes.copy_from_slice(&block.causes[BEFORE_CAUSES..][..causes.len()]);
        true
    }

    /// Judges the leaves of one block, the last first. Gives whether none is refused.
    #[inline(always)]
    fn judge(&self, leaves: &[Leaf], block: &mut Block) -> bool {
        let mut range = 0;
        let mut met = 0;
        for index in (0..leaves.len().min(BLOCK)).rev() {
            let leaf = &leaves[index];
            let word = self.word(leaf);
            range |= u16::from_le_bytes([leaf[16], leaf[17]]);
            met |= word;
            block.rights[index] = word as u8;
            let place = CAUSE_BYTES * index;
            block.causes[place..place + 8].copy_from_slice(&word.to_le_bytes());
        }
        // Limits are below 16 and forbidden below 64.
        range & 0xC0F0 == 0 && met & REFUSED == 0
    }

    /// What becomes of a leaf's accesses, from the last steps to the first.
    #[inline(always)]
    fn word(&self, leaf: &Leaf) -> Word {
        let memory = usize::from(self.stage1.memory(self.shared, leaf));
        let word = if SECOND {
            let second = descriptor(leaf, 1);
            let memory = memory | (second & STAGE2_MEMORY) as usize;
            let place = self.shared.permissions[1].place(second);
            self.shared.stage2.before(place, self.shared.memory[memory])
        } else {
            self.shared.memory[memory]
        };
        self.stage1.before(self.shared, leaf, word)
    }
}
