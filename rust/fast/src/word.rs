//! All accesses of a leaf in one word, and the steps of a judgement on such words.

/// What becomes of a leaf's accesses from some step of the order on. For access `a`, bit `a` says
/// that it is allowed, bit `8 + a` that it is refused, and byte `2 + a` is its cause.
pub(crate) type Word = u64;

const REFUSALS: u32 = 8;
const CAUSES: u32 = 16;

/// Accesses as bits.
pub(crate) type Accesses = u8;

pub(crate) const PR: Accesses = 1;
pub(crate) const PW: Accesses = 2;
pub(crate) const PX: Accesses = 4;
pub(crate) const UR: Accesses = 8;
pub(crate) const UW: Accesses = 16;
pub(crate) const UX: Accesses = 32;
pub(crate) const PRIVILEGED: Accesses = PR | PW | PX;
pub(crate) const ALL: Accesses = 63;

/// Every access allowed.
pub(crate) const ALLOWED: Word = ALL as Word;
/// Every access refused.
pub(crate) const REFUSED: Word = (ALL as Word) << REFUSALS;

/// All bits of these accesses in a word.
pub(crate) const fn bits(accesses: Accesses) -> Word {
    let mut word = 0;
    let mut access = 0;
    while access < 6 {
        if accesses >> access & 1 == 1 {
            word |= 1 << access | 1 << (REFUSALS + access) | 0xFF << (CAUSES + 8 * access);
        }
        access += 1;
    }
    word
}

/// Some steps of the order that follow each other. The word of what comes after them becomes
/// `takes | keeps & word`.
#[derive(Clone, Copy)]
pub(crate) struct Step {
    takes: Word,
    keeps: Word,
}

impl Step {
    /// Nothing is taken.
    pub(crate) const NONE: Step = Step {
        takes: 0,
        keeps: !0,
    };

    /// These accesses end here, with this cause.
    pub(crate) const fn remove(accesses: Accesses, cause: u8) -> Self {
        let every = (0x0101_0101_0101 * cause as Word) << CAUSES;
        Step {
            takes: bits(accesses) & every,
            keeps: !bits(accesses),
        }
    }

    /// These accesses are refused here.
    pub(crate) const fn refuse(accesses: Accesses) -> Self {
        Step {
            takes: bits(accesses) & REFUSED,
            keeps: !bits(accesses),
        }
    }

    /// This step where `condition` holds.
    pub(crate) const fn when(self, condition: bool) -> Self {
        if condition {
            self
        } else {
            Step::NONE
        }
    }

    /// This step, then a later one.
    pub(crate) const fn then(self, later: Step) -> Self {
        Step {
            takes: self.takes | self.keeps & later.takes,
            keeps: self.keeps & later.keeps,
        }
    }

    /// This step for these accesses; the others have no right and no cause.
    pub(crate) const fn only(self, accesses: Accesses) -> Self {
        Step {
            takes: self.takes & bits(accesses),
            keeps: self.keeps & bits(accesses),
        }
    }
}

/// A table of steps.
pub(crate) struct Steps<const N: usize> {
    takes: [Word; N],
    keeps: [Word; N],
}

impl<const N: usize> Steps<N> {
    pub(crate) const NONE: Self = Steps {
        takes: [Step::NONE.takes; N],
        keeps: [Step::NONE.keeps; N],
    };

    pub(crate) const fn put(&mut self, place: usize, step: Step) {
        self.takes[place] = step.takes;
        self.keeps[place] = step.keeps;
    }

    /// The step at `place` before what `word` says.
    #[inline(always)]
    pub(crate) fn before(&self, place: usize, word: Word) -> Word {
        self.takes[place] | self.keeps[place] & word
    }
}
