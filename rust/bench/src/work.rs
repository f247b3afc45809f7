//! What is measured: a setup and leaves of one mode, and the functions of all sides on them.

use numbers::Numbers;
use reference::{control::*, register, CAUSE_BYTES, LEAF_BYTES, MOST_LEAVES, SETUP_BYTES};
use std::hint::black_box;

/// Rights of the leaves, and their causes.
pub(crate) type Buffers = ([u8; MOST_LEAVES], [u8; CAUSE_BYTES * MOST_LEAVES]);

const EMPTY: Buffers = ([0; MOST_LEAVES], [0; CAUSE_BYTES * MOST_LEAVES]);

/// A way to set up the release.
#[derive(Clone, Copy, Debug, PartialEq, Eq)]
pub(crate) struct Mode {
    /// Its name on the command line.
    pub(crate) name: &'static str,
    /// Its name in a table.
    pub(crate) title: &'static str,
    control: u32,
    /// Percent of leaves that are invalid or have AF clear, at either stage.
    faults: usize,
}

const BOTH_STAGES: u32 = TWO_LEVELS | STAGE1 | STAGE2;
const OVERLAYS: u32 = PRIVILEGED_OVERLAY | UNPRIVILEGED_OVERLAY;
const DIRECT_OVERLAYS: u32 = BOTH_STAGES | OVERLAYS;
const INDIRECT_OVERLAYS: u32 = BOTH_STAGES | INDIRECT | OVERLAYS;

/// The modes, in the order of the tables.
#[rustfmt::skip]
pub(crate) const MODES: [Mode; 8] = [
    mode("direct", "Direct", BOTH_STAGES, 0),
    mode("direct-overlays", "Direct with overlays", DIRECT_OVERLAYS, 0),
    mode("indirect", "Indirect", BOTH_STAGES | INDIRECT, 0),
    mode("indirect-overlays", "Indirect with overlays", INDIRECT_OVERLAYS, 0),
    mode("direct-faults", "Direct with faults", DIRECT_OVERLAYS, 40),
    mode("indirect-faults", "Indirect with faults", INDIRECT_OVERLAYS, 40),
    mode("one-level", "One level, stage 1 alone", STAGE1, 0),
    mode("stage-2", "Stage 2 alone", TWO_LEVELS | STAGE2, 0),
];

const fn mode(name: &'static str, title: &'static str, control: u32, faults: usize) -> Mode {
    Mode {
        name,
        title,
        control,
        faults,
    }
}

/// A function that is measured.
#[derive(Clone, Copy, Debug, PartialEq, Eq)]
pub(crate) enum Function {
    List,
    Plan,
}

impl Function {
    /// Its name on the command line.
    pub(crate) fn name(self) -> &'static str {
        match self {
            Function::List => "list",
            Function::Plan => "plan",
        }
    }

    /// Whether the mode has what the function needs.
    pub(crate) fn fits(self, mode: Mode) -> bool {
        self == Function::List || mode.control & OVERLAYS != 0
    }

    /// Who has the function.
    pub(crate) fn sides(self) -> &'static [Side] {
        match self {
            Function::List => &[Side::Proved, Side::Fast, Side::Reference],
            Function::Plan => &[Side::Proved, Side::Reference],
        }
    }

    /// How many leaves it is measured on.
    pub(crate) fn lengths(self) -> &'static [usize] {
        match self {
            Function::List => &[MOST_LEAVES, 0, 1, 16, 64],
            Function::Plan => &[MOST_LEAVES],
        }
    }
}

/// Whose function.
#[derive(Clone, Copy, Debug, PartialEq, Eq)]
pub(crate) enum Side {
    Proved,
    Fast,
    Reference,
}

impl Side {
    /// Its name on the command line.
    pub(crate) fn name(self) -> &'static str {
        match self {
            Side::Proved => "proved",
            Side::Fast => "fast",
            Side::Reference => "reference",
        }
    }
}

/// The inputs of one mode.
pub(crate) struct Work {
    setup: [u8; SETUP_BYTES],
    leaves: Vec<u8>,
}

impl Work {
    /// 2,048 leaves that neither the list nor the planner refuses.
    pub(crate) fn new(mode: Mode) -> Self {
        let mut numbers = Numbers::new(7);
        let setup = setup(&mut numbers, mode.control);
        let mut leaves = Vec::with_capacity(MOST_LEAVES * LEAF_BYTES);
        while leaves.len() < MOST_LEAVES * LEAF_BYTES {
            let leaf = leaf(&mut numbers, mode);
            if passes(&setup, &leaf) {
                leaves.extend(leaf);
            }
        }
        Work { setup, leaves }
    }

    /// Calls the function this often on the first leaves and gives the last answer as a number.
    pub(crate) fn run(&self, function: Function, side: Side, leaves: usize, calls: usize) -> u64 {
        let leaves = &self.leaves[..LEAF_BYTES * leaves];
        let mut buffers = EMPTY;
        let mut last = 0;
        for call in 0..calls {
            last = match function {
                Function::List => self.list_call(side, leaves, &mut buffers),
                Function::Plan => self.plan_call(side, leaves, call as u64 % 2),
            };
        }
        last
    }

    /// The rights and causes of all leaves by one side.
    pub(crate) fn rights(&self, side: Side) -> Buffers {
        let mut buffers = EMPTY;
        self.list_call(side, &self.leaves, &mut buffers);
        buffers
    }

    /// One call; its instructions are counted.
    #[inline(never)]
    fn list_call(&self, side: Side, leaves: &[u8], buffers: &mut Buffers) -> u64 {
        let (setup, leaves) = (black_box(&self.setup), black_box(leaves));
        let (out, causes) = black_box(buffers);
        let count = match side {
            Side::Proved => sonsiplex::list(setup, leaves, out, causes)
                .expect("not refused")
                .len(),
            Side::Fast => fast::list(setup, leaves, out, causes).expect("not refused"),
            Side::Reference => reference::list(setup, leaves, out, causes).expect("not refused"),
        };
        count as u64
    }

    /// One call; its instructions are counted.
    #[inline(never)]
    fn plan_call(&self, side: Side, leaves: &[u8], level: u64) -> u64 {
        let (setup, leaves) = (black_box(&self.setup), black_box(leaves));
        match side {
            Side::Proved => sonsiplex::plan_number(setup, level, leaves).expect("separates"),
            Side::Fast => panic!("the fast judge has no planner"),
            Side::Reference => reference::plan(setup, level, leaves).expect("separates"),
        }
    }
}

fn passes(setup: &[u8; SETUP_BYTES], leaf: &[u8; LEAF_BYTES]) -> bool {
    let listed = reference::list(setup, leaf, &mut [0], &mut [0; CAUSE_BYTES]).is_ok();
    let separable = |level| match reference::plan(setup, level, leaf) {
        Ok(_) => true,
        Err(refusal) => refusal.number == 12,
    };
    listed && separable(0) && separable(1)
}

fn setup(numbers: &mut Numbers, control: u32) -> [u8; SETUP_BYTES] {
    let mut registers = [0; 6];
    registers[register::MAIR] = 0x0C08_0400_4FAA_44FF;
    registers[register::MAIR2] = 0xBB77_33EE_4FAA_44FF;
    for place in 0..16 {
        let pairs = [(1, 1), (3, 1), (5, 5), (10, 3), (8, 12), (12, 8), (0, 7)];
        let (privileged, unprivileged) = numbers.pick(&pairs);
        registers[register::PIR_PRIVILEGED] |= privileged << (4 * place);
        registers[register::PIR_UNPRIVILEGED] |= unprivileged << (4 * place);
    }
    registers[register::POR_PRIVILEGED] = numbers.next() & 0x7777_7777;
    registers[register::POR_UNPRIVILEGED] = numbers.next() & 0x7777_7777;
    let mut setup = [0; SETUP_BYTES];
    setup[..4].copy_from_slice(&control.to_le_bytes());
    for (place, value) in registers.iter().enumerate() {
        setup[4 + 8 * place..12 + 8 * place].copy_from_slice(&value.to_le_bytes());
    }
    setup
}

fn leaf(numbers: &mut Numbers, mode: Mode) -> [u8; LEAF_BYTES] {
    let faulty = numbers.percent(mode.faults);
    let mut leaf = [0; LEAF_BYTES];
    for stage in leaf[..16].chunks_exact_mut(8) {
        let descriptor = numbers.next() & !(1 << 51) | 1 | 1 << 10;
        let fault = if faulty {
            numbers.pick(&[0, 1, 1 << 10])
        } else {
            0
        };
        stage.copy_from_slice(&(descriptor & !fault).to_le_bytes());
    }
    leaf[16] = numbers.below(16) as u8;
    leaf[17] = 1 << numbers.below(6);
    leaf
}
