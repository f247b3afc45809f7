//! Inputs that reach every class of answer: plausible setups and leaves with few faults, and a
//! share of random bits.

use numbers::Numbers;
use reference::{control::*, leaf_rights, register, LEAF_BYTES, SETUP_BYTES};

/// The bytes of a setup.
pub type Setup = [u8; SETUP_BYTES];
/// The bytes of a leaf.
pub type Leaf = [u8; LEAF_BYTES];

const AF: u64 = 1 << 10;
const BIT_51: u64 = 1 << 51;

/// The control word of a setup.
pub fn control_of(setup: &Setup) -> u32 {
    u32::from_le_bytes([setup[0], setup[1], setup[2], setup[3]])
}

/// Puts a value in a register of a setup.
pub fn set_register(setup: &mut Setup, place: usize, value: u64) {
    setup[4 + 8 * place..12 + 8 * place].copy_from_slice(&value.to_le_bytes());
}

/// A setup of its control word, with all registers 0.
pub fn setup_of(control: u32) -> Setup {
    let mut setup = [0; SETUP_BYTES];
    setup[..4].copy_from_slice(&control.to_le_bytes());
    setup
}

/// A setup of any kind, refused ones included.
pub fn any_setup(numbers: &mut Numbers) -> Setup {
    let mut control = control(numbers);
    match numbers.below(100) {
        0..=1 => control = numbers.next() as u32,
        2..=4 => control = numbers.next() as u32 & KNOWN,
        5..=9 => control ^= 1 << numbers.below(16),
        _ => {}
    }
    setup(numbers, control)
}

/// A setup that 1, 2 and 3 do not refuse.
pub fn accepted_setup(numbers: &mut Numbers) -> Setup {
    let control = control(numbers);
    setup(numbers, control)
}

/// An accepted setup with stage 1 and the level's overlay on.
pub fn overlay_setup(numbers: &mut Numbers, level: u64) -> Setup {
    let removed = WXN | PAN | DC;
    let mut control = control(numbers) & !removed | STAGE1 | PRIVILEGED_OVERLAY << level;
    if level == 1 {
        control |= TWO_LEVELS;
    }
    setup(numbers, control)
}

/// A control word that 1, 2 and 3 do not refuse.
fn control(numbers: &mut Numbers) -> u32 {
    let mut control = 0;
    let mut add = |bit, share| {
        let on = numbers.percent(share);
        control |= if on { bit } else { 0 };
        on
    };
    let two_levels = add(TWO_LEVELS, 85);
    let stage1 = add(STAGE1, 85);
    let stage2 = two_levels && add(STAGE2, 60);
    let indirect = add(INDIRECT, 50);
    let overlays = add(PRIVILEGED_OVERLAY, 40) | (two_levels && add(UNPRIVILEGED_OVERLAY, 40));
    if !(stage1 && (indirect || overlays)) {
        add(WXN, 40);
        let _ = two_levels && add(PAN, 40);
    }
    add(LIMITS_DISABLED, 25);
    add(FWB, 50);
    let _ = stage2 && !stage1 && add(DC, 40);
    add(INSTRUCTION_CACHEABLE, 50);
    add(AIE, 50);
    control
}

fn setup(numbers: &mut Numbers, control: u32) -> Setup {
    let mut setup = setup_of(control);
    let raw = numbers.percent(4);
    for place in register::MAIR..=register::POR_UNPRIVILEGED {
        let value = match place {
            _ if raw => numbers.next(),
            register::MAIR | register::MAIR2 => mair(numbers),
            register::PIR_PRIVILEGED | register::PIR_UNPRIVILEGED => pir(numbers),
            _ => por(numbers),
        };
        set_register(&mut setup, place, value);
    }
    setup
}

/// Mostly known bytes: Devices, 44, and others with both nibbles non-zero.
fn mair(numbers: &mut Numbers) -> u64 {
    u64::from_le_bytes(std::array::from_fn(|_| match numbers.below(100) {
        0..=5 => numbers.next() as u8,
        6..=20 => numbers.pick(&[0x00, 0x04, 0x08, 0x0C]),
        21..=25 => 0x44,
        26..=28 => numbers.pick(&[0xF0, 0x40, 0xA0, 0x01, 0x0D, 0x02]),
        _ => {
            let (outer, inner) = (1 + numbers.below(15), 1 + numbers.below(15));
            (outer << 4 | inner) as u8
        }
    }))
}

/// Mostly base codes that are not reserved and not code 6.
fn pir(numbers: &mut Numbers) -> u64 {
    nibbles(16, || match numbers.below(100) {
        0..=5 => numbers.below(16) as u64,
        _ => numbers.pick(&[0, 1, 2, 3, 5, 5, 7, 8, 9, 10, 12, 14]),
    })
}

/// Mostly slots that are not reserved.
fn por(numbers: &mut Numbers) -> u64 {
    nibbles(16, || match numbers.below(100) {
        0..=5 => numbers.below(16) as u64,
        6..=40 => 7,
        _ => numbers.below(8) as u64,
    })
}

fn nibbles(count: u32, mut nibble: impl FnMut() -> u64) -> u64 {
    (0..count).fold(0, |value, place| value | nibble() << (4 * place))
}

/// A leaf of any kind for a setup: mostly valid descriptors, few faults, a share of random bits.
pub fn any_leaf(numbers: &mut Numbers, setup: &Setup) -> Leaf {
    if numbers.percent(2) {
        return std::array::from_fn(|_| numbers.next() as u8);
    }
    let control = control_of(setup);
    let limits = match numbers.below(100) {
        0..=1 => numbers.next() as u8,
        2..=40 => 0,
        _ => numbers.below(16) as u8,
    };
    let forbidden = match numbers.below(100) {
        0..=1 => numbers.next() as u8,
        2..=30 => 1 << numbers.below(6),
        _ => numbers.below(64) as u8,
    };
    leaf(
        stage1_descriptor(numbers, control),
        stage2_descriptor(numbers, control),
        limits,
        forbidden,
    )
}

/// A leaf of its fields.
pub fn leaf(stage1: u64, stage2: u64, limits: u8, forbidden: u8) -> Leaf {
    let mut leaf = [0; LEAF_BYTES];
    leaf[..8].copy_from_slice(&stage1.to_le_bytes());
    leaf[8..16].copy_from_slice(&stage2.to_le_bytes());
    leaf[16] = limits;
    leaf[17] = forbidden;
    leaf
}

/// Random bits in every place, with valid, AF, SH and the dirty state made plausible.
fn stage1_descriptor(numbers: &mut Numbers, control: u32) -> u64 {
    let dirty = if control & INDIRECT != 0 {
        1 << 7
    } else {
        BIT_51
    };
    plausible(numbers, dirty)
}

fn stage2_descriptor(numbers: &mut Numbers, control: u32) -> u64 {
    let known: &[u64] = if control & FWB != 0 {
        &[0, 1, 2, 3, 5, 6, 6, 7, 7, 7]
    } else {
        &[0, 1, 2, 3, 5, 6, 7, 9, 10, 11, 13, 14, 15, 15]
    };
    let mut descriptor = plausible(numbers, BIT_51);
    if numbers.percent(95) {
        descriptor = descriptor & !(15 << 2) | numbers.pick(known) << 2;
    }
    if numbers.percent(50) {
        descriptor |= 3 << 6;
    }
    descriptor
}

fn plausible(numbers: &mut Numbers, dirty: u64) -> u64 {
    let mut descriptor = numbers.next();
    let mut mostly = |mask: u64, value: u64| {
        if numbers.percent(96) {
            descriptor = descriptor & !mask | value;
        }
    };
    mostly(1, 1);
    mostly(AF, AF);
    mostly(dirty, 0);
    if descriptor >> 8 & 3 == 1 && numbers.percent(90) {
        descriptor = descriptor & !(3 << 8) | numbers.pick(&[0, 2, 3]) << 8;
    }
    descriptor
}

/// A leaf that an accepted setup does not refuse.
pub fn passing_leaf(numbers: &mut Numbers, setup: &Setup) -> Leaf {
    passing(numbers, setup, |leaf| leaf_rights(setup, leaf).is_ok())
}

/// A leaf that passes a test, or an invalid one if none is found soon.
pub fn passing(numbers: &mut Numbers, setup: &Setup, test: impl Fn(&Leaf) -> bool) -> Leaf {
    (0..8)
        .map(|_| any_leaf(numbers, setup))
        .find(test)
        .unwrap_or(leaf(0, 0, 0, 63))
}

/// Changes a leaf so that it may be refused.
pub fn damage(numbers: &mut Numbers, leaf: &mut Leaf) {
    match numbers.below(7) {
        0 => leaf[16] |= 16 << numbers.below(4),
        1 => leaf[17] |= 64 << numbers.below(2),
        2 => *leaf = std::array::from_fn(|_| numbers.next() as u8),
        // Another PIIndex, bit 51, SH, AttrIndx and MemAttr.
        3 => leaf[6] ^= numbers.next() as u8 & 0x68,
        4 => leaf[numbers.pick(&[6, 14])] |= 1 << 3,
        5 => leaf[numbers.pick(&[1, 9])] ^= numbers.below(4) as u8,
        _ => leaf[numbers.pick(&[0, 8])] ^= (numbers.below(16) << 2) as u8,
    }
}

/// How many leaves a list has: mostly few, sometimes none, all or one too many.
pub fn leaf_count(numbers: &mut Numbers) -> usize {
    match numbers.below(1000) {
        0..=29 => 0,
        30..=129 => 1,
        130..=949 => 2 + numbers.below(30),
        950..=979 => 32 + numbers.below(300),
        980..=984 => 332 + numbers.below(1716),
        985..=992 => 2048,
        _ => 2049,
    }
}

/// A length that is not the right one.
pub fn wrong_length(numbers: &mut Numbers, right: usize) -> usize {
    let length = match numbers.below(4) {
        0 => 0,
        1 => right - 1,
        2 => right + 1,
        _ => numbers.below(3 * right),
    };
    if length == right {
        right + 1
    } else {
        length
    }
}
