//! Tables that are small enough to compare whole: memory types, Direct forms, pairs of base codes
//! with pairs of slots, control words, and causes. Answers are compared with their causes.

use difference::causes::{accepted, can_have, CAUSES};
use difference::compare;
use difference::generate::{leaf, set_register, setup_of, Leaf, Setup};
use reference::{control::*, register, MOST_LEAVES};

/// A stage 1 descriptor that Direct grants everything it can: valid, AF, AP 01.
const STAGE1_OPEN: u64 = 0x441;
/// A stage 2 descriptor that grants everything: valid, AF, S2AP 11.
const STAGE2_OPEN: u64 = 0x4C1;
const ACCESSES: std::ops::Range<u64> = 0..6;

/// Compares the list of one leaf, and a list that is long enough to be judged by groups of fields.
fn lists_of(setup: &Setup, leaf: &Leaf) {
    compare::list_exactly(setup, leaf).ok();
    compare::list_exactly(setup, [*leaf; 65].as_flattened()).ok();
}

/// Every MAIR byte with every MemAttr and SH of both stages, FWB clear and set, stage 2 off too; as
/// single accesses and as lists.
#[test]
fn memory_types() {
    for (more, byte) in product([0, STAGE2, STAGE2 | FWB], 0..=255) {
        let mut setup = setup_of(TWO_LEVELS | STAGE1 | AIE | more);
        // The byte stands at AttrIndx 10 alone, among bytes that give 8.
        set_register(&mut setup, register::MAIR, 0x0202_0202_0202_0202);
        set_register(
            &mut setup,
            register::MAIR2,
            0xF0F0_F0F0_F000_F0F0 | byte << 16,
        );
        let stage1 = STAGE1_OPEN | 1 << 59 | 2 << 2;
        for (first, second) in product(0..4, 0..64) {
            let (sh, mem_attr) = (second >> 4, second & 15);
            let stage2 = STAGE2_OPEN | mem_attr << 2 | sh << 8;
            let leaf = leaf(stage1 | first << 8, stage2, 0, 0);
            compare::judge(&setup, &leaf, 0).ok();
            lists_of(&setup, &leaf);
        }
    }
}

/// Stage 1 off: every access with every MemAttr and SH of stage 2 and every control bit that counts.
#[test]
fn memory_types_with_stage_1_off() {
    let bits = [STAGE2, FWB, DC, INSTRUCTION_CACHEABLE, AIE];
    for (choice, second) in product(0..32, 0..64) {
        let setup = setup_of(TWO_LEVELS | choose(&bits, choice));
        let (sh, mem_attr) = (second >> 4, second & 15);
        let leaf = leaf(1 << 8, STAGE2_OPEN | mem_attr << 2 | sh << 8, 0, 0);
        for access in ACCESSES {
            compare::judge(&setup, &leaf, access).ok();
        }
        lists_of(&setup, &leaf);
    }
}

/// Every AP, PXN, UXN, limits, S2AP and XN, with one level and two, WXN, PAN, limits disabled,
/// stage 2 on and off; as single accesses and as lists.
#[test]
fn direct_forms() {
    let bits = [TWO_LEVELS, WXN, PAN, LIMITS_DISABLED, STAGE2];
    let leaves: Vec<Leaf> = product(0..16, 0..256)
        .map(|(limits, form)| {
            let (ap, xn, s2ap, xn2) = (form & 3, form >> 2 & 3, form >> 4 & 3, form >> 6);
            let stage2 = 0x401 | s2ap << 6 | xn2 << 53;
            leaf(0x401 | ap << 6 | xn << 53, stage2, limits, 0)
        })
        .collect();
    for choice in 0..32 {
        let setup = setup_of(STAGE1 | choose(&bits, choice));
        for (leaf, access) in product(leaves.iter().copied(), ACCESSES) {
            compare::judge(&setup, &leaf, access).ok();
        }
        for list in leaves.chunks(MOST_LEAVES) {
            compare::list_exactly(&setup, list.as_flattened()).ok();
        }
    }
}

/// Every choice of valid, AF and the permission bits of both descriptors, as lists of that leaf.
#[test]
fn descriptor_forms() {
    let overlays = PRIVILEGED_OVERLAY | UNPRIVILEGED_OVERLAY;
    let more = [0, WXN | PAN, overlays, INDIRECT, INDIRECT | overlays];
    for (more, forms) in product(more, 0..1 << 14) {
        let setup = causes_setup(TWO_LEVELS | STAGE1 | STAGE2 | more);
        let descriptor = |form| at_places(form, &[0, 6, 7, 10, 51, 53, 54]);
        let (stage1, stage2) = (descriptor(forms & 127), descriptor(forms >> 7));
        let leaf = leaf(stage1 | 1 << 60, stage2, 0, 0);
        lists_of(&setup, &leaf);
    }
}

/// Every pair of base codes with every pair of slots, with one level and two, overlays on and off;
/// other codes and slots of the registers are reserved. Every index is used.
#[test]
fn base_codes_and_slots() {
    let bits = [TWO_LEVELS, PRIVILEGED_OVERLAY, UNPRIVILEGED_OVERLAY];
    for (choice, codes) in product(0..8, 0..256) {
        let (pi, po) = ((codes % 16 + codes / 16) % 16, codes / 2 % 8);
        let mut setup = setup_of(STAGE1 | INDIRECT | choose(&bits, choice));
        set_register(
            &mut setup,
            register::PIR_PRIVILEGED,
            among_reserved(codes & 15, pi),
        );
        set_register(
            &mut setup,
            register::PIR_UNPRIVILEGED,
            among_reserved(codes >> 4, pi),
        );
        let leaf = leaf(indirect_descriptor(pi, po), 0, 0, 63);
        for slots in 0..256 {
            set_register(
                &mut setup,
                register::POR_PRIVILEGED,
                among_reserved(slots & 15, po),
            );
            set_register(
                &mut setup,
                register::POR_UNPRIVILEGED,
                among_reserved(slots >> 4, po),
            );
            for access in ACCESSES {
                compare::judge(&setup, &leaf, access).ok();
            }
            lists_of(&setup, &leaf);
        }
    }
}

/// Every pair of base codes with every forbidden byte, planned for both levels.
#[test]
fn plans_of_one_leaf() {
    let control = TWO_LEVELS | STAGE1 | INDIRECT | PRIVILEGED_OVERLAY | UNPRIVILEGED_OVERLAY;
    let mut setup = setup_of(control);
    for (codes, forbidden) in product(0..256_u64, 0..=255) {
        set_register(&mut setup, register::PIR_PRIVILEGED, codes & 15);
        set_register(&mut setup, register::PIR_UNPRIVILEGED, codes >> 4);
        let leaf = leaf(indirect_descriptor(0, codes % 8), 0, 0, forbidden);
        for level in 0..3 {
            compare::plan(&setup, level, &leaf).ok();
        }
    }
}

/// Every control word of 14 bits, and each higher bit, on three leaves.
#[test]
fn control_words() {
    let words = (0..1 << 14).chain((14..32).map(|place| 3 | 1 << place));
    let leaves = [
        leaf(STAGE1_OPEN, STAGE2_OPEN | 15 << 2, 0, 63),
        leaf(0x4C1 | 3 << 53, STAGE2_OPEN, 16, 0),
        leaf(0, 0, 0, 0),
    ];
    for (control, leaf) in product(words, leaves) {
        let setup = setup_of(control);
        for access in 0..8 {
            compare::judge(&setup, &leaf, access).ok();
        }
        lists_of(&setup, &leaf);
        for level in 0..3 {
            compare::plan(&setup, level, &leaf).ok();
        }
    }
}

/// Under every accepted choice of the control bits that permissions read, each access meets exactly
/// the causes that it can have.
#[test]
fn causes() {
    let bits = [
        TWO_LEVELS,
        STAGE1,
        STAGE2,
        INDIRECT,
        PRIVILEGED_OVERLAY,
        UNPRIVILEGED_OVERLAY,
        WXN,
        PAN,
        LIMITS_DISABLED,
    ];
    let words = (0..1 << bits.len()).map(|choice| choose(&bits, choice));
    for control in words.filter(|control| accepted(*control)) {
        let setup = causes_setup(control);
        let mut met = [0; CAUSES as usize];
        for list in causes_leaves(control).chunks(MOST_LEAVES) {
            let found = compare::list_exactly(&setup, list.as_flattened());
            let found = found.expect("no leaf is refused");
            for (access, leaf) in product(ACCESSES, found) {
                let judged = control & TWO_LEVELS != 0 || access < 3;
                let cause = usize::from(leaf.causes[access as usize]);
                met[cause] |= u8::from(judged) << access;
            }
            for (leaf, access) in product(list.iter(), ACCESSES) {
                compare::judge(&setup, leaf, access).ok();
            }
        }
        for cause in 0..CAUSES {
            let expected = can_have(control, cause);
            assert_eq!(met[usize::from(cause)], expected, "{control:#x} {cause}");
        }
    }
}

/// Pairs of codes that are not refused, privileged and unprivileged, at PIIndex 0 to 15.
const CODES: [(u64, u64); 16] = [
    (0, 0),
    (3, 3),
    (5, 5),
    (7, 1),
    (1, 7),
    (2, 2),
    (8, 8),
    (10, 10),
    (12, 12),
    (14, 9),
    (9, 14),
    (5, 12),
    (3, 10),
    (0, 7),
    (7, 3),
    (12, 5),
];

/// A setup with [`CODES`] in its PIRs; slot 0 grants nothing and slot 1 everything.
fn causes_setup(control: u32) -> Setup {
    let mut setup = setup_of(control);
    let pirs = CODES.iter().rev().fold((0, 0), |pirs, codes| {
        (pirs.0 << 4 | codes.0, pirs.1 << 4 | codes.1)
    });
    set_register(&mut setup, register::PIR_PRIVILEGED, pirs.0);
    set_register(&mut setup, register::PIR_UNPRIVILEGED, pirs.1);
    set_register(&mut setup, register::POR_PRIVILEGED, 0x70);
    set_register(&mut setup, register::POR_UNPRIVILEGED, 0x70);
    setup
}

/// Every permission form of stage 1 with every limits byte, slots 0 and 1, and four forms of stage 2:
/// not valid, AF clear, granting nothing, granting everything. Then stage 1 not valid and AF clear.
fn causes_leaves(control: u32) -> Vec<Leaf> {
    // AP, PXN and UXN, or PIIndex.
    let places = if control & INDIRECT != 0 {
        [6, 51, 53, 54]
    } else {
        [6, 7, 53, 54]
    };
    let stage2 = [0, 1, 0x401 | 2 << 53, STAGE2_OPEN];
    let usable = product(0..512, stage2).map(|(form, stage2)| {
        let (limits, slot) = (form >> 4 & 15, form >> 8);
        let stage1 = 0x401 | slot << 60 | at_places(form, &places);
        leaf(stage1, stage2, limits as u8, 0)
    });
    let faults = product([0, 1, 0x400], stage2).map(|(first, second)| leaf(first, second, 0, 0));
    usable.chain(faults).collect()
}

/// A register with this code at one index and 15, which is reserved, at all others.
fn among_reserved(code: u64, index: u64) -> u64 {
    !(15 << (4 * index)) | code << (4 * index)
}

/// A valid descriptor with AF set and these indices.
fn indirect_descriptor(pi_index: u64, po_index: u64) -> u64 {
    0x401 | po_index << 60 | at_places(pi_index, &[6, 51, 53, 54])
}

/// The lowest bits of a number, put at these places.
fn at_places(number: u64, places: &[u32]) -> u64 {
    let bits = places.iter().enumerate();
    bits.fold(0, |put, (bit, place)| put | (number >> bit & 1) << place)
}

/// The bits whose places are set in `choice`.
fn choose(bits: &[u32], choice: u32) -> u32 {
    let chosen = (0..bits.len()).filter(|place| choice >> place & 1 == 1);
    chosen.fold(0, |word, place| word | bits[place])
}

/// Every pair.
fn product<A: Copy, B: Clone>(
    first: impl IntoIterator<Item = A>,
    second: impl IntoIterator<Item = B, IntoIter: Clone>,
) -> impl Iterator<Item = (A, B)> {
    let second = second.into_iter();
    first
        .into_iter()
        .flat_map(move |a| second.clone().map(move |b| (a, b)))
}
