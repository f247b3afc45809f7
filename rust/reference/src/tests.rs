//! Document 01's 'Numbers to check against', its listing, and the list against single accesses.

mod causes;
mod picks;

use crate::{control::*, judge, leaf_rights, list, plan};
use crate::{register, CAUSE_BYTES, LEAF_BYTES, MOST_LEAVES, SETUP_BYTES};
use crate::{Cause, Kind, LeafRights, Memory, Refusal, Stop};
use numbers::Numbers;
use std::vec::Vec;

fn setup(control: u32, registers: [u64; 6]) -> [u8; SETUP_BYTES] {
    let mut bytes = [0; SETUP_BYTES];
    bytes[..4].copy_from_slice(&control.to_le_bytes());
    for (place, value) in registers.into_iter().enumerate() {
        bytes[4 + 8 * place..12 + 8 * place].copy_from_slice(&value.to_le_bytes());
    }
    bytes
}

fn leaf(stage1: u64, stage2: u64, limits: u8, forbidden: u8) -> [u8; LEAF_BYTES] {
    let mut bytes = [0; LEAF_BYTES];
    bytes[..8].copy_from_slice(&stage1.to_le_bytes());
    bytes[8..16].copy_from_slice(&stage2.to_le_bytes());
    bytes[16] = limits;
    bytes[17] = forbidden;
    bytes
}

/// A list of one leaf: its rights and causes, or the number that refuses it.
fn list_one(setup: &[u8], leaf: &[u8]) -> Result<LeafRights, u8> {
    let (mut out, mut causes) = ([0], [0; CAUSE_BYTES]);
    let listed = list(setup, leaf, &mut out, &mut causes);
    let [rights] = out;
    listed
        .map(|_| LeafRights { rights, causes })
        .map_err(|refusal| refusal.number)
}

fn memory(byte: u8, shareability: u8) -> Result<Memory, Stop> {
    Ok(Memory { byte, shareability })
}

/// The setup of the table 'Numbers to check against'.
fn table_setup(more: u32) -> [u8; SETUP_BYTES] {
    setup(7 | more, [0x4FAA_0444_FF00, 0, 0, 0, 0, 0])
}

#[test]
fn numbers_to_check_against() {
    let fault = |stage, kind, cause| Err(Stop::fault(stage, kind, cause));
    let uw_taken = fault(1, Kind::Permission, Cause::UnprivilegedWrite);
    let invalid = fault(1, Kind::Translation, Cause::Stage1Translation);
    let af_clear = fault(1, Kind::AccessFlag, Cause::Stage1AccessFlag);
    let cases = [
        ('a', 0, 0, 0x747, 0x7FF, 4, memory(0xFF, 3)),
        ('b', 0, 0, 0x747, 0x7FF, 2, uw_taken),
        ('c', 0, 2, 0x747, 0x7FF, 2, memory(0xFF, 3)),
        (
            'd',
            0,
            0,
            0x747,
            0x77F,
            4,
            fault(2, Kind::Permission, Cause::S2ap),
        ),
        (
            'e',
            0,
            2,
            0x747,
            0x77F,
            4,
            fault(1, Kind::Permission, Cause::ApTable),
        ),
        ('f', 0, 0, 0x346, 0x7FF, 0, invalid),
        ('g', 0, 0, 0x347, 0x7FF, 0, af_clear),
        ('h', 0, 0, 0x747, 0x7D7, 0, memory(0x44, 2)),
        ('i', 0, 0, 0x74F, 0x7CF, 0, memory(0x04, 2)),
        ('j', FWB, 0, 0x753, 0x7DB, 0, memory(0xEE, 3)),
        ('k', FWB, 0, 0x757, 0x7DF, 0, memory(0x4F, 3)),
        ('l', FWB, 0, 0x74F, 0x7DB, 0, memory(0xFF, 2)),
        ('m', FWB, 0, 0x747, 0x7FF, 0, Err(Stop::Refused(8))),
        (
            'n',
            PAN,
            0,
            0x747,
            0x7FF,
            0,
            fault(1, Kind::Permission, Cause::Pan),
        ),
    ];
    for (name, more, limits, stage1, stage2, access, answer) in cases {
        let found = judge(&table_setup(more), &leaf(stage1, stage2, limits, 0), access);
        assert_eq!(found, answer, "case {name}");
    }
}

#[test]
fn rights_of_cases_a_and_c() {
    let leaves = [leaf(0x747, 0x7FF, 0, 0), leaf(0x747, 0x7FF, 2, 0)];
    let rights = leaves.map(|leaf| leaf_rights(&table_setup(0), &leaf).map(|found| found.rights));
    assert_eq!(rights, [Ok(59), Ok(45)]);
    let (mut out, mut causes) = ([0xEE; 3], [0xEE; 13]);
    let listed = list(
        &table_setup(0),
        leaves.as_flattened(),
        &mut out,
        &mut causes,
    );
    assert_eq!(listed, Ok(2));
    assert_eq!(out, [59, 45, 0xEE]);
    assert_eq!(causes, [0, 0, 5, 0, 0, 0, 0, 2, 0, 0, 2, 0, 0xEE]);
}

fn listing_setup() -> [u8; SETUP_BYTES] {
    setup(0x2B, [0, 0, 0x11, 0x58, 0, 7])
}

#[test]
fn listing() {
    let leaves = [leaf(0x747, 0, 0, 16), leaf(0x707, 0, 0, 16)];
    let leaves = leaves.as_flattened();
    let (mut out, mut causes) = ([0; 2], [0; 12]);
    assert_eq!(list(&listing_setup(), leaves, &mut out, &mut causes), Ok(2));
    assert_eq!(out, [25, 9]);
    assert_eq!(causes, [0, 1, 1, 0, 0, 1, 0, 1, 1, 0, 1, 1]);
    let refused = Refusal {
        number: 12,
        leaf: 0,
    };
    assert_eq!(plan(&listing_setup(), 0, leaves), Err(refused));
    assert_eq!(plan(&listing_setup(), 1, leaves), Ok(0x7777_7773));
}

#[test]
fn listing_with_8_forbidden_on_its_second_leaf() {
    let leaves = [leaf(0x747, 0, 0, 16), leaf(0x707, 0, 0, 8)];
    let refused = Refusal {
        number: 10,
        leaf: 1,
    };
    assert_eq!(
        plan(&listing_setup(), 1, leaves.as_flattened()),
        Err(refused)
    );
}

#[test]
fn lengths() {
    let leaves = [leaf(0x747, 0, 0, 16); MOST_LEAVES + 1];
    let (all, most) = (leaves.as_flattened(), leaves[..MOST_LEAVES].as_flattened());
    let refused = |number| Refusal { number, leaf: 0 };
    let setup = listing_setup();
    let mut out = [0xEE; MOST_LEAVES + 1];
    let mut causes = [0xEE; CAUSE_BYTES * MOST_LEAVES + 1];
    let exact = CAUSE_BYTES * MOST_LEAVES;
    let eleven = Err(refused(11));
    assert_eq!(list(&setup, all, &mut out, &mut causes), eleven);
    let short = &mut out[..MOST_LEAVES - 1];
    assert_eq!(list(&setup, most, short, &mut causes), eleven);
    let short = &mut causes[..exact - 1];
    assert_eq!(list(&setup, most, &mut out, short), eleven);
    assert_eq!(list(&setup, most, &mut out, &mut []), eleven);
    assert_eq!(list(&setup, &most[1..], &mut out, &mut causes), eleven);
    let thirteen = Err(refused(13));
    assert_eq!(list(&setup[1..], most, &mut out, &mut causes), thirteen);
    assert!(out.iter().chain(&causes).all(|&byte| byte == 0xEE));
    let done = list(&setup, most, &mut out, &mut causes);
    assert_eq!(done, Ok(MOST_LEAVES));
    assert!(out[..MOST_LEAVES].iter().all(|&byte| byte == 25) && out[MOST_LEAVES] == 0xEE);
    let leaf_causes = causes[..exact].chunks(CAUSE_BYTES);
    assert!(leaf_causes
        .into_iter()
        .all(|leaf| leaf == [0, 1, 1, 0, 0, 1]));
    assert_eq!(causes[exact], 0xEE);
    assert_eq!(list(&setup, &[], &mut [], &mut []), Ok(0));
    assert_eq!(plan(&setup, 1, all), Err(refused(11)));
    assert_eq!(plan(&setup, 1, most), Ok(0x7777_7773));
    assert_eq!(plan(&setup, 1, &[]), Ok(0x7777_7777));
}

#[test]
fn one_refusal_of_each_number() {
    let page = leaf(0x747, 0x7FF, 0, 0);
    let number = |setup: [u8; SETUP_BYTES], leaf: [u8; LEAF_BYTES], access| match judge(
        &setup, &leaf, access,
    ) {
        Err(Stop::Refused(number)) => number,
        _ => 0,
    };
    assert_eq!(number(table_setup(1 << 13), page, 0), 1);
    assert_eq!(number(setup(STAGE2, [0; 6]), page, 9), 2);
    assert_eq!(number(table_setup(DC), page, 9), 2);
    assert_eq!(number(table_setup(WXN | PRIVILEGED_OVERLAY), page, 9), 3);
    assert_eq!(number(table_setup(0), page, 6), 4);
    assert_eq!(number(setup(STAGE1, [0; 6]), page, 3), 4);
    assert_eq!(number(table_setup(0), leaf(0, 0, 16, 0), 0), 5);
    assert_eq!(number(table_setup(0), leaf(0, 0, 0, 64), 0), 5);
    assert_eq!(number(setup(0xB, [0, 0, 0x40, 0, 0, 0]), page, 0), 6);
    assert_eq!(number(setup(0xB, [0, 0, 0x60, 0, 0, 0]), page, 0), 7);
    assert_eq!(number(table_setup(0), leaf(0x747 | 1 << 51, 0, 0, 0), 0), 7);
    assert_eq!(number(table_setup(0), leaf(0x747, 0x7D3, 0, 0), 0), 8);
    assert_eq!(number(table_setup(0), leaf(0x547, 0x7FF, 0, 0), 0), 9);
    assert_eq!(judge(&[], &page, 0), Err(Stop::Refused(13)));
    assert_eq!(judge(&table_setup(0), &[], 0), Err(Stop::Refused(13)));
}

/// A setup that 1, 2 and 3 may refuse, with registers whose codes are mostly not reserved.
fn some_setup(numbers: &mut Numbers) -> [u8; SETUP_BYTES] {
    let mut registers = [0; 6];
    for (place, register) in registers.iter_mut().enumerate() {
        *register = match place {
            register::MAIR | register::MAIR2 => numbers.next() | 0x1111_1111_1111,
            _ => numbers.next() & (numbers.next() | 0x7777_7777_7777_7777),
        };
    }
    let likely = TWO_LEVELS | STAGE1;
    let control = numbers.next() as u32 & (KNOWN & !(DC | WXN | PAN)) | likely;
    setup(control ^ 1 << numbers.below(24), registers)
}

fn some_leaf(numbers: &mut Numbers) -> [u8; LEAF_BYTES] {
    let dirty = 1 << 51 | 1 << 7;
    let first = numbers.next() & !(dirty & numbers.next()) | 0x601;
    let second = numbers.next() & !(1 << 51) | 0x609;
    let (limits, forbidden) = (numbers.below(16), numbers.below(64));
    leaf(first, second, limits as u8, forbidden as u8)
}

/// The list's rights and causes are those of the single accesses, refusals too.
#[test]
fn list_against_single_accesses() {
    let mut numbers = Numbers::new(1);
    let mut done = 0;
    for _ in 0..200_000 {
        let setup = some_setup(&mut numbers);
        let leaf = some_leaf(&mut numbers);
        let found = list_one(&setup, &leaf);
        assert_eq!(found, leaf_rights(&setup, &leaf), "{setup:x?} {leaf:x?}");
        done += u32::from(found.is_ok());
    }
    assert!(done > 20_000, "{done}");
}

/// A separating register found by trying each value of the one slot in use.
#[test]
fn plan_against_every_slot_value() {
    let mut numbers = Numbers::new(2);
    let mut planned = 0;
    for _ in 0..50_000 {
        let (setup, leaf) = (some_setup(&mut numbers), some_leaf(&mut numbers));
        for level in 0..2 {
            let Ok(register) = plan(&setup, level, &leaf) else {
                continue;
            };
            let slot = u32::from(leaf[7] >> 4 & 7);
            let separating =
                (0..8).filter(|&value| separates(setup, leaf, level, value << (4 * slot)));
            let union = separating.fold(0, |union, value| union | value);
            let others = 0x7777_7777 & !(7 << (4 * slot));
            assert_eq!(
                register,
                others | union << (4 * slot),
                "{setup:x?} {leaf:x?}"
            );
            planned += 1;
        }
    }
    assert!(planned > 5_000, "{planned}");
}

/// Whether `register`, in place of the level's POR, stops every forbidden access of the level.
fn separates(
    mut setup: [u8; SETUP_BYTES],
    leaf: [u8; LEAF_BYTES],
    level: u64,
    register: u64,
) -> bool {
    let place = 4 + 8 * (register::POR_PRIVILEGED + level as usize);
    setup[place..place + 8].copy_from_slice(&register.to_le_bytes());
    let open: Vec<u64> = (3 * level..3 * level + 3)
        .filter(|&access| {
            let answer = judge(&setup, &leaf, access);
            matches!(answer, Ok(_) | Err(Stop::Refused(8 | 9)))
        })
        .collect();
    open.iter().all(|&access| leaf[17] >> access & 1 == 0)
}
