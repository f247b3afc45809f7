//! The library through the wrapper: document 01's 'Numbers to check against' and its listing.

use sonsiplex::{judge, judge_number, list, plan, plan_number};
use sonsiplex::{Access, Cause, Judgement, Kind, Level, Number, Stage};
use sonsiplex::{CAUSE_BYTES, LEAF_BYTES, MOST_LEAVES, SETUP_BYTES};

const FWB: u32 = 1 << 9;
const PAN: u32 = 1 << 7;

fn setup(control: u32, registers: [u64; 6]) -> [u8; SETUP_BYTES] {
    let mut bytes = [0; SETUP_BYTES];
    bytes[..4].copy_from_slice(&control.to_le_bytes());
    for (place, value) in registers.into_iter().enumerate() {
        bytes[4 + 8 * place..12 + 8 * place].copy_from_slice(&value.to_le_bytes());
    }
    bytes
}

fn leaf(stage1: u64, stage2: u64, limits: u8, forbidden: u8) -> [u8; LEAF_BYTES] {
    let mut bytes = [0; LEAF_BYTES];
    bytes[..8].copy_from_slice(&stage1.to_le_bytes());
    bytes[8..16].copy_from_slice(&stage2.to_le_bytes());
    bytes[16] = limits;
    bytes[17] = forbidden;
    bytes
}

/// An answer in words.
fn words(setup: &[u8], leaf: &[u8], access: Access) -> String {
    match judge(setup, leaf, access) {
        Ok(Judgement::Allowed(memory)) => {
            format!("{:02X} {}", memory.byte, memory.shareability as u8)
        }
        Ok(Judgement::Fault(fault)) => fault.to_string(),
        Err(refusal) => refusal.to_string(),
    }
}

#[test]
fn numbers_to_check_against() {
    let fault_5 = "stage 1 Permission fault: unprivileged write";
    let refused_8 = "refused 8: a memory attribute code reached is reserved or needs an extension";
    let cases = [
        ('a', 0, 0, 0x747, 0x7FF, 4, "FF 3"),
        ('b', 0, 0, 0x747, 0x7FF, 2, fault_5),
        ('c', 0, 2, 0x747, 0x7FF, 2, "FF 3"),
        ('d', 0, 0, 0x747, 0x77F, 4, "stage 2 Permission fault: S2AP"),
        (
            'e',
            0,
            2,
            0x747,
            0x77F,
            4,
            "stage 1 Permission fault: APTable",
        ),
        ('f', 0, 0, 0x346, 0x7FF, 0, "stage 1 Translation fault"),
        ('g', 0, 0, 0x347, 0x7FF, 0, "stage 1 Access flag fault"),
        ('h', 0, 0, 0x747, 0x7D7, 0, "44 2"),
        ('i', 0, 0, 0x74F, 0x7CF, 0, "04 2"),
        ('j', FWB, 0, 0x753, 0x7DB, 0, "EE 3"),
        ('k', FWB, 0, 0x757, 0x7DF, 0, "4F 3"),
        ('l', FWB, 0, 0x74F, 0x7DB, 0, "FF 2"),
        ('m', FWB, 0, 0x747, 0x7FF, 0, refused_8),
        (
            'n',
            PAN,
            0,
            0x747,
            0x7FF,
            0,
            "stage 1 Permission fault: PAN",
        ),
    ];
    for (name, more, limits, stage1, stage2, access, answer) in cases {
        let setup = setup(7 | more, [0x4FAA_0444_FF00, 0, 0, 0, 0, 0]);
        let leaf = leaf(stage1, stage2, limits, 0);
        assert_eq!(words(&setup, &leaf, Access::ALL[access]), answer, "{name}");
    }
}

fn listing_setup() -> [u8; SETUP_BYTES] {
    setup(0x2B, [0, 0, 0x11, 0x58, 0, 7])
}

#[test]
fn listing() {
    let leaves = [leaf(0x747, 0, 0, 16), leaf(0x707, 0, 0, 16)];
    let leaves = leaves.as_flattened();
    let (mut out, mut causes) = ([0xEE; 3], [0xEE; 13]);
    let listed = list(&listing_setup(), leaves, &mut out, &mut causes).unwrap();
    assert_eq!(listed.rights(), [25, 9]);
    assert_eq!(listed.causes(), [[0, 1, 1, 0, 0, 1], [0, 1, 1, 0, 1, 1]]);
    let second = listed.get(1).unwrap();
    let uw = Access::UnprivilegedWrite;
    assert_eq!(
        (second.allows(uw), second.cause(uw)),
        (false, Some(Cause::ApOrBaseCode))
    );
    assert_eq!((out[2], causes[12]), (0xEE, 0xEE));
    let refusal = plan(&listing_setup(), Level::Privileged, leaves).unwrap_err();
    assert_eq!((refusal.number, refusal.leaf), (Number::OverlayOff, None));
    let register = plan(&listing_setup(), Level::Unprivileged, leaves);
    assert_eq!(register, Ok(0x7777_7773));
}

#[test]
fn refusals_show_the_leaf() {
    let leaves = [leaf(0x747, 0, 0, 16), leaf(0x707, 0, 0, 8)];
    let refusal = plan(&listing_setup(), Level::Unprivileged, leaves.as_flattened());
    let error: Box<dyn std::error::Error> = refusal.unwrap_err().into();
    assert_eq!(error.to_string(), "refused 10 leaf 1: no overlay separates");
}

#[test]
fn numbers_that_no_type_has() {
    let page = leaf(0x747, 0, 0, 0);
    for access in [6, 1 << 8, 1 << 32, u64::MAX] {
        let refusal = judge_number(&listing_setup(), &page, access).unwrap_err();
        assert_eq!(refusal.number, Number::AccessOrLevel);
    }
    for level in [2, 1 << 8, 1 << 32, u64::MAX] {
        let refusal = plan_number(&listing_setup(), level, &page).unwrap_err();
        assert_eq!(refusal.number, Number::AccessOrLevel);
    }
}

#[test]
fn lengths() {
    let setup = listing_setup();
    let leaves = vec![leaf(0x747, 0, 0, 16); MOST_LEAVES + 1];
    let mut out = vec![0xEE; MOST_LEAVES + 1];
    let exact = CAUSE_BYTES * MOST_LEAVES;
    let mut causes = vec![0xEE; exact + 1];
    let most = leaves[..MOST_LEAVES].as_flattened();
    let mut refused = |leaves: &[u8], out_length: usize, causes_length: usize| {
        let (out, causes) = (&mut out[..out_length], &mut causes[..causes_length]);
        let refusal = list(&setup, leaves, out, causes).unwrap_err();
        assert_eq!((refusal.number, refusal.leaf), (Number::ListLength, None));
        assert!(out.iter().chain(&*causes).all(|&byte| byte == 0xEE));
    };
    refused(leaves.as_flattened(), MOST_LEAVES + 1, exact + 1);
    refused(&most[1..], MOST_LEAVES, exact);
    refused(most, MOST_LEAVES - 1, exact);
    refused(most, MOST_LEAVES, exact - 1);
    refused(most, MOST_LEAVES, 0);
    let listed = list(&setup, most, &mut out, &mut causes).unwrap();
    assert_eq!(listed.len(), MOST_LEAVES);
    assert!(listed.rights().iter().all(|&byte| byte == 25));
    assert!(listed
        .causes()
        .iter()
        .all(|&leaf| leaf == [0, 1, 1, 0, 0, 1]));
    assert_eq!((out[MOST_LEAVES], causes[exact]), (0xEE, 0xEE));
    assert!(list(&setup, &[], &mut [], &mut []).unwrap().is_empty());
    let refusal = judge(&[], &[], Access::PrivilegedRead).unwrap_err();
    assert_eq!(refusal.number, Number::IllFormed);
}

#[test]
fn causes_of_the_judge() {
    let setup = setup(7, [0x4FAA_0444_FF00, 0, 0, 0, 0, 0]);
    let found = judge(&setup, &leaf(0x747, 0x77F, 2, 0), Access::UnprivilegedWrite);
    let Ok(Judgement::Fault(fault)) = found else {
        panic!("case e is a fault");
    };
    assert_eq!((fault.stage, fault.kind), (Stage::One, Kind::Permission));
    assert_eq!(fault.cause, Cause::ApTable);
}

/// The numbers and the words of request A1.
#[test]
fn causes_in_words() {
    let words = [
        "AP or base code",
        "APTable",
        "PXN or UXN",
        "PXNTable or UXNTable",
        "unprivileged write",
        "WXN",
        "PAN",
        "overlay",
        "stage 2's S2AP",
        "stage 2's XN",
        "stage 1's Translation fault",
        "stage 1's Access flag fault",
        "stage 2's Translation fault",
        "stage 2's Access flag fault",
    ];
    assert_eq!(Cause::new(0), None);
    for (value, words) in (1..).zip(words) {
        let cause = Cause::new(value).unwrap();
        assert_eq!((cause as u8, cause.to_string().as_str()), (value, words));
    }
    for value in 15..=255 {
        assert_eq!(Cause::new(value), None);
    }
    let short =
        "list not a multiple of 18 bytes, over 2,048 leaves, or output shorter than the leaf \
                 count, or causes shorter than six times the leaf count";
    assert_eq!(Number::ListLength.to_string(), short);
}
