//! Request A1, sentence by sentence: the order of removers under Direct, the one remover under
//! Indirect, overlays, stage 2 and descriptors that are not usable.

use super::{leaf, list_one, setup};
use crate::{control::*, judge, leaf_rights, Stop, CAUSE_BYTES, LEAF_BYTES, SETUP_BYTES};

const PR: usize = 0;
const PW: usize = 1;
const PX: usize = 2;
const UR: usize = 3;
const UW: usize = 4;
const UX: usize = 5;

/// Two levels with stage 1 on.
const DIRECT: u32 = TWO_LEVELS | STAGE1;
const PXN: u64 = 1 << 53;
const UXN: u64 = 1 << 54;
const PXN_TABLE: u8 = 4;
const UXN_TABLE: u8 = 8;
/// A stage 2 descriptor that grants everything.
const OPEN: u64 = 0x4FD;

/// A valid stage 1 descriptor with AF set.
fn ap(ap: u64) -> u64 {
    0x401 | ap << 6
}

fn direct(more: u32) -> [u8; SETUP_BYTES] {
    setup(DIRECT | more, [0; 6])
}

/// The causes of a leaf that is not refused: by single accesses and by a list, which agree.
#[track_caller]
fn causes(setup: [u8; SETUP_BYTES], leaf: [u8; LEAF_BYTES]) -> [u8; CAUSE_BYTES] {
    let single = leaf_rights(&setup, &leaf);
    assert_eq!(single, list_one(&setup, &leaf));
    single.expect("the leaf is not refused").causes
}

#[track_caller]
fn direct_causes(more: u32, stage1: u64, limits: u8) -> [u8; CAUSE_BYTES] {
    causes(direct(more), leaf(stage1, 0, limits, 0))
}

#[test]
fn ap_comes_before_ap_table() {
    // AP 10 lacks pw, which APTable 10 would take too; AP 11 lacks uw.
    assert_eq!(direct_causes(0, ap(2), 2)[PW], 1);
    assert_eq!(direct_causes(0, ap(3), 3), [0, 1, 0, 2, 1, 0]);
    assert_eq!(direct_causes(0, ap(0), 3), [0, 2, 0, 1, 1, 0]);
    assert_eq!(direct_causes(0, ap(1), 1), [0, 0, 0, 2, 2, 0]);
    assert_eq!(direct_causes(0, ap(1), 2), [0, 2, 0, 0, 2, 0]);
    assert_eq!(direct_causes(0, ap(1), 3), [0, 2, 0, 2, 2, 0]);
}

#[test]
fn ap_takes_no_execution() {
    assert_eq!(direct_causes(0, ap(2), 0), [0, 1, 0, 1, 1, 0]);
    assert_eq!(direct_causes(0, ap(2) | PXN | UXN, 0)[PX], 3);
    assert_eq!(direct_causes(0, ap(2) | PXN | UXN, 0)[UX], 3);
}

#[test]
fn descriptors_come_before_tables() {
    let all = PXN_TABLE | UXN_TABLE;
    assert_eq!(direct_causes(0, ap(2) | PXN, all), [0, 1, 3, 1, 1, 4]);
    assert_eq!(direct_causes(0, ap(2) | UXN, all), [0, 1, 4, 1, 1, 3]);
    assert_eq!(direct_causes(0, ap(2), PXN_TABLE)[PX], 4);
    assert_eq!(direct_causes(0, ap(2), UXN_TABLE)[UX], 4);
}

#[test]
fn pxn_and_pxn_table_come_before_unprivileged_write() {
    assert_eq!(direct_causes(0, ap(1) | PXN, 0)[PX], 3);
    assert_eq!(direct_causes(0, ap(1), PXN_TABLE)[PX], 4);
    assert_eq!(direct_causes(0, ap(1), 0), [0, 0, 5, 0, 0, 0]);
}

#[test]
fn unprivileged_write_counts_after_ap_table() {
    // APTable takes uw: nothing is left that takes px.
    for limits in [1, 2, 3] {
        assert_eq!(direct_causes(0, ap(1), limits)[PX], 0);
    }
    // Disabled limits take nothing, so uw is left.
    for limits in 0..16 {
        let found = direct_causes(LIMITS_DISABLED, ap(1), limits);
        assert_eq!(found, [0, 0, 5, 0, 0, 0]);
    }
}

#[test]
fn unprivileged_write_comes_before_wxn() {
    assert_eq!(direct_causes(WXN, ap(1), 0), [0, 0, 5, 0, 0, 6]);
    // APTable 01 takes uw and leaves pw.
    assert_eq!(direct_causes(WXN, ap(1), 1), [0, 0, 6, 2, 2, 0]);
    assert_eq!(direct_causes(WXN, ap(0), 0), [0, 0, 6, 1, 1, 0]);
    assert_eq!(direct_causes(WXN, ap(0) | PXN, 0)[PX], 3);
    assert_eq!(direct_causes(WXN, ap(0), PXN_TABLE)[PX], 4);
    assert_eq!(direct_causes(WXN, ap(1) | UXN, 0)[UX], 3);
    assert_eq!(direct_causes(WXN, ap(1), UXN_TABLE)[UX], 4);
}

#[test]
fn pan_takes_pr_and_pw() {
    assert_eq!(direct_causes(PAN, ap(1), 0), [7, 7, 5, 0, 0, 0]);
    // pw that AP or APTable lacks is not PAN's; pr is, where ur is left.
    assert_eq!(direct_causes(PAN, ap(3), 0), [7, 1, 0, 0, 1, 0]);
    assert_eq!(direct_causes(PAN, ap(1), 2), [7, 2, 0, 0, 2, 0]);
    // APTable 01 takes ur and uw: PAN does nothing.
    assert_eq!(direct_causes(PAN, ap(1), 1), [0, 0, 0, 2, 2, 0]);
    assert_eq!(direct_causes(PAN, ap(0), 0), [0, 0, 0, 1, 1, 0]);
    // PAN takes no execution.
    assert_eq!(direct_causes(PAN | WXN, ap(1), 0), [7, 7, 5, 0, 0, 6]);
}

/// The causes of Direct, access by access: for each the removers that can take it, in their order.
fn by_access(control: u32, form: Form) -> [u8; CAUSE_BYTES] {
    let first = |removers: &[(u8, bool)]| {
        let removed = removers.iter().find(|(_, removes)| *removes);
        removed.map_or(0, |(cause, _)| *cause)
    };
    let has = |bit| control & bit != 0;
    let Form { ap, pxn, uxn, .. } = form;
    let limits = if has(LIMITS_DISABLED) { 0 } else { form.limits };
    let (ap_table, pxn_table, uxn_table) = (limits & 3, limits & 4 != 0, limits & 8 != 0);
    let read_only = (1, ap & 2 != 0);
    let write_limited = (2, ap_table & 2 != 0);
    if !has(TWO_LEVELS) {
        let pw = first(&[read_only, write_limited]);
        let px = first(&[(3, uxn), (4, uxn_table), (6, has(WXN) && pw == 0)]);
        return [0, pw, px, 0, 0, 0];
    }
    let ur = first(&[(1, ap & 1 == 0), (2, ap_table & 1 != 0)]);
    let uw = first(&[(1, ap != 1), (2, ap_table != 0)]);
    let pw_before_pan = first(&[read_only, write_limited]);
    let pan = (7, has(PAN) && (ur == 0 || uw == 0));
    [
        first(&[pan]),
        first(&[read_only, write_limited, pan]),
        first(&[
            (3, pxn),
            (4, pxn_table),
            (5, uw == 0),
            (6, has(WXN) && pw_before_pan == 0),
        ]),
        ur,
        uw,
        first(&[(3, uxn), (4, uxn_table), (6, has(WXN) && uw == 0)]),
    ]
}

/// What Direct reads of a leaf.
#[derive(Clone, Copy, Debug)]
struct Form {
    ap: u64,
    pxn: bool,
    uxn: bool,
    limits: u8,
}

impl Form {
    fn all() -> impl Iterator<Item = Form> {
        (0..256).map(|form: u64| Form {
            ap: form & 3,
            pxn: form & 4 != 0,
            uxn: form & 8 != 0,
            limits: (form >> 4) as u8,
        })
    }

    fn leaf(self) -> [u8; LEAF_BYTES] {
        let pxn = if self.pxn { PXN } else { 0 };
        let uxn = if self.uxn { UXN } else { 0 };
        leaf(ap(self.ap) | pxn | uxn, 0, self.limits, 0)
    }
}

/// Every form under every setup of Direct.
#[test]
fn direct_whole() {
    for choice in 0..16 {
        let bits = [TWO_LEVELS, WXN, PAN, LIMITS_DISABLED];
        let chosen = (0..4).filter(|place| choice >> place & 1 == 1);
        let control = chosen.fold(STAGE1, |word, place| word | bits[place]);
        if control & (TWO_LEVELS | PAN) == PAN {
            continue; // refusal 2
        }
        for form in Form::all() {
            let found = causes(setup(control, [0; 6]), form.leaf());
            assert_eq!(found, by_access(control, form), "{control:#x} {form:?}");
        }
    }
}

#[test]
fn one_level_reads_ap_2_ap_table_1_and_xn() {
    let one =
        |more, stage1, limits| causes(setup(STAGE1 | more, [0; 6]), leaf(stage1, 0, limits, 63));
    assert_eq!(one(0, ap(1), 0), [0; CAUSE_BYTES]);
    assert_eq!(one(0, ap(1) | PXN, PXN_TABLE | 1), [0; CAUSE_BYTES]);
    assert_eq!(one(0, ap(2), 2), [0, 1, 0, 0, 0, 0]);
    assert_eq!(one(0, ap(0), 2), [0, 2, 0, 0, 0, 0]);
    assert_eq!(one(0, ap(2) | UXN, UXN_TABLE), [0, 1, 3, 0, 0, 0]);
    assert_eq!(one(WXN, ap(0), UXN_TABLE), [0, 0, 4, 0, 0, 0]);
    assert_eq!(one(WXN, ap(0), 0), [0, 0, 6, 0, 0, 0]);
    assert_eq!(one(LIMITS_DISABLED, ap(0), 15), [0; CAUSE_BYTES]);
}

/// Under Indirect what the base code lacks has cause 1, executions too, and limits play no part.
#[test]
fn indirect_has_one_remover() {
    // Privileged and unprivileged codes, PIIndex 0.
    let cases = [
        (0, 0, [1, 1, 1, 1, 1, 1]),
        (3, 1, [0, 1, 0, 0, 1, 1]),
        (5, 5, [0, 0, 1, 0, 0, 1]),
        (2, 8, [1, 1, 0, 0, 1, 1]),
        (12, 14, [0, 0, 1, 0, 0, 0]),
        (10, 2, [0, 1, 0, 1, 1, 0]),
    ];
    for (privileged, unprivileged, expected) in cases {
        let registers = [0, 0, privileged, unprivileged, 0, 0];
        for limits in [0, 15] {
            let setup = setup(DIRECT | INDIRECT, registers);
            assert_eq!(causes(setup, leaf(0x401, 0, limits, 0)), expected);
        }
        let one = setup(STAGE1 | INDIRECT, registers);
        let [pr, pw, px, ..] = expected;
        let expected = [pr, pw, px, 0, 0, 0];
        assert_eq!(causes(one, leaf(0x401, 0, 15, 0)), expected);
    }
}

#[test]
fn the_overlay_comes_last_at_stage_1() {
    let both = PRIVILEGED_OVERLAY | UNPRIVILEGED_OVERLAY;
    // Slot 0: privileged R, unprivileged W.
    let overlays = |more| setup(DIRECT | more, [0, 0, 5, 7, 1, 4]);
    let page = leaf(ap(1) | UXN, 0, 0, 0);
    assert_eq!(causes(overlays(both), page), [0, 8, 5, 8, 0, 3]);
    assert_eq!(
        causes(overlays(PRIVILEGED_OVERLAY), page),
        [0, 8, 5, 0, 0, 3]
    );
    assert_eq!(
        causes(overlays(UNPRIVILEGED_OVERLAY), page),
        [0, 0, 5, 8, 0, 3]
    );
    // Codes 5 (RW) and 7 (RWX): what the base code lacks is the base code's.
    let page = leaf(0x401, 0, 0, 0);
    assert_eq!(causes(overlays(INDIRECT | both), page), [0, 8, 1, 8, 0, 8]);
    // Codes 12 and 14 have the same rights, and no overlay applies.
    let above = setup(DIRECT | INDIRECT | both, [0, 0, 12, 14, 1, 4]);
    assert_eq!(causes(above, page), [0, 0, 1, 0, 0, 0]);
}

#[test]
fn stage_1_comes_before_stage_2() {
    let both = setup(DIRECT | STAGE2, [0; 6]);
    // S2AP 00 and XN 10: stage 2 grants nothing.
    let closed = 0x405 | 2 << 53;
    let page = |stage1, stage2, limits| causes(both, leaf(stage1, stage2, limits, 0));
    assert_eq!(page(ap(1), closed, 0), [9, 9, 5, 9, 9, 10]);
    assert_eq!(page(ap(2), closed, 0), [9, 1, 10, 1, 1, 10]);
    assert_eq!(page(ap(1) | UXN, closed, 2), [9, 2, 10, 9, 2, 3]);
    // S2AP bit 0 grants reads, bit 1 writes; XN 01 ux, 11 px.
    let writes = 0x405 | 2 << 6 | 1 << 53;
    assert_eq!(page(ap(1), writes, 0), [9, 0, 5, 9, 0, 0]);
    assert_eq!(page(ap(2), writes, 0), [9, 1, 10, 1, 1, 0]);
    let reads = 0x405 | 1 << 6 | 3 << 53;
    assert_eq!(page(ap(1), reads, 0), [0, 9, 5, 0, 9, 10]);
    assert_eq!(page(ap(2), reads, 0), [0, 1, 0, 1, 1, 10]);
    // PAN and an overlay belong to stage 1 too.
    let pan = setup(DIRECT | STAGE2 | PAN, [0; 6]);
    assert_eq!(causes(pan, leaf(ap(1), closed, 0, 0)), [7, 7, 5, 9, 9, 10]);
    let overlay = setup(DIRECT | STAGE2 | PRIVILEGED_OVERLAY, [0; 6]);
    assert_eq!(
        causes(overlay, leaf(ap(2), closed, 0, 0)),
        [8, 1, 8, 1, 1, 10]
    );
}

#[test]
fn descriptors_that_are_not_usable() {
    let both = setup(DIRECT | STAGE2, [0; 6]);
    let page = |stage1, stage2| causes(both, leaf(stage1, stage2, 0, 0));
    // Stage 1's is the cause of every access, whatever stage 2 is.
    for stage2 in [OPEN, 0, 1] {
        assert_eq!(page(0, stage2), [11; CAUSE_BYTES]);
        assert_eq!(page(0x400, stage2), [11; CAUSE_BYTES]);
        assert_eq!(page(1, stage2), [12; CAUSE_BYTES]);
    }
    // Stage 2's is the cause of those that stage 1 permits.
    assert_eq!(page(ap(1), 0), [13, 13, 5, 13, 13, 13]);
    assert_eq!(page(ap(1), 0x400), [13, 13, 5, 13, 13, 13]);
    assert_eq!(page(ap(2), 1), [14, 1, 14, 1, 1, 14]);
    // With one level the other three accesses are not judged.
    let one = setup(STAGE1, [0; 6]);
    assert_eq!(causes(one, leaf(0, 0, 0, 0)), [11, 11, 11, 0, 0, 0]);
    assert_eq!(causes(one, leaf(1, 0, 0, 0)), [12, 12, 12, 0, 0, 0]);
}

#[test]
fn a_stage_that_is_off_takes_nothing() {
    let neither = setup(TWO_LEVELS | WXN | PAN, [0; 6]);
    assert_eq!(causes(neither, leaf(0, 0, 15, 63)), [0; CAUSE_BYTES]);
    let second = setup(TWO_LEVELS | STAGE2 | WXN | PAN | INDIRECT, [0; 6]);
    let closed = leaf(0, 0x405 | 2 << 53, 15, 0);
    assert_eq!(causes(second, closed), [9, 9, 10, 9, 9, 10]);
    assert_eq!(causes(second, leaf(0, 0, 0, 0)), [13; CAUSE_BYTES]);
    assert_eq!(causes(second, leaf(0, 1, 0, 0)), [14; CAUSE_BYTES]);
    let first = direct(0);
    assert_eq!(causes(first, leaf(ap(1), 0, 0, 0)), [0, 0, 5, 0, 0, 0]);
}

/// The cause fixes stage and kind.
#[test]
fn stage_and_kind_of_each_cause() {
    let expected = |cause: u8| match cause {
        1..=7 => (1, 3),
        8 => (1, 4),
        9 | 10 => (2, 3),
        11 => (1, 1),
        12 => (1, 2),
        13 => (2, 1),
        14 => (2, 2),
        _ => panic!("there is no cause {cause}"),
    };
    let both = PRIVILEGED_OVERLAY | UNPRIVILEGED_OVERLAY;
    let mut met = [false; 15];
    for more in [0, WXN, PAN, both, STAGE2, INDIRECT] {
        let setup = setup(DIRECT | more, [0, 0, 1, 1, 1, 1]);
        for form in Form::all() {
            let usable = form.leaf();
            for stages in 0..16 {
                let mut leaf = usable;
                leaf[0] ^= stages & 1;
                leaf[1] ^= (stages >> 1 & 1) << 2;
                // Stage 2 with XN 10, valid and AF by turns.
                (leaf[8], leaf[9], leaf[14]) = (stages >> 2 & 1, (stages >> 3) << 2, 0x40);
                for access in [PR, PW, PX, UR, UW, UX] {
                    if let Err(Stop::Fault(fault)) = judge(&setup, &leaf, access as u64) {
                        let cause = fault.cause as u8;
                        assert_eq!((fault.stage, fault.kind as u8), expected(cause));
                        met[usize::from(cause)] = true;
                    }
                }
            }
        }
    }
    assert!(met[1..].iter().all(|&met| met), "{met:?}");
}
