//! PIIndex and POIndex, and what they pick.

use super::{leaf, setup};
use crate::{control::*, picks, Grant, Overlay, Pick, Picks};

const BOTH: u32 = TWO_LEVELS | STAGE1 | INDIRECT | PRIVILEGED_OVERLAY | UNPRIVILEGED_OVERLAY;

fn rights(number: u8, rights: u8) -> Pick {
    let grant = Grant::Rights(rights);
    Pick { number, grant }
}

/// Each base code at its own index, by the paper's table: R 1, W 2, X 4.
#[test]
fn base_codes() {
    const CODES: u64 = 0xFEDC_BA98_7654_3210;
    let setup = setup(TWO_LEVELS | STAGE1 | INDIRECT, [0, 0, CODES, 1, 0, 0]);
    let granted = [0, 1, 4, 5, 0, 3, 0, 7, 1, 1, 5, 0, 3, 0, 7, 0];
    for index in 0..16u64 {
        let [upper, middle, lower] = [index >> 2, index >> 1 & 1, index & 1];
        let leaf = leaf(0x401 | upper << 53 | middle << 51 | lower << 6, 0, 0, 0);
        let number = index as u8;
        let grant = match number {
            4 | 11 | 13 | 15 => Grant::Reserved,
            6 => Grant::NotJudged,
            _ => Grant::Rights(granted[index as usize]),
        };
        let unprivileged = if index == 0 {
            rights(1, 1)
        } else {
            rights(0, 0)
        };
        let codes = [Some(Pick { number, grant }), Some(unprivileged)];
        let codes = Some((number, codes));
        let overlays = None;
        assert_eq!(picks(&setup, &leaf), Picks { codes, overlays });
    }
}

/// Each slot at its own index, under Direct: bit 0 R, bit 1 X, bit 2 W.
#[test]
fn overlay_slots() {
    let setup = setup(
        TWO_LEVELS | STAGE1 | UNPRIVILEGED_OVERLAY,
        [0, 0, 0, 0, 0, 0x8654_3210],
    );
    let granted = [0, 1, 4, 5, 2, 3, 6];
    for (index, number) in [0, 1, 2, 3, 4, 5, 6, 8].into_iter().enumerate() {
        let leaf = leaf(0x401 | (index as u64) << 60, 0, 0, 0);
        let slot = match number {
            8 => Pick {
                number,
                grant: Grant::Reserved,
            },
            _ => rights(number, granted[index]),
        };
        let codes = None;
        let overlays = Some((index as u8, [None, Some(Overlay::Slot(slot))]));
        assert_eq!(picks(&setup, &leaf), Picks { codes, overlays });
    }
}

/// Codes 8 and above have no overlay; with one level there is one code.
#[test]
fn levels() {
    let registers = [0, 0, 0x5, 0x8, 0x7, 0x3];
    let usable = leaf(0x401, 0, 0, 0);
    let two = picks(&setup(BOTH, registers), &usable);
    assert_eq!(
        two.codes,
        Some((0, [Some(rights(5, 3)), Some(rights(8, 1))]))
    );
    let slot = Overlay::Slot(rights(7, 7));
    assert_eq!(
        two.overlays,
        Some((0, [Some(slot), Some(Overlay::NotApplied)]))
    );
    let one = picks(&setup(STAGE1 | INDIRECT, registers), &usable);
    assert_eq!(one.codes, Some((0, [Some(rights(5, 3)), None])));
    assert_eq!(one.overlays, None);
}

/// Nothing is picked where a judgement stops before the codes, and no slot where it stops at them.
#[test]
fn as_far_as_a_judgement_gets() {
    let registers = [0, 0, 0x3, 0x1, 0x7, 0x7];
    let nothing = Picks::default();
    let usable = leaf(0x401, 0, 0, 0);
    for stopped in [
        leaf(0x400, 0, 0, 0),
        leaf(0x1, 0, 0, 0),
        leaf(0x481, 0, 0, 0),
        leaf(0x401, 0, 16, 0),
        leaf(0x401, 0, 0, 64),
    ] {
        assert_eq!(picks(&setup(BOTH, registers), &stopped), nothing);
    }
    assert_eq!(picks(&setup(BOTH & !STAGE1, registers), &usable), nothing);
    assert_eq!(picks(&setup(BOTH | WXN, registers), &usable), nothing);
    assert_eq!(picks(&[], &usable), nothing);
    assert_eq!(picks(&setup(BOTH, registers), &[]), nothing);
    let dirty = leaf(0x401 | 1 << 51, 0, 0, 0);
    assert_eq!(picks(&setup(BOTH & !INDIRECT, registers), &dirty), nothing);
    // Reserved, not judged, and px together with uw.
    for codes in [[0x4, 0x1], [0x1, 0x6], [0x3, 0x5]] {
        let [privileged, unprivileged] = codes;
        let found = picks(
            &setup(BOTH, [0, 0, privileged, unprivileged, 7, 7]),
            &usable,
        );
        assert!(found.codes.is_some() && found.overlays.is_none());
    }
}
