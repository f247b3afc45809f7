//! The library's functions with their answers as it packs them, and the unpacking, which reads the
//! fields of `crates/sonsiplex/specs/Packing.antt`. A number that is not 0 is a refusal.
//!
//! Bits that the packing keeps for later (48 and 49 of the judge, for two marks of memory) are not
//! read here.

use crate::{Cause, Fault, Judgement, Kind, Listed, Memory, Number, Refusal, Shareability, Stage};

extern "C" {
    fn sonsiplex_judge(
        setup: *const u8,
        setup_len: usize,
        leaf: *const u8,
        leaf_len: usize,
        access: u64,
    ) -> u64;

    fn sonsiplex_list(
        setup: *const u8,
        setup_len: usize,
        leaves: *const u8,
        leaves_len: usize,
        out: *mut u8,
        out_len: usize,
        causes: *mut u8,
        causes_len: usize,
    ) -> u64;

    fn sonsiplex_plan(
        setup: *const u8,
        setup_len: usize,
        level: u64,
        leaves: *const u8,
        leaves_len: usize,
    ) -> u64;
}

/// The judge's packed answer.
pub fn judge(setup: &[u8], leaf: &[u8], access: u64) -> u64 {
    // SAFETY: each pointer is a slice's, so it is not null and is valid for its length. The
    // function writes to neither.
    unsafe {
        sonsiplex_judge(
            setup.as_ptr(),
            setup.len(),
            leaf.as_ptr(),
            leaf.len(),
            access,
        )
    }
}

/// The list's packed answer.
pub fn list(setup: &[u8], leaves: &[u8], out: &mut [u8], causes: &mut [u8]) -> u64 {
    // SAFETY: each pointer is a slice's, so it is not null and is valid for its length. `out` and
    // `causes` are each borrowed alone, so they overlap neither each other nor an input.
    unsafe {
        sonsiplex_list(
            setup.as_ptr(),
            setup.len(),
            leaves.as_ptr(),
            leaves.len(),
            out.as_mut_ptr(),
            out.len(),
            causes.as_mut_ptr(),
            causes.len(),
        )
    }
}

/// The planner's packed answer.
pub fn plan(setup: &[u8], level: u64, leaves: &[u8]) -> u64 {
    // SAFETY: each pointer is a slice's, so it is not null and is valid for its length. The
    // function writes to neither.
    unsafe {
        sonsiplex_plan(
            setup.as_ptr(),
            setup.len(),
            level,
            leaves.as_ptr(),
            leaves.len(),
        )
    }
}

/// The judge's answer. Bits 7:0 number, 15:8 stage, 23:16 kind, 31:24 byte, 39:32 SH, 47:40 cause.
pub fn unpack_judge(word: u64) -> Result<Judgement, Refusal> {
    let [number, stage, kind, byte, shareability, cause, ..] = word.to_le_bytes();
    if number != 0 {
        return Err(Refusal {
            number: known_number(word),
            leaf: None,
        });
    }
    if stage != 0 {
        let fault = unpack_fault(stage, kind, cause).unwrap_or_else(|| outside(word));
        return Ok(Judgement::Fault(fault));
    }
    if cause != 0 {
        outside(word);
    }
    Ok(Judgement::Allowed(Memory {
        byte,
        shareability: unpack_shareability(shareability).unwrap_or_else(|| outside(word)),
    }))
}

/// The list's answer, with the buffers that it was lent. Bits 7:0 number, 31:16 leaf, 63:32 leaf
/// count.
pub fn unpack_list<'a>(word: u64, out: &'a [u8], causes: &'a [u8]) -> Result<Listed<'a>, Refusal> {
    refusal_of_list(word)?;
    let count = (word >> 32) as usize;
    let (causes, _) = causes.as_chunks();
    let rights = out.get(..count).unwrap_or_else(|| outside(word));
    let causes = causes.get(..count).unwrap_or_else(|| outside(word));
    Ok(Listed::new(rights, causes))
}

/// The planner's answer. Bits 7:0 number, 31:16 leaf, 63:32 slots 0 to 7 of the register.
pub fn unpack_plan(word: u64) -> Result<u64, Refusal> {
    refusal_of_list(word)?;
    Ok(word >> 32)
}

fn refusal_of_list(word: u64) -> Result<(), Refusal> {
    if word & 0xFF == 0 {
        return Ok(());
    }
    let number = known_number(word);
    let leaf = (word >> 16) as u16;
    Err(Refusal {
        number,
        leaf: number.is_of_a_leaf().then_some(leaf),
    })
}

fn known_number(word: u64) -> Number {
    Number::new(word as u8).unwrap_or_else(|| outside(word))
}

/// A fault, where its cause is one of its stage and kind.
fn unpack_fault(stage: u8, kind: u8, cause: u8) -> Option<Fault> {
    let fault = Fault {
        stage: unpack_stage(stage)?,
        kind: unpack_kind(kind)?,
        cause: Cause::new(cause)?,
    };
    (fault.stage == fault.cause.stage() && fault.kind == fault.cause.kind()).then_some(fault)
}

fn unpack_stage(value: u8) -> Option<Stage> {
    match value {
        1 => Some(Stage::One),
        2 => Some(Stage::Two),
        _ => None,
    }
}

fn unpack_kind(value: u8) -> Option<Kind> {
    match value {
        1 => Some(Kind::Translation),
        2 => Some(Kind::AccessFlag),
        3 => Some(Kind::Permission),
        4 => Some(Kind::Overlay),
        _ => None,
    }
}

fn unpack_shareability(value: u8) -> Option<Shareability> {
    match value {
        0 => Some(Shareability::None),
        2 => Some(Shareability::Outer),
        3 => Some(Shareability::Inner),
        _ => None,
    }
}

/// The exported functions are proved to answer within the packing, so a word outside it is not
/// theirs.
#[cold]
fn outside(word: u64) -> ! {
    panic!("answer {word:#018x} is outside the packing: libsonsiplex.a does not fit this crate")
}

#[cfg(test)]
mod tests {
    use super::*;

    #[test]
    fn judge_words() {
        let refused = unpack_judge(6).unwrap_err();
        assert_eq!((refused.number, refused.leaf), (Number::ReservedCode, None));
        let fault = Fault {
            stage: Stage::Two,
            kind: Kind::Permission,
            cause: Cause::Stage2Xn,
        };
        let word = 0x0A00_0003_0200;
        assert_eq!(unpack_judge(word), Ok(Judgement::Fault(fault)));
        let memory = Memory {
            byte: 0x4F,
            shareability: Shareability::Inner,
        };
        let allowed = Ok(Judgement::Allowed(memory));
        assert_eq!(unpack_judge(0x0003_4F00_0000), allowed);
        let kept = 0x0003_0000_0000_0000;
        assert_eq!(unpack_judge(kept | 0x0003_4F00_0000), allowed);
    }

    #[test]
    fn every_number_and_shareability() {
        for value in 1..=13 {
            assert_eq!(unpack_judge(value).unwrap_err().number as u64, value);
        }
        for value in [0, 2, 3] {
            let Ok(Judgement::Allowed(memory)) = unpack_judge(value << 32) else {
                panic!("SH {value} is allowed");
            };
            assert_eq!(memory.shareability as u64, value);
        }
    }

    /// Stage and kind of each cause, as request A1 has them.
    fn stage_and_kind(cause: u8) -> Option<(u8, u8)> {
        match cause {
            1..=7 => Some((1, 3)),
            8 => Some((1, 4)),
            9..=10 => Some((2, 3)),
            11..=12 => Some((1, cause - 10)),
            13..=14 => Some((2, cause - 12)),
            _ => None,
        }
    }

    #[test]
    fn every_fault_and_its_cause() {
        let values = || (1..=3).flat_map(|stage| (0..=5).map(move |kind| (stage, kind)));
        for ((stage, kind), cause) in values().flat_map(|fault| (0..=255).map(move |c| (fault, c)))
        {
            let found = unpack_fault(stage, kind, cause)
                .map(|fault| (fault.stage as u8, fault.kind as u8, fault.cause as u8));
            let fits = stage_and_kind(cause) == Some((stage, kind));
            assert_eq!(found, fits.then_some((stage, kind, cause)));
        }
    }

    #[test]
    fn list_and_plan_words() {
        let (out, causes) = ([9; 0x1_0001], [7; 6 * 0x1_0001]);
        let listed = |word| unpack_list(word, &out, &causes).map(|listed| listed.len());
        assert_eq!(listed(0x0800_0000_0000), Ok(2048));
        assert_eq!(listed(0x0001_0000_0000_0000), Ok(0x1_0000)); // all of bits 63:32
        assert_eq!(unpack_plan(0x7777_7773_0000_0000), Ok(0x7777_7773));
        let refused = unpack_plan(0x0001_000A).unwrap_err();
        assert_eq!(
            (refused.number, refused.leaf),
            (Number::NoOverlaySeparates, Some(1))
        );
        let refused = listed(11).unwrap_err();
        assert_eq!((refused.number, refused.leaf), (Number::ListLength, None));
    }

    #[test]
    #[should_panic(expected = "outside the packing")]
    fn a_number_outside_the_packing() {
        let _ = unpack_judge(200);
    }

    #[test]
    #[should_panic(expected = "outside the packing")]
    fn a_fault_without_a_cause() {
        let _ = unpack_judge(0x0003_0100);
    }

    #[test]
    #[should_panic(expected = "outside the packing")]
    fn a_fault_with_an_unknown_cause() {
        let _ = unpack_judge(0x0F00_0003_0100);
    }

    #[test]
    #[should_panic(expected = "outside the packing")]
    fn a_fault_with_a_cause_of_another_stage() {
        let _ = unpack_judge(0x0900_0003_0100);
    }

    #[test]
    #[should_panic(expected = "outside the packing")]
    fn a_fault_with_a_cause_of_another_kind() {
        let _ = unpack_judge(0x0800_0003_0100);
    }

    #[test]
    #[should_panic(expected = "outside the packing")]
    fn an_allowed_access_with_a_cause() {
        let _ = unpack_judge(0x0103_4F00_0000);
    }

    #[test]
    #[should_panic(expected = "outside the packing")]
    fn more_leaves_than_the_output_has() {
        let _ = unpack_list(2 << 32, &[0], &[0; 12]);
    }

    #[test]
    #[should_panic(expected = "outside the packing")]
    fn more_leaves_than_the_causes_have() {
        let _ = unpack_list(2 << 32, &[0; 2], &[0; 11]);
    }
}
