//! Comparison of the library with the reference, by the packed answer and through the wrapper; of
//! lists also the fast one.
//!
//! Each function fails with the input in hex where they differ, and gives the common answer.

use crate::lent::Lent;
use reference::{LeafRights, Memory, Refusal, Stop, CAUSE_BYTES, LEAF_BYTES};
use sonsiplex::{packed, Access, Judgement, Listed};

/// Compares both judges.
pub fn judge(setup: &[u8], leaf: &[u8], access: u64) -> Result<Memory, Stop> {
    let answer = reference::judge(setup, leaf, access);
    let found = packed::judge(setup, leaf, access);
    assert!(
        found == packed_judge(answer) && same(packed::unpack_judge(found), answer),
        "library {found:#018x}, reference {answer:?}\naccess {access}\n{}",
        words(setup, leaf),
    );
    answer
}

/// The buffers that a list is lent.
#[derive(Clone, PartialEq, Eq)]
struct Buffers {
    out: Lent,
    causes: Lent,
}

/// Compares the library's list and the fast one with the reference's on the lent buffers; what the
/// calls leave of both, with their margins, is compared. Gives what the list found of each leaf.
pub fn list(
    setup: &[u8],
    leaves: &[u8],
    out: &Lent,
    causes: &Lent,
) -> Result<Vec<LeafRights>, Refusal> {
    let lent = || Buffers {
        out: out.clone(),
        causes: causes.clone(),
    };
    let mut expected = lent();
    let answer = reference::list(setup, leaves, expected.out.lend(), expected.causes.lend());
    let count = answer.unwrap_or(0);
    assert!(expected.out.kept(out, count));
    assert!(expected.causes.kept(causes, CAUSE_BYTES * count));

    let mut left = lent();
    let fast = fast::list(setup, leaves, left.out.lend(), left.causes.lend());
    assert!(
        fast == answer && left == expected,
        "fast {fast:?}, reference {answer:?}\n{}\n{}",
        words(setup, leaves),
        buffers(&left, &expected),
    );

    let mut left = lent();
    let found = packed::list(setup, leaves, left.out.lend(), left.causes.lend());
    assert!(
        found == packed_list(answer) && left == expected,
        "library {found:#018x}, reference {answer:?}\n{}\n{}",
        words(setup, leaves),
        buffers(&left, &expected),
    );
    let wrapped = packed::unpack_list(found, left.out.content(), left.causes.content());
    let count = wrapped.map(|listed| listed.len());
    assert!(same_refusal(count, answer));
    answer?;
    let listed = wrapped.expect("neither is refused");
    let found = leaf_rights(&expected, listed.len());
    assert!(same_leaves(listed, &found), "{}", words(setup, leaves));
    Ok(found)
}

/// What a call left of its buffers and what it should have left, in hex.
fn buffers(left: &Buffers, expected: &Buffers) -> String {
    format!(
        "output {}\nexpected {}\ncauses {}\nexpected {}",
        hex(left.out.bytes()),
        hex(expected.out.bytes()),
        hex(left.causes.bytes()),
        hex(expected.causes.bytes()),
    )
}

/// Compares the lists on buffers that are just long enough for whole leaves.
pub fn list_exactly(setup: &[u8], leaves: &[u8]) -> Result<Vec<LeafRights>, Refusal> {
    let count = leaves.len() / LEAF_BYTES;
    let out = Lent::filled(0xA5, count);
    list(
        setup,
        leaves,
        &out,
        &Lent::filled(0xA5, CAUSE_BYTES * count),
    )
}

/// The first leaves that the buffers hold.
fn leaf_rights(buffers: &Buffers, count: usize) -> Vec<LeafRights> {
    let rights = &buffers.out.content()[..count];
    let (causes, _) = buffers.causes.content().as_chunks();
    let leaf = |(&rights, &causes)| LeafRights { rights, causes };
    rights.iter().zip(causes).map(leaf).collect()
}

/// Compares both planners.
pub fn plan(setup: &[u8], level: u64, leaves: &[u8]) -> Result<u64, Refusal> {
    let answer = reference::plan(setup, level, leaves);
    let found = packed::plan(setup, level, leaves);
    assert!(
        found == packed_plan(answer) && same_refusal(packed::unpack_plan(found), answer),
        "library {found:#018x}, reference {answer:?}\nlevel {level}\n{}",
        words(setup, leaves),
    );
    answer
}

/// A setup and leaves in hex, for messages.
pub fn words(setup: &[u8], leaves: &[u8]) -> String {
    format!("setup {}\nleaves {}", hex(setup), hex(leaves))
}

fn hex(bytes: &[u8]) -> String {
    bytes.iter().map(|byte| format!("{byte:02x}")).collect()
}

/// Whether the wrapper's answer has the reference's values.
fn same(wrapped: Result<Judgement, sonsiplex::Refusal>, answer: Result<Memory, Stop>) -> bool {
    match (wrapped, answer) {
        (Ok(Judgement::Allowed(found)), Ok(memory)) => {
            (found.byte, found.shareability as u8) == (memory.byte, memory.shareability)
        }
        (Ok(Judgement::Fault(found)), Err(Stop::Fault(fault))) => {
            let stage_and_kind = (found.stage as u8, found.kind as u8);
            stage_and_kind == (fault.stage, fault.kind as u8)
                && found.cause as u8 == fault.cause as u8
        }
        (Err(found), Err(Stop::Refused(number))) => {
            (found.number as u8, found.leaf) == (number, None)
        }
        _ => false,
    }
}

/// Whether the wrapper's leaves have the reference's values.
fn same_leaves(listed: Listed<'_>, expected: &[LeafRights]) -> bool {
    let same = |(found, expected): (sonsiplex::ListedLeaf, &LeafRights)| {
        Access::ALL.into_iter().all(|access| {
            let place = access as usize;
            found.allows(access) == (expected.rights >> place & 1 == 1)
                && found.cause(access).map_or(0, |cause| cause as u8) == expected.causes[place]
        })
    };
    listed.len() == expected.len() && listed.iter().zip(expected).all(same)
}

/// Whether the wrapper's answer to a list or a plan has the reference's values.
fn same_refusal<T: PartialEq>(
    wrapped: Result<T, sonsiplex::Refusal>,
    answer: Result<T, Refusal>,
) -> bool {
    match (wrapped, answer) {
        (Ok(found), Ok(expected)) => found == expected,
        (Err(found), Err(refusal)) => {
            let leaf = (5..=10).contains(&refusal.number).then_some(refusal.leaf);
            (found.number as u8, found.leaf) == (refusal.number, leaf)
        }
        _ => false,
    }
}

fn packed_judge(answer: Result<Memory, Stop>) -> u64 {
    match answer {
        Ok(memory) => u64::from(memory.byte) << 24 | u64::from(memory.shareability) << 32,
        Err(Stop::Fault(fault)) => {
            let cause = (fault.cause as u64) << 40;
            u64::from(fault.stage) << 8 | (fault.kind as u64) << 16 | cause
        }
        Err(Stop::Refused(number)) => u64::from(number),
    }
}

fn packed_list(answer: Result<usize, Refusal>) -> u64 {
    answer.map_or_else(packed_refusal, |count| (count as u64) << 32)
}

fn packed_plan(answer: Result<u64, Refusal>) -> u64 {
    answer.map_or_else(packed_refusal, |register| register << 32)
}

fn packed_refusal(refusal: Refusal) -> u64 {
    u64::from(refusal.number) | u64::from(refusal.leaf) << 16
}
