//! What took a right away (request A1).

/// Causes of a leaf in a list's second buffer: a byte for each access, by its number.
pub const CAUSE_BYTES: usize = 6;

/// What took a right away; the value is its number.
#[derive(Clone, Copy, Debug, PartialEq, Eq)]
pub enum Cause {
    /// AP under Direct, the base code under Indirect.
    Base = 1,
    /// APTable.
    ApTable = 2,
    /// PXN or UXN; XN with one level.
    ExecuteNever = 3,
    /// PXNTable or UXNTable; XNTable with one level.
    ExecuteNeverTable = 4,
    /// uw holds, which takes px.
    UnprivilegedWrite = 5,
    /// WXN.
    Wxn = 6,
    /// PAN.
    Pan = 7,
    /// The overlay of the access's level.
    Overlay = 8,
    /// Stage 2's S2AP.
    S2ap = 9,
    /// Stage 2's XN.
    Stage2Xn = 10,
    /// Stage 1's descriptor is not valid.
    Stage1Translation = 11,
    /// Stage 1's AF is clear.
    Stage1AccessFlag = 12,
    /// Stage 2's descriptor is not valid.
    Stage2Translation = 13,
    /// Stage 2's AF is clear.
    Stage2AccessFlag = 14,
}

/// The removers of base rights, in the order in which they are named. Under Indirect the first is
/// the only one.
pub(crate) const REMOVERS: [Cause; 7] = [
    Cause::Base,
    Cause::ApTable,
    Cause::ExecuteNever,
    Cause::ExecuteNeverTable,
    Cause::UnprivilegedWrite,
    Cause::Wxn,
    Cause::Pan,
];

/// The base rights that each remover leaves of what those before it left.
pub(crate) type Steps = [u8; REMOVERS.len()];

/// The first remover after which `right` is missing, or none where it is left.
pub(crate) const fn first_remover(steps: &Steps, right: u8) -> Option<Cause> {
    let mut step = 0;
    while step < steps.len() {
        if steps[step] & right == 0 {
            return Some(REMOVERS[step]);
        }
        step += 1;
    }
    None
}
