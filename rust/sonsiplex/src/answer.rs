//! What the judge, the list and the planner answer.

use core::fmt;

/// The answer to an access that is not refused.
#[derive(Clone, Copy, Debug, PartialEq, Eq, Hash)]
pub enum Judgement {
    /// The access is allowed, with this memory.
    Allowed(Memory),
    /// The access takes this fault.
    Fault(Fault),
}

/// Memory type and shareability of an allowed access.
#[derive(Clone, Copy, Debug, PartialEq, Eq, Hash)]
#[non_exhaustive]
pub struct Memory {
    /// The type as a MAIR byte, outer nibble high.
    pub byte: u8,
    /// The shareability.
    pub shareability: Shareability,
}

/// Shareability. Its value is that of the SH field.
#[derive(Clone, Copy, Debug, PartialEq, Eq, Hash)]
#[repr(u8)]
pub enum Shareability {
    /// Not shareable.
    None = 0,
    /// Outer shareable.
    Outer = 2,
    /// Inner shareable.
    Inner = 3,
}

/// A fault.
#[derive(Clone, Copy, Debug, PartialEq, Eq, Hash)]
#[non_exhaustive]
pub struct Fault {
    /// The stage that faults.
    pub stage: Stage,
    /// Why it faults.
    pub kind: Kind,
    /// What took the right away.
    pub cause: Cause,
}

/// A stage of translation. Its value is its number.
#[derive(Clone, Copy, Debug, PartialEq, Eq, Hash)]
#[repr(u8)]
pub enum Stage {
    /// Stage 1.
    One = 1,
    /// Stage 2.
    Two = 2,
}

/// The kind of a fault. Its value is its number in the packing.
#[derive(Clone, Copy, Debug, PartialEq, Eq, Hash)]
#[repr(u8)]
pub enum Kind {
    /// The descriptor is not valid.
    Translation = 1,
    /// The Access flag is clear.
    AccessFlag = 2,
    /// The stage does not grant the right.
    Permission = 3,
    /// The stage grants the right and its overlay does not.
    Overlay = 4,
}

impl fmt::Display for Fault {
    fn fmt(&self, f: &mut fmt::Formatter<'_>) -> fmt::Result {
        let kind = match self.kind {
            Kind::Translation => "Translation",
            Kind::AccessFlag => "Access flag",
            Kind::Permission => "Permission",
            Kind::Overlay => "Overlay",
        };
        write!(f, "stage {} {kind} fault", self.stage as u8)?;
        match self.kind {
            // The one kind with more than one cause at a stage.
            Kind::Permission => write!(f, ": {}", self.cause.name()),
            _ => Ok(()),
        }
    }
}

/// What took a right away: the first remover in the order of request A1. Its value is its number;
/// 0, no cause, is an allowed access.
#[derive(Clone, Copy, Debug, PartialEq, Eq, Hash)]
#[non_exhaustive]
#[repr(u8)]
pub enum Cause {
    /// AP under Direct, the base code under Indirect.
    ApOrBaseCode = 1,
    /// APTable of the limits.
    ApTable = 2,
    /// PXN for privileged execution, UXN for unprivileged; XN with one level.
    PxnOrUxn = 3,
    /// PXNTable or UXNTable of the limits; XNTable with one level.
    PxnTableOrUxnTable = 4,
    /// Unprivileged writes hold, so privileged execution does not.
    UnprivilegedWrite = 5,
    /// WXN: writes hold, so execution at that level does not.
    Wxn = 6,
    /// PAN: an unprivileged read or write holds, so privileged ones do not.
    Pan = 7,
    /// The overlay of the access's level.
    Overlay = 8,
    /// S2AP of stage 2.
    S2ap = 9,
    /// XN of stage 2.
    Stage2Xn = 10,
    /// Stage 1's descriptor is not valid.
    Stage1Translation = 11,
    /// Stage 1's Access flag is clear.
    Stage1AccessFlag = 12,
    /// Stage 2's descriptor is not valid.
    Stage2Translation = 13,
    /// Stage 2's Access flag is clear.
    Stage2AccessFlag = 14,
}

impl Cause {
    /// Every cause, by number.
    pub const ALL: &'static [Cause] = &[
        Cause::ApOrBaseCode,
        Cause::ApTable,
        Cause::PxnOrUxn,
        Cause::PxnTableOrUxnTable,
        Cause::UnprivilegedWrite,
        Cause::Wxn,
        Cause::Pan,
        Cause::Overlay,
        Cause::S2ap,
        Cause::Stage2Xn,
        Cause::Stage1Translation,
        Cause::Stage1AccessFlag,
        Cause::Stage2Translation,
        Cause::Stage2AccessFlag,
    ];

    /// The cause of a value, if there is one. 0 is no cause.
    pub fn new(value: u8) -> Option<Self> {
        let place = usize::from(value).checked_sub(1)?;
        Cause::ALL.get(place).copied()
    }

    /// The stage that takes the right away.
    pub fn stage(self) -> Stage {
        match self {
            Cause::ApOrBaseCode
            | Cause::ApTable
            | Cause::PxnOrUxn
            | Cause::PxnTableOrUxnTable
            | Cause::UnprivilegedWrite
            | Cause::Wxn
            | Cause::Pan
            | Cause::Overlay
            | Cause::Stage1Translation
            | Cause::Stage1AccessFlag => Stage::One,
            Cause::S2ap | Cause::Stage2Xn | Cause::Stage2Translation | Cause::Stage2AccessFlag => {
                Stage::Two
            }
        }
    }

    /// The kind of the fault that an access with this cause takes.
    pub fn kind(self) -> Kind {
        match self {
            Cause::Stage1Translation | Cause::Stage2Translation => Kind::Translation,
            Cause::Stage1AccessFlag | Cause::Stage2AccessFlag => Kind::AccessFlag,
            Cause::Overlay => Kind::Overlay,
            Cause::ApOrBaseCode
            | Cause::ApTable
            | Cause::PxnOrUxn
            | Cause::PxnTableOrUxnTable
            | Cause::UnprivilegedWrite
            | Cause::Wxn
            | Cause::Pan
            | Cause::S2ap
            | Cause::Stage2Xn => Kind::Permission,
        }
    }

    /// The words for a place that says the stage.
    fn name(self) -> &'static str {
        match self {
            Cause::ApOrBaseCode => "AP or base code",
            Cause::ApTable => "APTable",
            Cause::PxnOrUxn => "PXN or UXN",
            Cause::PxnTableOrUxnTable => "PXNTable or UXNTable",
            Cause::UnprivilegedWrite => "unprivileged write",
            Cause::Wxn => "WXN",
            Cause::Pan => "PAN",
            Cause::Overlay => "overlay",
            Cause::S2ap => "S2AP",
            Cause::Stage2Xn => "XN",
            Cause::Stage1Translation | Cause::Stage2Translation => "Translation fault",
            Cause::Stage1AccessFlag | Cause::Stage2AccessFlag => "Access flag fault",
        }
    }
}

impl fmt::Display for Cause {
    /// The words of request A1.
    fn fmt(&self, f: &mut fmt::Formatter<'_>) -> fmt::Result {
        match self {
            Cause::Stage1Translation | Cause::Stage1AccessFlag => f.write_str("stage 1's ")?,
            Cause::S2ap | Cause::Stage2Xn | Cause::Stage2Translation | Cause::Stage2AccessFlag => {
                f.write_str("stage 2's ")?
            }
            _ => {}
        }
        f.write_str(self.name())
    }
}

/// A refusal: no answer is given, and nothing is allowed.
#[derive(Clone, Copy, Debug, PartialEq, Eq, Hash)]
#[non_exhaustive]
pub struct Refusal {
    /// Why.
    pub number: Number,
    /// Index of the leaf at fault, where a list or a plan is refused for a leaf (5 to 10).
    pub leaf: Option<u16>,
}

impl fmt::Display for Refusal {
    fn fmt(&self, f: &mut fmt::Formatter<'_>) -> fmt::Result {
        write!(f, "refused {}", self.number as u8)?;
        if let Some(leaf) = self.leaf {
            write!(f, " leaf {leaf}")?;
        }
        write!(f, ": {}", self.number)
    }
}

impl core::error::Error for Refusal {}

/// Why a call is refused: 'Numbers for no' of document 01. Its value is the number.
#[derive(Clone, Copy, Debug, PartialEq, Eq, Hash)]
#[non_exhaustive]
#[repr(u8)]
pub enum Number {
    /// A control bit above 12 is set.
    ControlBit = 1,
    /// Two levels clear with stage 2, unprivileged overlay or PAN set; or DC with stage 1 on or
    /// stage 2 off.
    ControlMix = 2,
    /// Stage 1 on, WXN or PAN set, and Indirect or an overlay set.
    WxnOrPan = 3,
    /// Access above 5, or above 2 with one level; planner level above 1.
    AccessOrLevel = 4,
    /// Limits above 15 or forbidden above 63.
    LimitsOrForbidden = 5,
    /// A base or overlay code reached is reserved.
    ReservedCode = 6,
    /// A permission form not judged yet.
    PermissionForm = 7,
    /// A memory attribute code reached is reserved or needs an extension.
    MemoryAttribute = 8,
    /// SH is 01 in a stage that is on.
    ShareabilityCode = 9,
    /// No overlay separates.
    NoOverlaySeparates = 10,
    /// List not a multiple of 18 bytes, over 2,048 leaves, or output shorter than the leaf count, or
    /// causes shorter than six times the leaf count.
    ListLength = 11,
    /// Planning where stage 1 or that level's overlay is off.
    OverlayOff = 12,
    /// The file is ill-formed, or a setup or single leaf handed over is not 52 or 18 bytes.
    IllFormed = 13,
}

impl Number {
    /// The number of a value, if there is one.
    pub fn new(value: u8) -> Option<Self> {
        Some(match value {
            1 => Number::ControlBit,
            2 => Number::ControlMix,
            3 => Number::WxnOrPan,
            4 => Number::AccessOrLevel,
            5 => Number::LimitsOrForbidden,
            6 => Number::ReservedCode,
            7 => Number::PermissionForm,
            8 => Number::MemoryAttribute,
            9 => Number::ShareabilityCode,
            10 => Number::NoOverlaySeparates,
            11 => Number::ListLength,
            12 => Number::OverlayOff,
            13 => Number::IllFormed,
            _ => return None,
        })
    }

    /// Whether a refusal of a list or a plan with this number is for one leaf.
    pub fn is_of_a_leaf(self) -> bool {
        (5..=10).contains(&(self as u8))
    }
}

impl fmt::Display for Number {
    /// The words of document 01.
    fn fmt(&self, f: &mut fmt::Formatter<'_>) -> fmt::Result {
        f.write_str(match self {
            Number::ControlBit => "a control bit above 12 is set",
            Number::ControlMix => {
                "two levels clear with stage 2, unprivileged overlay or PAN set; \
                 or DC with stage 1 on or stage 2 off"
            }
            Number::WxnOrPan => "stage 1 on, WXN or PAN set, and Indirect or an overlay set",
            Number::AccessOrLevel => {
                "access above 5, or above 2 with one level; planner level above 1"
            }
            Number::LimitsOrForbidden => "limits above 15 or forbidden above 63",
            Number::ReservedCode => "a base or overlay code reached is reserved",
            Number::PermissionForm => "a permission form not judged yet",
            Number::MemoryAttribute => {
                "a memory attribute code reached is reserved or needs an extension"
            }
            Number::ShareabilityCode => "SH is 01 in a stage that is on",
            Number::NoOverlaySeparates => "no overlay separates",
            Number::ListLength => {
                "list not a multiple of 18 bytes, over 2,048 leaves, \
                 or output shorter than the leaf count, \
                 or causes shorter than six times the leaf count"
            }
            Number::OverlayOff => "planning where stage 1 or that level's overlay is off",
            Number::IllFormed => {
                "the file is ill-formed, or a setup or single leaf handed over \
                 is not 52 or 18 bytes"
            }
        })
    }
}
