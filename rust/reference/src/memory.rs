//! Memory type and shareability ('Memory type and shareability').

use crate::records::{control, Leaf, Setup, Stage1Descriptor, Stage2Descriptor};
use crate::rights::Access;
use crate::Stop;

/// Memory type and shareability of an allowed access.
#[derive(Clone, Copy, Debug, PartialEq, Eq)]
pub struct Memory {
    /// The type as a MAIR byte, outer nibble high.
    pub byte: u8,
    /// Shareability: 0 none, 2 outer, 3 inner.
    pub shareability: u8,
}

/// SH of both stages' Device and Non-cacheable memory.
const OUTER: u8 = 2;
const NON_CACHEABLE: u8 = 0x44;

/// 8 at stage 1, 8 at stage 2, 9, then the combined memory.
pub(crate) fn memory(setup: &Setup, leaf: &Leaf, access: Access) -> Result<Memory, Stop> {
    let first = stage1_memory(setup, leaf.stage1, access)?;
    if !setup.has(control::STAGE2) {
        check_shareability(setup, leaf)?;
        return Ok(normalised(first.byte, first.shareability));
    }
    let second = Stage2Type::decode(setup.has(control::FWB), leaf.stage2.mem_attr())
        .ok_or(Stop::Refused(8))?;
    check_shareability(setup, leaf)?;
    let shareability = stronger(
        normalised(first.byte, first.shareability).shareability,
        second.shareability(leaf.stage2),
    );
    Ok(normalised(second.combine(first.byte), shareability))
}

/// Stage 1's byte and the SH that comes with it.
fn stage1_memory(
    setup: &Setup,
    descriptor: Stage1Descriptor,
    access: Access,
) -> Result<Memory, Stop> {
    if !setup.has(control::STAGE1) {
        return Ok(stage1_off(setup, access));
    }
    let byte = mair_byte(setup, descriptor);
    if !byte_is_known(byte) {
        return Err(Stop::Refused(8));
    }
    Ok(Memory {
        byte,
        shareability: descriptor.shareability(),
    })
}

fn stage1_off(setup: &Setup, access: Access) -> Memory {
    let (byte, shareability) = if setup.has(control::DC) {
        (0xFF, 0)
    } else if !access.is_fetch() {
        (0x00, OUTER)
    } else if setup.has(control::INSTRUCTION_CACHEABLE) {
        (0xAA, OUTER)
    } else {
        (NON_CACHEABLE, OUTER)
    };
    Memory { byte, shareability }
}

fn mair_byte(setup: &Setup, descriptor: Stage1Descriptor) -> u8 {
    let high = descriptor.attribute_high() == 1 && setup.has(control::AIE);
    let mair = setup.mair[usize::from(high)];
    mair.to_le_bytes()[usize::from(descriptor.attribute_low())]
}

/// 00, 04, 08 and 0C.
fn is_device(byte: u8) -> bool {
    byte & 0xF3 == 0
}

/// A Device, or both nibbles non-zero.
pub(crate) fn byte_is_known(byte: u8) -> bool {
    is_device(byte) || (byte >> 4 != 0 && byte & 15 != 0)
}

/// Whether the stage 2 code has a type (8 where it has none).
pub(crate) fn mem_attr_is_known(fwb: bool, code: u8) -> bool {
    Stage2Type::decode(fwb, code).is_some()
}

/// 9.
fn check_shareability(setup: &Setup, leaf: &Leaf) -> Result<(), Stop> {
    let first = setup.has(control::STAGE1) && leaf.stage1.shareability() == 1;
    let second = setup.has(control::STAGE2) && leaf.stage2.shareability() == 1;
    if first || second {
        return Err(Stop::Refused(9));
    }
    Ok(())
}

/// The memory with SH 2 where its type is a Device or 44.
fn normalised(byte: u8, shareability: u8) -> Memory {
    let fixed = is_device(byte) || byte == NON_CACHEABLE;
    Memory {
        byte,
        shareability: if fixed { OUTER } else { shareability },
    }
}

/// The stronger of two SH: outer, inner, none.
fn stronger(a: u8, b: u8) -> u8 {
    let strength = |sh| match sh {
        2 => 2,
        3 => 1,
        _ => 0,
    };
    if strength(a) >= strength(b) {
        a
    } else {
        b
    }
}

/// Cacheability of one level, weakest first.
#[derive(Clone, Copy, PartialEq, Eq, PartialOrd, Ord)]
enum Cacheability {
    NonCacheable,
    WriteThrough,
    WriteBack,
}

use Cacheability::{NonCacheable, WriteBack, WriteThrough};

impl Cacheability {
    /// Of a non-zero nibble of a MAIR byte.
    fn of_nibble(nibble: u8) -> Self {
        match nibble {
            4 => NonCacheable,
            1..=3 | 8..=11 => WriteThrough,
            _ => WriteBack,
        }
    }

    /// Of two bits of MemAttr with FWB clear, which are not 0.
    fn of_code(code: u8) -> Self {
        match code {
            1 => NonCacheable,
            2 => WriteThrough,
            _ => WriteBack,
        }
    }
}

/// What stage 2's MemAttr asks for.
#[derive(Clone, Copy)]
enum Stage2Type {
    /// A Device, as its MAIR byte.
    Device(u8),
    /// FWB clear: Normal, with its outer and inner cacheability.
    Normal(Cacheability, Cacheability),
    /// FWB 5: a Device stays, Normal becomes 44.
    AtMostNonCacheable,
    /// FWB 6: Write-Back at both levels.
    ForceWriteBack,
    /// FWB 7: stage 1's type.
    Keep,
}

impl Stage2Type {
    /// The type of a MemAttr code, none where it gives 8.
    fn decode(fwb: bool, code: u8) -> Option<Self> {
        match (fwb, code) {
            (_, 0..=3) => Some(Self::Device(code << 2)),
            (false, 4 | 8 | 12) => None,
            (false, _) => Some(Self::Normal(
                Cacheability::of_code(code >> 2),
                Cacheability::of_code(code & 3),
            )),
            (true, 5) => Some(Self::AtMostNonCacheable),
            (true, 6) => Some(Self::ForceWriteBack),
            (true, 7) => Some(Self::Keep),
            (true, _) => None,
        }
    }

    /// Stage 2's SH: 2 where its own type is a Device or 44.
    fn shareability(self, descriptor: Stage2Descriptor) -> u8 {
        match self {
            Self::Device(_)
            | Self::AtMostNonCacheable
            | Self::Normal(NonCacheable, NonCacheable) => OUTER,
            _ => descriptor.shareability(),
        }
    }

    /// The byte of both stages, from stage 1's.
    fn combine(self, first: u8) -> u8 {
        match self {
            Self::Device(second) if is_device(first) => first.min(second),
            Self::Device(second) => second,
            Self::ForceWriteBack if is_device(first) => 0xFF,
            Self::ForceWriteBack => both(forced(first >> 4), forced(first & 15)),
            _ if is_device(first) => first,
            Self::Normal(outer, inner) => {
                both(weaker(first >> 4, outer), weaker(first & 15, inner))
            }
            Self::AtMostNonCacheable => NON_CACHEABLE,
            Self::Keep => first,
        }
    }
}

fn both(outer: u8, inner: u8) -> u8 {
    outer << 4 | inner
}

/// The nibble of the weaker of stage 1's nibble and stage 2's cacheability, with stage 1's hints.
fn weaker(nibble: u8, second: Cacheability) -> u8 {
    match second.min(Cacheability::of_nibble(nibble)) {
        NonCacheable => 4,
        // Bit 2 tells Write-Back from Write-Through, in the transient codes too.
        WriteThrough => nibble & !4,
        WriteBack => nibble,
    }
}

/// The nibble made Write-Back, with stage 1's hints where it has them.
fn forced(nibble: u8) -> u8 {
    if Cacheability::of_nibble(nibble) == NonCacheable {
        15
    } else {
        nibble | 4
    }
}
