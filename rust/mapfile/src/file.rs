//! Reading of map files.

use reference::{LEAF_BYTES, MOST_LEAVES, SETUP_BYTES};
use std::fmt;

const SETUP_TAG: u8 = 1;
const LEAF_TAG: u8 = 2;
/// Tag and length.
const HEADER_BYTES: usize = 3;

/// A well-formed map file.
#[derive(Clone, Debug, PartialEq, Eq)]
pub struct MapFile {
    /// The setup's bytes.
    pub setup: [u8; SETUP_BYTES],
    /// The leaves' bytes, at most 2,048.
    pub leaves: Vec<[u8; LEAF_BYTES]>,
}

/// What makes a file ill-formed (refusal 13), and where.
#[derive(Clone, Debug, PartialEq, Eq)]
pub struct Damage {
    /// Place of the field at fault, in bytes from the file's start.
    pub place: usize,
    /// What is wrong with it.
    pub what: String,
}

impl fmt::Display for Damage {
    fn fmt(&self, f: &mut fmt::Formatter<'_>) -> fmt::Result {
        write!(f, "refused 13: field at byte {}: {}", self.place, self.what)
    }
}

impl std::error::Error for Damage {}

impl Damage {
    /// Index that a leaf has in the place of the field at fault; none in the setup's place.
    pub fn leaf(&self) -> Option<usize> {
        let after_setup = self.place.checked_sub(HEADER_BYTES + SETUP_BYTES)?;
        Some(after_setup / (HEADER_BYTES + LEAF_BYTES))
    }
}

impl MapFile {
    /// Reads a file: one setup, then up to 2,048 leaves, and nothing else.
    pub fn read(bytes: &[u8]) -> Result<Self, Damage> {
        let mut fields = Fields { bytes, place: 0 };
        let setup = fields.value(SETUP_TAG)?;
        let mut leaves = Vec::new();
        while fields.place < bytes.len() {
            let place = fields.place;
            leaves.push(fields.value(LEAF_TAG)?);
            if leaves.len() > MOST_LEAVES {
                let what = format!("more than {MOST_LEAVES} leaves");
                return Err(Damage { place, what });
            }
        }
        Ok(MapFile { setup, leaves })
    }

    /// The file's bytes.
    pub fn write(&self) -> Vec<u8> {
        let mut bytes = Vec::new();
        push_setup(&mut bytes, &self.setup);
        for leaf in &self.leaves {
            push_leaf(&mut bytes, leaf);
        }
        bytes
    }
}

/// Adds a setup field.
pub(crate) fn push_setup(bytes: &mut Vec<u8>, setup: &[u8; SETUP_BYTES]) {
    bytes.extend([SETUP_TAG, SETUP_BYTES as u8, 0]);
    bytes.extend(setup);
}

/// Adds a leaf field.
pub(crate) fn push_leaf(bytes: &mut Vec<u8>, leaf: &[u8; LEAF_BYTES]) {
    bytes.extend([LEAF_TAG, LEAF_BYTES as u8, 0]);
    bytes.extend(leaf);
}

/// The fields of a file from `place` on.
struct Fields<'a> {
    bytes: &'a [u8],
    place: usize,
}

impl Fields<'_> {
    /// The next field's value, which has the tag and `N` bytes.
    fn value<const N: usize>(&mut self, tag: u8) -> Result<[u8; N], Damage> {
        let rest = &self.bytes[self.place..];
        let damage = |what: String| Damage {
            place: self.place,
            what,
        };
        if rest.is_empty() {
            return Err(damage(format!("none, where tag {tag} is due")));
        }
        let Some((&[found, low, high], rest)) = rest.split_first_chunk::<HEADER_BYTES>() else {
            return Err(damage("cut within its tag and length".into()));
        };
        if found != tag {
            return Err(damage(format!("tag {found}, where tag {tag} is due")));
        }
        let length = usize::from(u16::from_le_bytes([low, high]));
        if length != N {
            return Err(damage(format!(
                "length {length}, where tag {tag} has {N} bytes"
            )));
        }
        let Some(value) = rest.first_chunk::<N>() else {
            return Err(damage(format!("cut after {} of {N} bytes", rest.len())));
        };
        self.place += HEADER_BYTES + N;
        Ok(*value)
    }
}
