//! What a list answers.

use crate::{Access, Cause, CAUSE_BYTES};

/// The answer of a list: the rights of its leaves and the causes of those that are missing, in the
/// buffers that the list was lent.
#[derive(Clone, Copy, Debug, PartialEq, Eq)]
pub struct Listed<'a> {
    rights: &'a [u8],
    causes: &'a [[u8; CAUSE_BYTES]],
}

impl<'a> Listed<'a> {
    /// An answer of as many rights bytes as there are leaves' causes.
    pub(crate) fn new(rights: &'a [u8], causes: &'a [[u8; CAUSE_BYTES]]) -> Self {
        Listed { rights, causes }
    }

    /// The number of leaves.
    pub fn len(&self) -> usize {
        self.rights.len()
    }

    /// Whether the list has no leaf.
    pub fn is_empty(&self) -> bool {
        self.rights.is_empty()
    }

    /// The rights byte of each leaf.
    pub fn rights(&self) -> &'a [u8] {
        self.rights
    }

    /// The cause bytes of each leaf, by access number.
    pub fn causes(&self) -> &'a [[u8; CAUSE_BYTES]] {
        self.causes
    }

    /// The leaf at an index, if the list has one there.
    pub fn get(&self, leaf: usize) -> Option<ListedLeaf> {
        let (&rights, &causes) = (self.rights.get(leaf)?, self.causes.get(leaf)?);
        Some(ListedLeaf { rights, causes })
    }

    /// The leaves in order.
    pub fn iter(&self) -> impl ExactSizeIterator<Item = ListedLeaf> + 'a {
        let leaf = |(&rights, &causes)| ListedLeaf { rights, causes };
        self.rights.iter().zip(self.causes).map(leaf)
    }
}

/// One leaf in the answer of a list.
#[derive(Clone, Copy, Debug, PartialEq, Eq, Hash)]
pub struct ListedLeaf {
    rights: u8,
    causes: [u8; CAUSE_BYTES],
}

impl ListedLeaf {
    /// The rights byte: the bit of each access that is allowed.
    pub fn rights(self) -> u8 {
        self.rights
    }

    /// Whether an access is allowed.
    pub fn allows(self, access: Access) -> bool {
        self.rights >> access as u8 & 1 == 1
    }

    /// What took the right of an access away. None where the access is allowed, and none for the
    /// unprivileged accesses with one level, which are not judged.
    pub fn cause(self, access: Access) -> Option<Cause> {
        match self.causes[access as usize] {
            0 => None,
            value => Some(Cause::new(value).unwrap_or_else(|| outside(value))),
        }
    }
}

/// The exported list is proved to write no other numbers than those of causes.
#[cold]
fn outside(value: u8) -> ! {
    panic!("cause {value} is outside the packing: libsonsiplex.a does not fit this crate")
}

#[cfg(test)]
mod tests {
    use super::*;

    #[test]
    fn causes_by_leaf_and_access() {
        let rights = [0b11_1011, 0];
        let causes = [[0, 0, 5, 0, 0, 0], [11; 6]];
        let listed = Listed::new(&rights, &causes);
        assert_eq!((listed.len(), listed.is_empty()), (2, false));
        let first = listed.get(0).unwrap();
        assert_eq!(first.rights(), 59);
        for access in Access::ALL {
            let taken = access == Access::PrivilegedExecute;
            assert_eq!(first.allows(access), !taken);
            let cause = taken.then_some(Cause::UnprivilegedWrite);
            assert_eq!(first.cause(access), cause);
            let second = listed.get(1).unwrap();
            assert_eq!(second.cause(access), Some(Cause::Stage1Translation));
        }
        assert_eq!(listed.get(2), None);
        assert!(listed
            .iter()
            .eq([0, 1].map(|leaf| listed.get(leaf).unwrap())));
        assert_eq!(listed.iter().len(), 2);
    }

    #[test]
    #[should_panic(expected = "outside the packing")]
    fn a_cause_outside_the_packing() {
        let listed = Listed::new(&[0], &[[15, 0, 0, 0, 0, 0]]);
        let _ = listed.get(0).unwrap().cause(Access::PrivilegedRead);
    }
}
