//! Bits of a descriptor brought together by one multiplication, as a place in a table.

/// Some bits of a descriptor, and the factor that brings them to the top of a word.
pub(crate) struct Gather<const BITS: usize> {
    mask: u64,
    factor: u64,
}

impl<const BITS: usize> Gather<BITS> {
    /// The bits at `positions`, the lowest bit of a place first. Does not compile with a factor that
    /// fails to bring them together.
    const fn new(positions: &[u32; BITS], factor: u64) -> Self {
        let gather = Gather {
            mask: spread(positions, !0),
            factor,
        };
        let mut place = 0;
        while place < 1 << BITS {
            assert!(gather.place(spread(positions, place)) == place);
            place += 1;
        }
        gather
    }

    /// The bits of a descriptor as a place below `1 << BITS`.
    #[inline(always)]
    pub(crate) const fn place(&self, descriptor: u64) -> usize {
        ((descriptor & self.mask).wrapping_mul(self.factor) >> (64 - BITS)) as usize
    }
}

/// The descriptor that has the bits of a place at `positions`, and no others.
const fn spread(positions: &[u32], place: usize) -> u64 {
    let mut descriptor = 0;
    let mut bit = 0;
    while bit < positions.len() {
        descriptor |= (place as u64 >> bit & 1) << positions[bit];
        bit += 1;
    }
    descriptor
}

/// AP, S2AP or bit 6 of PIIndex and dirty state; valid; bit 51; AF; PXN and UXN, or XN.
const PERMISSION_BITS: [u32; 7] = [6, 7, 0, 51, 10, 53, 54];
/// How many forms these bits have.
pub(crate) const FORMS: usize = 1 << PERMISSION_BITS.len();

/// What either stage reads of a descriptor before its memory.
pub(crate) const PERMISSIONS: Gather<7> = Gather::new(&PERMISSION_BITS, 1 << 9 | 1 << 51 | 1 << 59);

/// The descriptor of a place of [`PERMISSIONS`].
pub(crate) const fn form(place: usize) -> u64 {
    spread(&PERMISSION_BITS, place)
}

/// What stage 1 reads of a descriptor for its memory: AttrIndx[2:0] in bits 2:0 of a place, SH in
/// bits 4:3, AttrIndx[3] in bit 5.
pub(crate) const MEMORY: Gather<6> = Gather::new(&[2, 3, 4, 8, 9, 59], 1 << 56 | 1 << 53 | 1 << 4);
