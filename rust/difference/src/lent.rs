//! Buffers that a list is lent.

use numbers::Numbers;

/// Bytes before and after a buffer that no call may change.
const MARGIN: usize = 32;

/// A buffer between margins.
#[derive(Clone, Debug, PartialEq, Eq)]
pub struct Lent(Vec<u8>);

impl Lent {
    /// A buffer of this length with random bytes, in the margins too.
    pub fn random(numbers: &mut Numbers, length: usize) -> Self {
        let bytes = (0..length + 2 * MARGIN).map(|_| numbers.next() as u8);
        Lent(bytes.collect())
    }

    /// A buffer of this length with one byte in every place, in the margins too.
    pub fn filled(byte: u8, length: usize) -> Self {
        Lent(vec![byte; length + 2 * MARGIN])
    }

    /// The buffer, to lend.
    pub fn lend(&mut self) -> &mut [u8] {
        let end = self.0.len() - MARGIN;
        &mut self.0[MARGIN..end]
    }

    /// What the buffer holds.
    pub fn content(&self) -> &[u8] {
        &self.0[MARGIN..self.0.len() - MARGIN]
    }

    /// Whether this is `before` but for the first `written` bytes of the buffer.
    pub fn kept(&self, before: &Lent, written: usize) -> bool {
        let after = MARGIN + written;
        self.0.len() == before.0.len()
            && self.0[..MARGIN] == before.0[..MARGIN]
            && self.0[after..] == before.0[after..]
    }

    /// Buffer and margins.
    pub fn bytes(&self) -> &[u8] {
        &self.0
    }
}
