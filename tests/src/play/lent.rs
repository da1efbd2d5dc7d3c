//! Buffers that are lent to a call.

/// What stands in output buffers before a call, and around every lent buffer.
const BEFORE: u8 = 0xEE;
/// Odd, so that no lent buffer is aligned.
const GUARD: usize = 7;

/// A lent buffer with guard bytes before and after it that nobody may touch.
#[derive(Clone, PartialEq, Eq)]
pub struct Lent(Vec<u8>);

impl Lent {
    pub(super) fn none() -> Self {
        Lent(Vec::new())
    }

    pub(super) fn holding(bytes: &[u8]) -> Self {
        let mut all = Vec::with_capacity(bytes.len() + 2 * GUARD);
        all.extend_from_slice(&[BEFORE; GUARD]);
        all.extend_from_slice(bytes);
        all.extend_from_slice(&[BEFORE; GUARD]);
        Lent(all)
    }

    pub(super) fn of_length(length: usize) -> Self {
        Lent(vec![BEFORE; length + 2 * GUARD])
    }

    pub(super) fn buffer(&mut self) -> &mut [u8] {
        let end = self.0.len() - GUARD;
        &mut self.0[GUARD..end]
    }

    /// The lent bytes, without the guards; none if nothing was lent.
    pub fn bytes(&self) -> &[u8] {
        self.0.get(GUARD..self.0.len().saturating_sub(GUARD)).unwrap_or(&[])
    }

    pub(super) fn guards(&self) -> (&[u8], &[u8]) {
        (&self.0[..GUARD], &self.0[self.0.len() - GUARD..])
    }

    /// Where two lent buffers hold different bytes, guards included: the
    /// index in the lent bytes, and both bytes.
    pub(super) fn differences<'a>(
        &'a self,
        other: &'a Lent,
    ) -> impl Iterator<Item = (isize, u8, u8)> + 'a {
        let pairs = self.0.iter().zip(&other.0).enumerate();
        pairs
            .filter(|(_, (a, b))| a != b)
            .map(|(index, (&a, &b))| (index as isize - GUARD as isize, a, b))
    }
}
