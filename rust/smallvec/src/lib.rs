//! Sequences that take no memory while they are short: of the kit's `smallvec`, what the sources of Ropepeach use.
use rattle_std::alloc::{AllocError, Global};
use rattle_std::vec::Vec;
use std::ops::Deref;

#[derive(Debug)]
enum Held<T, const N: usize> {
    Inline([T; N], usize),
    Allocated(Vec<T>),
}

/// A sequence whose first `N` values lie in itself.
#[derive(Debug)]
pub struct SmallVec<T, const N: usize>(Held<T, N>);

impl<T: Copy + Default, const N: usize> SmallVec<T, N> {
    /// An empty sequence.
    pub fn new(_alloc: Global) -> Self {
        SmallVec(Held::Inline([T::default(); N], 0))
    }

    /// The values of a slice.
    pub fn from_slice(alloc: Global, items: &[T]) -> Result<Self, AllocError> {
        if items.len() > N {
            return Ok(SmallVec(Held::Allocated(Vec::from_slice(alloc, items)?)));
        }
        let mut made = Self::new(alloc);
        made.extend_from_slice(items)?;
        Ok(made)
    }

    /// The values.
    pub fn as_slice(&self) -> &[T] {
        match &self.0 {
            Held::Inline(items, count) => &items[..*count],
            Held::Allocated(items) => items,
        }
    }

    /// Takes all values away. Memory that was taken stays.
    pub fn clear(&mut self) {
        match &mut self.0 {
            Held::Inline(_, count) => *count = 0,
            Held::Allocated(items) => items.clear(),
        }
    }

    /// Adds the values of a slice.
    pub fn extend_from_slice(&mut self, more: &[T]) -> Result<(), AllocError> {
        match &mut self.0 {
            Held::Inline(items, count) if more.len() <= N - *count => {
                items[*count..*count + more.len()].copy_from_slice(more);
                *count += more.len();
                Ok(())
            }
            Held::Inline(items, count) => {
                let mut moved = Vec::new(Global);
                moved.reserve(*count + more.len())?;
                moved.extend_from_slice(&items[..*count])?;
                moved.extend_from_slice(more)?;
                self.0 = Held::Allocated(moved);
                Ok(())
            }
            Held::Allocated(items) => items.extend_from_slice(more),
        }
    }
}

impl<T: Copy + Default, const N: usize> Deref for SmallVec<T, N> {
    type Target = [T];

    fn deref(&self) -> &[T] {
        self.as_slice()
    }
}

#[cfg(test)]
mod tests {
    use super::*;

    #[test]
    fn grows_past_its_own_room() {
        for count in 0..40u8 {
            let bytes: [u8; 40] = std::array::from_fn(|i| i as u8);
            let whole = &bytes[..usize::from(count)];
            let mut made = SmallVec::<u8, 9>::new(Global);
            for piece in whole.chunks(4) {
                made.extend_from_slice(piece).unwrap();
            }
            assert_eq!(made.as_slice(), whole);
            assert_eq!(SmallVec::<u8, 9>::from_slice(Global, whole).unwrap().as_slice(), whole);
            made.clear();
            assert!(made.is_empty());
            made.extend_from_slice(b"again").unwrap();
            assert_eq!(made.as_slice(), b"again");
        }
    }
}
