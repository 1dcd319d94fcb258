//! Sequences that grow.
use crate::alloc::{AllocError, AllocFailed, Allocator, Global};
use ::std::io;
use ::std::marker::PhantomData;
use ::std::ops::{Deref, DerefMut, RangeBounds};
use ::std::vec::{Drain, IntoIter};

/// A sequence that grows. What takes no memory comes from slices. Its allocator is Rust's, whatever the type names.
#[derive(Debug, PartialEq, Eq, PartialOrd, Ord, Hash)]
pub struct Vec<T, A = Global>(::std::vec::Vec<T>, PhantomData<A>);

impl<T, A: Allocator> Vec<T, A> {
    /// An empty sequence.
    pub const fn new(_alloc: A) -> Self {
        Vec(::std::vec::Vec::new(), PhantomData)
    }

    /// An empty sequence with room for this many.
    pub fn with_capacity(alloc: A, capacity: usize) -> Result<Self, AllocError> {
        let mut made = Vec::new(alloc);
        made.try_reserve_exact(capacity)?;
        Ok(made)
    }

    /// How many values there is room for.
    pub fn capacity(&self) -> usize {
        self.0.capacity()
    }

    /// The values of an array.
    pub fn from_array<const N: usize>(alloc: A, items: [T; N]) -> Result<Self, AllocError> {
        let mut made = Vec::with_capacity(alloc, N)?;
        made.0.extend(items);
        Ok(made)
    }

    /// Rust's own sequence.
    pub(crate) fn into_inner(self) -> ::std::vec::Vec<T> {
        self.0
    }

    /// Makes room for so many more, and perhaps for further ones.
    pub fn reserve(&mut self, more: usize) -> Result<(), AllocError> {
        Ok(self.0.try_reserve(more)?)
    }

    /// Makes room for so many more.
    pub fn try_reserve_exact(&mut self, more: usize) -> Result<(), AllocError> {
        Ok(self.0.try_reserve_exact(more)?)
    }

    /// Adds a value at the end.
    pub fn push(&mut self, value: T) -> Result<(), AllocFailed<T>> {
        if self.0.len() == self.0.capacity() && self.0.try_reserve(1).is_err() {
            return Err(AllocFailed { value });
        }
        self.0.push(value);
        Ok(())
    }

    /// Adds a value at a place.
    pub fn insert(&mut self, at: usize, value: T) -> Result<(), AllocFailed<T>> {
        if self.0.try_reserve(1).is_err() {
            return Err(AllocFailed { value });
        }
        self.0.insert(at, value);
        Ok(())
    }

    /// Takes the value at a place away.
    pub fn remove(&mut self, at: usize) -> T {
        self.0.remove(at)
    }

    /// Takes the last value away.
    pub fn pop(&mut self) -> Option<T> {
        self.0.pop()
    }

    /// Takes all values away but the first so many.
    pub fn truncate(&mut self, count: usize) {
        self.0.truncate(count);
    }

    /// Takes all values away.
    pub fn clear(&mut self) {
        self.0.clear();
    }

    /// Takes the values of a range away, and gives them.
    pub fn drain(&mut self, range: impl RangeBounds<usize>) -> Drain<'_, T> {
        self.0.drain(range)
    }

    /// Takes the values from a place on away, and gives them.
    pub fn split_off(&mut self, at: usize) -> Result<Self, AllocError> {
        let mut rest = ::std::vec::Vec::new();
        rest.try_reserve_exact(self.0.len() - at)?;
        rest.extend(self.0.drain(at..));
        Ok(Vec(rest, PhantomData))
    }

    /// Takes all values of another.
    pub fn append(&mut self, other: &mut Self) -> Result<(), AllocError> {
        self.0.try_reserve(other.0.len())?;
        self.0.append(&mut other.0);
        Ok(())
    }

    /// Its values.
    pub fn as_slice(&self) -> &[T] {
        &self.0
    }

    /// Its values, to be changed.
    pub fn as_mut_slice(&mut self) -> &mut [T] {
        &mut self.0
    }
}

impl<T: Clone, A: Allocator> Vec<T, A> {
    /// One value so many times.
    pub fn from_elem(alloc: A, value: T, count: usize) -> Result<Self, AllocError> {
        let mut made = Vec::with_capacity(alloc, count)?;
        made.0.resize(count, value);
        Ok(made)
    }

    /// Has so many values from here on: it adds copies of this one, or takes the last away.
    pub fn resize(&mut self, count: usize, value: T) -> Result<(), AllocError> {
        self.0.try_reserve(count.saturating_sub(self.0.len()))?;
        self.0.resize(count, value);
        Ok(())
    }
}

impl<T: Copy, A: Allocator> Vec<T, A> {
    /// The values of a slice.
    pub fn from_slice(alloc: A, items: &[T]) -> Result<Self, AllocError> {
        let mut made = Vec::with_capacity(alloc, items.len())?;
        made.0.extend_from_slice(items);
        Ok(made)
    }

    /// Adds the values of a slice.
    pub fn extend_from_slice(&mut self, items: &[T]) -> Result<(), AllocError> {
        self.0.try_reserve(items.len())?;
        self.0.extend_from_slice(items);
        Ok(())
    }

    /// A copy.
    #[allow(clippy::should_implement_trait)]
    pub fn clone(&self) -> Result<Self, AllocError> {
        let mut made = ::std::vec::Vec::new();
        made.try_reserve_exact(self.0.len())?;
        made.extend_from_slice(&self.0);
        Ok(Vec(made, PhantomData))
    }
}

impl<T, A> Deref for Vec<T, A> {
    type Target = [T];

    fn deref(&self) -> &[T] {
        &self.0
    }
}

impl<T, A> DerefMut for Vec<T, A> {
    fn deref_mut(&mut self) -> &mut [T] {
        &mut self.0
    }
}

impl<T, A> IntoIterator for Vec<T, A> {
    type Item = T;
    type IntoIter = IntoIter<T>;

    fn into_iter(self) -> IntoIter<T> {
        self.0.into_iter()
    }
}

impl<'a, T, A> IntoIterator for &'a Vec<T, A> {
    type Item = &'a T;
    type IntoIter = ::std::slice::Iter<'a, T>;

    fn into_iter(self) -> Self::IntoIter {
        self.0.iter()
    }
}

impl<'a, T, A> IntoIterator for &'a mut Vec<T, A> {
    type Item = &'a mut T;
    type IntoIter = ::std::slice::IterMut<'a, T>;

    fn into_iter(self) -> Self::IntoIter {
        self.0.iter_mut()
    }
}

impl io::Write for Vec<u8> {
    fn write(&mut self, bytes: &[u8]) -> io::Result<usize> {
        self.extend_from_slice(bytes)?;
        Ok(bytes.len())
    }

    fn flush(&mut self) -> io::Result<()> {
        Ok(())
    }
}

/// The methods of slices that take memory.
pub trait SliceForms<T> {
    /// The kit's `to_vec`, which is given an allocator.
    fn to_vec_by(&self, alloc: Global) -> Result<Vec<T>, AllocError>;
}

impl<T: Copy> SliceForms<T> for [T] {
    fn to_vec_by(&self, alloc: Global) -> Result<Vec<T>, AllocError> {
        Vec::from_slice(alloc, self)
    }
}
