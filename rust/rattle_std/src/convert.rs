//! What can be seen as a slice.
use crate::string::String;
use crate::vec::Vec;

/// A value that can be seen as a slice.
pub trait AsSlice<T> {
    /// Its slice.
    fn as_slice(&self) -> &[T];
}

impl<T> AsSlice<T> for &[T] {
    fn as_slice(&self) -> &[T] {
        self
    }
}

impl<T, const N: usize> AsSlice<T> for [T; N] {
    fn as_slice(&self) -> &[T] {
        self
    }
}

impl<T, const N: usize> AsSlice<T> for &[T; N] {
    fn as_slice(&self) -> &[T] {
        *self
    }
}

impl<T, A> AsSlice<T> for Vec<T, A> {
    fn as_slice(&self) -> &[T] {
        self
    }
}

impl<T, A> AsSlice<T> for &Vec<T, A> {
    fn as_slice(&self) -> &[T] {
        self
    }
}

impl AsSlice<u8> for &str {
    fn as_slice(&self) -> &[u8] {
        self.as_bytes()
    }
}

impl<A> AsSlice<u8> for String<A> {
    fn as_slice(&self) -> &[u8] {
        self.as_bytes()
    }
}
