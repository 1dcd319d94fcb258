//! Traits without a method, or with one that the kit has and Rust has not.
use crate::alloc::AllocError;

pub use ::std::marker::PhantomData;

/// How a contract sees a type: nothing is left of it.
pub trait Model {}

/// The kit's `Clone` by hand, which may fail.
pub trait TryClone: Sized {
    /// A copy.
    fn clone(&self) -> Result<Self, AllocError>;
}

/// That a value may be dropped: in Rust each may.
pub trait Drop: Sized {}

impl<T> Drop for T {}
