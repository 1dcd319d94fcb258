//! A value with several owners, for which memory may be refused. Rust's stable `Rc` cannot be refused it.
use crate::alloc::{AllocError, AllocFailed, Global};
use ::std::boxed::Box;
use ::std::cell::Cell;
use ::std::fmt;
use ::std::marker::PhantomData;
use ::std::ops::Deref;
use ::std::ptr::NonNull;

struct Counted<T> {
    owners: Cell<usize>,
    value: T,
}

/// An owner of a value that may have more. There are no weak ones.
pub struct Rc<T> {
    // It came from a box of one, and lives while an owner does.
    held: NonNull<[Counted<T>]>,
    owns: PhantomData<Counted<T>>,
}

impl<T> Rc<T> {
    /// The first owner of a value.
    pub fn new(_alloc: Global, value: T) -> Result<Rc<T>, AllocFailed<T>> {
        let mut room = ::std::vec::Vec::new();
        if room.try_reserve_exact(1).is_err() {
            return Err(AllocFailed { value });
        }
        room.push(Counted { owners: Cell::new(1), value });
        // The room is full, so that the box takes no memory of its own.
        let held = NonNull::from(Box::leak(room.into_boxed_slice()));
        Ok(Rc { held, owns: PhantomData })
    }

    fn counted(&self) -> &Counted<T> {
        // SAFETY: the box lives while an owner does, and only shared references to it are given out.
        unsafe { &self.held.as_ref()[0] }
    }

    /// One more owner.
    #[allow(clippy::should_implement_trait)]
    pub fn clone(&self) -> Result<Rc<T>, AllocError> {
        let owners = &self.counted().owners;
        owners.set(owners.get().checked_add(1).ok_or(AllocError)?);
        Ok(Rc { held: self.held, owns: PhantomData })
    }
}

impl<T> Drop for Rc<T> {
    fn drop(&mut self) {
        let owners = &self.counted().owners;
        owners.set(owners.get() - 1);
        if owners.get() == 0 {
            // SAFETY: this was the last owner, and the box was leaked by `new`.
            drop(unsafe { Box::from_raw(self.held.as_ptr()) });
        }
    }
}

impl<T> Deref for Rc<T> {
    type Target = T;

    fn deref(&self) -> &T {
        &self.counted().value
    }
}

impl<T: fmt::Debug> fmt::Debug for Rc<T> {
    fn fmt(&self, f: &mut fmt::Formatter<'_>) -> fmt::Result {
        (**self).fmt(f)
    }
}
