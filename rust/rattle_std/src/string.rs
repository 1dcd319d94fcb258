//! Texts that grow.
use crate::alloc::{AllocError, Allocator, Global};
use crate::vec::Vec;
use ::std::fmt;
use ::std::marker::PhantomData;
use ::std::ops::Deref;

/// A text that grows. Its allocator is Rust's, whatever the type names.
#[derive(Debug, PartialEq, Eq, PartialOrd, Ord, Hash)]
pub struct String<A = Global>(::std::string::String, PhantomData<A>);

impl<A: Allocator> String<A> {
    /// An empty text.
    pub fn new(_alloc: A) -> Self {
        String(::std::string::String::new(), PhantomData)
    }

    /// A copy of a text.
    pub fn from_str(alloc: A, text: &str) -> Result<Self, AllocError> {
        let mut made = String::new(alloc);
        made.push_str(text)?;
        Ok(made)
    }

    /// The text of these bytes, which the caller knows to be one. Here it is looked at all the same.
    pub fn from_utf8_unchecked(bytes: Vec<u8, A>) -> Self {
        let text = ::std::string::String::from_utf8(bytes.into_inner());
        String(text.expect("the proofs show that it is a text"), PhantomData)
    }

    /// What `format!` makes.
    pub fn formatted(alloc: A, what: fmt::Arguments<'_>) -> Result<Self, AllocError> {
        let mut made = String::new(alloc);
        made.write_fmt(what)?;
        Ok(made)
    }

    /// Adds a text.
    pub fn push_str(&mut self, text: &str) -> Result<(), AllocError> {
        self.0.try_reserve(text.len())?;
        self.0.push_str(text);
        Ok(())
    }

    /// What `write!` calls: memory alone makes it fail.
    pub fn write_fmt(&mut self, what: fmt::Arguments<'_>) -> Result<(), AllocError> {
        fmt::Write::write_fmt(self, what).map_err(|_| AllocError)
    }

    /// The text.
    pub fn as_str(&self) -> &str {
        &self.0
    }
}

impl<A> Deref for String<A> {
    type Target = str;

    fn deref(&self) -> &str {
        &self.0
    }
}

impl<A> fmt::Display for String<A> {
    fn fmt(&self, f: &mut fmt::Formatter<'_>) -> fmt::Result {
        f.pad(&self.0)
    }
}

impl<A: Allocator> fmt::Write for String<A> {
    fn write_str(&mut self, text: &str) -> fmt::Result {
        self.push_str(text).map_err(|_| fmt::Error)
    }
}

/// The methods of what can be shown that take memory.
pub trait TextForms: fmt::Display {
    /// The kit's `to_string`, which is given an allocator.
    fn to_string_by<A: Allocator>(&self, alloc: A) -> Result<String<A>, AllocError> {
        String::formatted(alloc, ::std::format_args!("{self}"))
    }
}

impl<T: fmt::Display + ?Sized> TextForms for T {}
