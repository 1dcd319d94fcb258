//! Tests.
use crate::process::Abort;
use ::std::fmt;

/// Why a test fails.
pub struct Fail(::std::string::String);

impl Fail {
    /// For this reason.
    pub fn new(why: impl fmt::Display) -> Fail {
        Fail(::std::format!("{why}"))
    }
}

// A conversion from each error leaves no room for a `Debug` of `Fail` itself, so that Rust's own harness cannot take it.
impl<E: fmt::Debug> From<E> for Fail {
    fn from(error: E) -> Fail {
        Fail(::std::format!("error: {error:?}"))
    }
}

/// What a test may answer.
pub trait Ended {
    /// Panics where the test failed.
    fn ended(self);
}

impl Ended for Result<(), Fail> {
    fn ended(self) {
        if let Err(Fail(why)) = self {
            ::std::panic!("{why}");
        }
    }
}

/// The kit's `expect`, which is given a runtime.
pub trait Expect {
    /// What it gives.
    type Value;

    /// The value, or a panic for this reason.
    fn expect_by<R: Abort>(self, rt: &R, why: &str) -> Self::Value;
}

impl<T> Expect for Option<T> {
    type Value = T;

    fn expect_by<R: Abort>(self, _rt: &R, why: &str) -> T {
        self.expect(why)
    }
}

impl<T, E: fmt::Debug> Expect for Result<T, E> {
    type Value = T;

    fn expect_by<R: Abort>(self, _rt: &R, why: &str) -> T {
        self.expect(why)
    }
}
