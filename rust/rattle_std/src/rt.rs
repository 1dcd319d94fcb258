//! The runtime: by it the program reaches what is outside.
use crate::alloc::Global;
use crate::calls;
use ::std::io;
use ::std::time::Duration;

pub use crate::env::Env;
pub use crate::fs::Files;

/// The system.
#[derive(Clone, Copy, Debug)]
pub struct HostRuntime;

/// A runtime that has memory.
pub trait Alloc {
    /// Its allocator.
    fn alloc(&self) -> Global;
}

impl Alloc for HostRuntime {
    fn alloc(&self) -> Global {
        Global
    }
}

/// A runtime whose allocator is the global one: here each is.
pub trait AllocGlobal: Alloc {}

impl<R: Alloc> AllocGlobal for R {}

/// A runtime that has clocks. A clock that shows a time before its beginning cannot be read.
pub trait Clock {
    /// The time by a clock that nobody sets.
    fn monotonic(&self) -> io::Result<Duration>;

    /// The time since the beginning of 1970.
    fn since_1970(&self) -> io::Result<Duration>;
}

impl Clock for HostRuntime {
    fn monotonic(&self) -> io::Result<Duration> {
        calls::clock(calls::Clock::Monotonic)
    }

    fn since_1970(&self) -> io::Result<Duration> {
        calls::clock(calls::Clock::RealTime)
    }
}
