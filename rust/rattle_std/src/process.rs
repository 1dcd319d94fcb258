//! How the program begins and ends.
use crate::calls::{self, Words};
use crate::env;
use crate::rt::HostRuntime;

/// A runtime that can end the process.
pub trait Abort {}

impl Abort for HostRuntime {}

/// An exit status.
#[derive(Clone, Copy, Debug, PartialEq, Eq)]
pub struct ExitCode(u8);

impl ExitCode {
    /// All went well.
    pub const SUCCESS: ExitCode = ExitCode(0);
}

impl From<u8> for ExitCode {
    fn from(status: u8) -> ExitCode {
        ExitCode(status)
    }
}

/// What C's `main` does: it keeps the words it was given, has writes to broken pipes fail, and runs the program.
pub fn run(count: i32, words: *const *const u8, main: fn() -> ExitCode) -> i32 {
    env::keep(Words::new(count, words));
    calls::ignore_broken_pipes();
    i32::from(main().0)
}
