//! The one call of the C library that the sources of Ropepeach make by its name, safe as the kit has it.
pub use rattle_std::posix_fadvise;

/// Bytes that will not be used soon.
pub const POSIX_FADV_DONTNEED: i32 = 4;
