//! The calls of the C library that Rust's `std` does not make, or makes by other names.
//!
//! Standard streams have no buffer here, and answer each failure. `pread` and `pwrite` have the names that the kit calls
//! (Rust's are `pread64` and `pwrite64`), so that what stands before the C library sees both programs alike.
use ::std::ffi::{CStr, c_char, c_int, c_void};
use ::std::io::{Error, ErrorKind, Result};
use ::std::time::Duration;

#[allow(clippy::missing_safety_doc)]
mod c {
    use super::{c_int, c_void};

    /// A time of a clock.
    #[repr(C)]
    pub struct Timespec {
        pub seconds: i64,
        pub nanoseconds: i64,
    }

    unsafe extern "C" {
        pub fn pread(file: c_int, into: *mut c_void, count: usize, at: i64) -> isize;
        pub fn pwrite(file: c_int, bytes: *const c_void, count: usize, at: i64) -> isize;
        pub fn read(file: c_int, into: *mut c_void, count: usize) -> isize;
        pub fn write(file: c_int, bytes: *const c_void, count: usize) -> isize;
        pub fn clock_gettime(clock: c_int, into: *mut Timespec) -> c_int;
        pub safe fn signal(number: c_int, action: usize) -> usize;
        pub safe fn posix_fadvise(file: c_int, at: i64, count: i64, advice: c_int) -> c_int;
    }
}

/// What a call has told: a count, or the error of the thread.
fn told(count: isize) -> Result<usize> {
    usize::try_from(count).map_err(|_| Error::last_os_error())
}

/// Reads bytes of a file from an offset on.
pub fn read_at(file: c_int, into: &mut [u8], at: i64) -> Result<usize> {
    // SAFETY: the call writes to `into` alone, and no more than it has room for.
    told(unsafe { c::pread(file, into.as_mut_ptr().cast(), into.len(), at) })
}

/// Writes bytes to a file from an offset on.
pub fn write_at(file: c_int, bytes: &[u8], at: i64) -> Result<usize> {
    // SAFETY: the call reads from `bytes` alone.
    told(unsafe { c::pwrite(file, bytes.as_ptr().cast(), bytes.len(), at) })
}

/// Reads from a stream.
pub fn read(stream: c_int, into: &mut [u8]) -> Result<usize> {
    // SAFETY: the call writes to `into` alone, and no more than it has room for.
    told(unsafe { c::read(stream, into.as_mut_ptr().cast(), into.len()) })
}

/// Writes to a stream.
pub fn write(stream: c_int, bytes: &[u8]) -> Result<usize> {
    // SAFETY: the call reads from `bytes` alone.
    told(unsafe { c::write(stream, bytes.as_ptr().cast(), bytes.len()) })
}

/// The clocks that are read, by the numbers of the system.
#[derive(Clone, Copy, Debug)]
pub enum Clock {
    /// It shows the time since the beginning of 1970, and may be set.
    RealTime = 0,
    /// Nobody sets it.
    Monotonic = 1,
}

/// The time that a clock shows. Rust's own `now` ends the process where a clock cannot be read.
pub fn clock(which: Clock) -> Result<Duration> {
    let mut shown = c::Timespec { seconds: 0, nanoseconds: 0 };
    // SAFETY: the call writes to `shown` alone.
    if unsafe { c::clock_gettime(which as c_int, &mut shown) } != 0 {
        return Err(Error::last_os_error());
    }
    match (u64::try_from(shown.seconds), u32::try_from(shown.nanoseconds)) {
        (Ok(seconds), Ok(nanoseconds @ ..1_000_000_000)) => Ok(Duration::new(seconds, nanoseconds)),
        _ => Err(ErrorKind::InvalidData.into()),
    }
}

/// A write to a pipe or a socket that nobody reads fails from here on, and ends no process.
pub fn ignore_broken_pipes() {
    const SIGPIPE: c_int = 13;
    const SIG_IGN: usize = 1;
    c::signal(SIGPIPE, SIG_IGN);
}

/// Tells the system how bytes of a file will be used. It answers 0, or the number of an error.
pub fn posix_fadvise(file: i32, at: i64, count: i64, advice: i32) -> i32 {
    c::posix_fadvise(file, at, count, advice)
}

/// The words that C's `main` was given.
#[derive(Clone, Copy)]
pub struct Words {
    count: usize,
    first: *const *const u8,
}

// SAFETY: the words live as long as the process, and nobody writes to them.
unsafe impl Send for Words {}

// SAFETY: as above.
unsafe impl Sync for Words {}

impl Words {
    /// Keeps what C's `main` was given: `first` points to `count` texts that end with a zero byte.
    pub fn new(count: c_int, first: *const *const u8) -> Words {
        Words { count: usize::try_from(count).unwrap_or(0), first }
    }

    /// How many there are.
    pub fn len(self) -> usize {
        self.count
    }

    /// The bytes of a word.
    pub fn bytes(self, at: usize) -> &'static [u8] {
        ::std::assert!(at < self.count);
        // SAFETY: there are `count` texts, each ends with a zero byte, and all live as long as the process.
        unsafe { CStr::from_ptr((*self.first.add(at)).cast::<c_char>()) }.to_bytes()
    }
}
