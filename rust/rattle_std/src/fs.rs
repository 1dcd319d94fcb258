//! Files. A path is a text.
use crate::alloc::Global;
use crate::calls;
use crate::rt::HostRuntime;
use crate::string::String;
use crate::vec::Vec;
use ::std::fs::{Metadata, TryLockError};
use ::std::io;
use ::std::os::fd::{AsRawFd, RawFd};

/// A runtime that has files.
pub trait Files {
    /// An open file.
    type File;
}

impl Files for HostRuntime {
    type File = File;
}

/// An open file.
#[derive(Debug)]
pub struct File(::std::fs::File);

impl File {
    /// Opens a file to be read.
    pub fn open<R: Files<File = File>>(_rt: &R, path: &str) -> io::Result<File> {
        Ok(File(::std::fs::File::open(path)?))
    }

    /// The same file by another descriptor, which is that of no standard stream.
    pub fn try_clone(&self) -> io::Result<File> {
        Ok(File(self.0.try_clone()?))
    }

    /// What the system knows of it.
    pub fn metadata(&self) -> io::Result<Metadata> {
        self.0.metadata()
    }

    /// Locks it against all others, if nobody has.
    pub fn try_lock(&self) -> Result<(), TryLockError> {
        self.0.try_lock()
    }

    /// Locks it against those that lock it alone.
    pub fn lock_shared(&self) -> io::Result<()> {
        self.0.lock_shared()
    }

    /// Waits until the device holds what was written.
    pub fn sync_all(&self) -> io::Result<()> {
        self.0.sync_all()
    }

    /// Gives it this length.
    pub fn set_len(&self, size: u64) -> io::Result<()> {
        self.0.set_len(size)
    }
}

impl AsRawFd for File {
    fn as_raw_fd(&self) -> RawFd {
        self.0.as_raw_fd()
    }
}

/// Reads and writes at offsets. An interrupted call is made again, and so is one that did a part.
pub trait FileExt {
    /// Fills `into` with the bytes from an offset on, or fails.
    fn read_exact_at(&self, into: &mut [u8], at: u64) -> io::Result<()>;

    /// Writes all bytes from an offset on, or fails.
    fn write_all_at(&self, bytes: &[u8], at: u64) -> io::Result<()>;
}

impl FileExt for File {
    fn read_exact_at(&self, into: &mut [u8], at: u64) -> io::Result<()> {
        let file = self.as_raw_fd();
        through(into.len(), at, io::ErrorKind::UnexpectedEof, |done, place| calls::read_at(file, &mut into[done..], place))
    }

    fn write_all_at(&self, bytes: &[u8], at: u64) -> io::Result<()> {
        let file = self.as_raw_fd();
        through(bytes.len(), at, io::ErrorKind::WriteZero, |done, place| calls::write_at(file, &bytes[done..], place))
    }
}

/// Makes a call until `count` bytes are done. The call is given how many are, and the offset of the next. It goes on
/// behind a call that did a part, and makes an interrupted one again; a call that does nothing is a failure of the kind
/// `ending`.
fn through(
    count: usize,
    at: u64,
    ending: io::ErrorKind,
    mut call: impl FnMut(usize, i64) -> io::Result<usize>,
) -> io::Result<()> {
    let mut done = 0;
    while done < count {
        match call(done, place(at, done)?) {
            Ok(0) => return Err(ending.into()),
            Ok(some) => done += some,
            Err(error) if error.kind() == io::ErrorKind::Interrupted => {}
            Err(error) => return Err(error),
        }
    }
    Ok(())
}

/// The offset of the system this far behind another. There is none from 2^63 on.
fn place(at: u64, done: usize) -> io::Result<i64> {
    let place = u64::try_from(done).ok().and_then(|done| at.checked_add(done));
    place.and_then(|place| i64::try_from(place).ok()).ok_or(io::ErrorKind::InvalidInput.into())
}

/// How a file is opened.
#[derive(Debug)]
pub struct OpenOptions(::std::fs::OpenOptions);

impl OpenOptions {
    /// For nothing yet.
    #[allow(clippy::new_without_default)]
    pub fn new() -> OpenOptions {
        OpenOptions(::std::fs::OpenOptions::new())
    }

    /// To be read.
    pub fn read(&mut self, on: bool) -> &mut OpenOptions {
        self.0.read(on);
        self
    }

    /// To be written.
    pub fn write(&mut self, on: bool) -> &mut OpenOptions {
        self.0.write(on);
        self
    }

    /// To be made, under a name that nothing has.
    pub fn create_new(&mut self, on: bool) -> &mut OpenOptions {
        self.0.create_new(on);
        self
    }

    /// Opens the file of this name.
    pub fn open<R: Files<File = File>>(&self, _rt: &R, path: &str) -> io::Result<File> {
        Ok(File(self.0.open(path)?))
    }
}

/// Removes a file.
pub fn remove_file<R: Files>(_rt: &R, path: &str) -> io::Result<()> {
    ::std::fs::remove_file(path)
}

/// Writes a whole file. Only tests do.
pub fn write<R: Files>(_rt: &R, path: &str, bytes: impl AsRef<[u8]>) -> io::Result<()> {
    ::std::fs::write(path, bytes)
}

/// Reads a whole file. Only tests do.
pub fn read<R: Files>(_rt: &R, path: &str) -> io::Result<Vec<u8>> {
    Ok(Vec::from_slice(Global, &::std::fs::read(path)?)?)
}

/// Reads a whole file of text. Only tests do.
pub fn read_to_string<R: Files>(_rt: &R, path: &str) -> io::Result<String> {
    Ok(String::from_str(Global, &::std::fs::read_to_string(path)?)?)
}

#[cfg(test)]
mod tests {
    use super::through;
    use ::std::io::ErrorKind::{self, Interrupted, StorageFull, UnexpectedEof, WriteZero};
    use ::std::vec::Vec;

    /// What comes of calls that do this in turn, and what each was given.
    fn made(count: usize, turns: &[Result<usize, ErrorKind>]) -> (Result<(), ErrorKind>, Vec<(usize, i64)>) {
        let mut given = Vec::new();
        let ended = through(count, 100, WriteZero, |done, place| {
            given.push((done, place));
            Ok(turns[given.len() - 1]?)
        });
        (ended.map_err(|error| error.kind()), given)
    }

    #[test]
    fn a_call_that_did_a_part_is_gone_on_with() {
        ::std::assert_eq!(made(5, &[Ok(2), Ok(1), Ok(2)]), (Ok(()), ::std::vec![(0, 100), (2, 102), (3, 103)]));
        ::std::assert_eq!(made(0, &[]), (Ok(()), ::std::vec![]));
    }

    #[test]
    fn an_interrupted_call_is_made_again() {
        let turns = [Err(Interrupted), Ok(2), Err(Interrupted), Err(Interrupted), Ok(3)];
        ::std::assert_eq!(made(5, &turns), (Ok(()), ::std::vec![(0, 100), (0, 100), (2, 102), (2, 102), (2, 102)]));
    }

    #[test]
    fn a_call_that_fails_ends_all() {
        ::std::assert_eq!(made(5, &[Ok(2), Err(StorageFull)]), (Err(StorageFull), ::std::vec![(0, 100), (2, 102)]));
        ::std::assert_eq!(made(5, &[Ok(2), Ok(0)]).0, Err(WriteZero));
        ::std::assert_eq!(made(5, &[Err(UnexpectedEof)]).0, Err(UnexpectedEof));
    }
}
