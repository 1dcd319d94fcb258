//! Readers and writers.
use crate::alloc::Global;
use crate::calls;
use crate::rt::HostRuntime;
use crate::vec::Vec;
use ::std::fmt;

pub use ::std::io::{Error, ErrorKind, Read, Result, Write};

/// What a buffer holds at most, if nothing is said.
const CAPACITY: usize = 8192;

/// A standard stream, without a buffer.
#[derive(Clone, Copy, Debug)]
pub struct Stream(i32);

const INPUT: Stream = Stream(0);
const OUTPUT: Stream = Stream(1);
const ERRORS: Stream = Stream(2);

impl Read for Stream {
    fn read(&mut self, into: &mut [u8]) -> Result<usize> {
        calls::read(self.0, into)
    }
}

impl Write for Stream {
    fn write(&mut self, bytes: &[u8]) -> Result<usize> {
        calls::write(self.0, bytes)
    }

    fn flush(&mut self) -> Result<()> {
        Ok(())
    }
}

/// A runtime that has standard output.
pub trait Print {
    /// Writes to it.
    fn print(&self, what: fmt::Arguments<'_>) -> Result<()>;
}

impl Print for HostRuntime {
    fn print(&self, what: fmt::Arguments<'_>) -> Result<()> {
        Text::write(OUTPUT, what)
    }
}

/// A runtime that has standard error.
pub trait Eprint {
    /// Writes to it.
    fn eprint(&self, what: fmt::Arguments<'_>) -> Result<()>;
}

impl Eprint for HostRuntime {
    fn eprint(&self, what: fmt::Arguments<'_>) -> Result<()> {
        Text::write(ERRORS, what)
    }
}

/// A runtime that has standard input.
pub trait Input {
    /// What reads it.
    type Reader: Read;

    /// A reader of it.
    fn reader(&self) -> Self::Reader;
}

impl Input for HostRuntime {
    type Reader = Stream;

    fn reader(&self) -> Stream {
        INPUT
    }
}

/// Standard output.
pub fn writer<R: Print>(_rt: &R) -> Stream {
    OUTPUT
}

/// A text on its way to a stream, in one write if it is short. It takes no memory.
struct Text {
    stream: Stream,
    held: [u8; 512],
    count: usize,
    ended: Result<()>,
}

impl Text {
    fn write(stream: Stream, what: fmt::Arguments<'_>) -> Result<()> {
        let mut text = Text { stream, held: [0; 512], count: 0, ended: Ok(()) };
        fmt::Write::write_fmt(&mut text, what).map_err(|_| Error::from(ErrorKind::Other))?;
        text.send();
        text.ended
    }

    fn send(&mut self) {
        if self.ended.is_ok() {
            self.ended = self.stream.write_all(&self.held[..self.count]);
        }
        self.count = 0;
    }
}

impl fmt::Write for Text {
    fn write_str(&mut self, text: &str) -> fmt::Result {
        for byte in text.as_bytes() {
            if self.count == self.held.len() {
                self.send();
            }
            self.held[self.count] = *byte;
            self.count += 1;
        }
        Ok(())
    }
}

/// A reader with a buffer. A read into as much room as the buffer has goes past it.
#[derive(Debug)]
pub struct BufReader<R> {
    inner: R,
    room: Vec<u8>,
    at: usize,
    end: usize,
}

impl<R: Read> BufReader<R> {
    /// A reader with this much room.
    pub fn with_capacity(alloc: Global, capacity: usize, inner: R) -> Result<BufReader<R>> {
        Ok(BufReader { inner, room: Vec::from_elem(alloc, 0, capacity)?, at: 0, end: 0 })
    }
}

impl<R: Read> Read for BufReader<R> {
    fn read(&mut self, into: &mut [u8]) -> Result<usize> {
        if self.at == self.end {
            if into.len() >= self.room.len() {
                return self.inner.read(into);
            }
            (self.at, self.end) = (0, 0);
            self.end = self.inner.read(&mut self.room)?;
        }
        let count = into.len().min(self.end - self.at);
        into[..count].copy_from_slice(&self.room[self.at..self.at + count]);
        self.at += count;
        Ok(count)
    }
}

/// A writer with a buffer. What it holds is written when it is dropped, as far as that succeeds.
#[derive(Debug)]
pub struct BufWriter<W: Write> {
    inner: W,
    held: Vec<u8>,
}

impl<W: Write> BufWriter<W> {
    /// A writer with a buffer of 8,192 bytes.
    pub fn new(alloc: Global, inner: W) -> Result<BufWriter<W>> {
        Ok(BufWriter { inner, held: Vec::with_capacity(alloc, CAPACITY)? })
    }

    /// Writes what is held. What was written before a failure is held no more.
    fn send(&mut self) -> Result<()> {
        let mut written = 0;
        let ended = loop {
            if written == self.held.len() {
                break Ok(());
            }
            match self.inner.write(&self.held[written..]) {
                Ok(0) => break Err(ErrorKind::WriteZero.into()),
                Ok(count) => written += count,
                Err(error) if error.kind() == ErrorKind::Interrupted => {}
                Err(error) => break Err(error),
            }
        };
        self.held.drain(..written);
        ended
    }
}

impl<W: Write> Write for BufWriter<W> {
    fn write(&mut self, bytes: &[u8]) -> Result<usize> {
        if bytes.len() >= CAPACITY - self.held.len() {
            self.send()?;
            if bytes.len() >= CAPACITY {
                return self.inner.write(bytes);
            }
        }
        self.held.extend_from_slice(bytes)?;
        Ok(bytes.len())
    }

    fn flush(&mut self) -> Result<()> {
        self.send()?;
        self.inner.flush()
    }
}

impl<W: Write> Drop for BufWriter<W> {
    fn drop(&mut self) {
        let _ = self.send();
    }
}
