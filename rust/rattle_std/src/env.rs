//! The words of the command line. Rust's `env::args_os` takes memory that cannot be refused.
use crate::alloc::{AllocError, Global};
use crate::calls::Words;
use crate::rt::HostRuntime;
use crate::string::String;
use crate::vec::Vec;
use ::std::io;
use ::std::sync::OnceLock;

static WORDS: OnceLock<Words> = OnceLock::new();

/// Keeps the words that `main` was given. The first that are kept stay.
pub(crate) fn keep(words: Words) {
    let _ = WORDS.set(words);
}

/// A runtime that has a command line.
pub trait Env {
    /// Its words. They are `InvalidData` if one of them is no text.
    fn words(&self) -> io::Result<Vec<String>>;
}

impl Env for HostRuntime {
    fn words(&self) -> io::Result<Vec<String>> {
        let mut texts = Vec::new(Global);
        let Some(words) = WORDS.get() else {
            return Ok(texts);
        };
        for at in 0..words.len() {
            let Ok(text) = ::std::str::from_utf8(words.bytes(at)) else {
                return Err(io::ErrorKind::InvalidData.into());
            };
            texts.push(String::from_str(Global, text)?).map_err(AllocError::from)?;
        }
        Ok(texts)
    }
}

/// The words of a command line, which are there already.
pub struct Args(Vec<String>);

impl Args {
    /// Gives them out.
    pub fn collect<C: From<Vec<String>>>(self, _alloc: Global) -> Result<C, AllocError> {
        Ok(self.0.into())
    }
}

/// The words of the command line of a runtime.
pub fn args<R: Env>(rt: &R) -> io::Result<Args> {
    Ok(Args(rt.words()?))
}
