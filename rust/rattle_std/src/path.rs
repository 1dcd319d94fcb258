//! Paths.

/// A path of UTF-8.
#[derive(Clone, Copy, Debug)]
pub struct Path<'a>(&'a ::std::path::Path);

impl<'a> Path<'a> {
    /// The path of this text.
    pub fn new(path: &'a str) -> Path<'a> {
        Path(::std::path::Path::new(path))
    }

    /// The folder above, if it has one.
    pub fn parent(self) -> Option<Path<'a>> {
        self.0.parent().map(Path)
    }

    /// Its text.
    pub fn as_str(self) -> &'a str {
        self.0.to_str().expect("a part of a text between `/` is a text")
    }
}
