//! Texts.
pub use ::std::str::{FromStr, from_utf8};

/// The text of these bytes, which the caller knows to be one. Here it is looked at all the same.
pub fn from_utf8_unchecked(bytes: &[u8]) -> &str {
    from_utf8(bytes).expect("the proofs show that it is a text")
}
