//! MD5 by the kit's port, or by the feature `upstream` by the crate `md-5`, which uses the processor's own instructions.
#[cfg(not(feature = "upstream"))]
pub use port::{Digest, Md5};

#[cfg(feature = "upstream")]
pub use adapter::{Digest, Md5};

#[cfg(feature = "upstream")]
mod adapter {
    use rattle_std::convert::AsSlice;
    use upstream::Digest as _;

    /// A digest that is still fed.
    pub trait Digest: Sized {
        /// The digest.
        type Output;

        /// Nothing is fed yet.
        fn new() -> Self;

        /// Feeds bytes.
        fn update<T: AsSlice<u8>>(&mut self, data: T);

        /// The digest of all that was fed.
        fn finalize(self) -> Self::Output;

        /// The digest of these bytes.
        fn digest<T: AsSlice<u8>>(data: T) -> Self::Output {
            let mut fed = Self::new();
            fed.update(data);
            fed.finalize()
        }
    }

    /// MD5.
    #[derive(Clone, Debug)]
    pub struct Md5(upstream::Md5);

    impl Digest for Md5 {
        type Output = [u8; 16];

        fn new() -> Self {
            Md5(upstream::Md5::new())
        }

        fn update<T: AsSlice<u8>>(&mut self, data: T) {
            self.0.update(data.as_slice());
        }

        fn finalize(self) -> [u8; 16] {
            self.0.finalize().into()
        }
    }
}
