//! SHA-256 by the kit's port, or by the feature `upstream` by the crate `sha2`, which uses the processor's own instructions.
#[cfg(not(feature = "upstream"))]
pub use port::{Digest, Sha256};

#[cfg(feature = "upstream")]
pub use adapter::{Digest, Sha256};

#[cfg(feature = "upstream")]
mod adapter {
    use rattle_std::convert::AsSlice;
    use upstream::Digest as _;

    /// A digest that is still fed.
    pub trait Digest: Sized {
        /// The digest.
        type Output;

        /// Nothing is fed yet.
        fn new() -> Self;

        /// Feeds bytes.
        fn update<T: AsSlice<u8>>(&mut self, data: T);

        /// The digest of all that was fed.
        fn finalize(self) -> Self::Output;

        /// The digest of these bytes.
        fn digest<T: AsSlice<u8>>(data: T) -> Self::Output {
            let mut fed = Self::new();
            fed.update(data);
            fed.finalize()
        }
    }

    /// SHA-256.
    #[derive(Clone, Debug)]
    pub struct Sha256(upstream::Sha256);

    impl Digest for Sha256 {
        type Output = [u8; 32];

        fn new() -> Self {
            Sha256(upstream::Sha256::new())
        }

        fn update<T: AsSlice<u8>>(&mut self, data: T) {
            self.0.update(data.as_slice());
        }

        fn finalize(self) -> [u8; 32] {
            self.0.finalize().into()
        }
    }
}
