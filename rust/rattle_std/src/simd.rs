//! Several bytes at once, as the kit's `std::simd` has them. The compiler makes vectors of the loops.
use ::std::ops::{BitAnd, BitOr, Sub};

/// `N` bytes.
#[derive(Clone, Copy, Debug, PartialEq, Eq)]
pub struct Bytes<const N: usize>([u8; N]);

/// For each of `N` bytes whether something holds: a byte of ones, or 0.
#[derive(Clone, Copy, Debug, PartialEq, Eq)]
pub struct Mask<const N: usize>([u8; N]);

/// The names of this module.
pub mod prelude {
    /// 8 bytes.
    #[allow(non_camel_case_types)]
    pub type u8x8 = super::Bytes<8>;

    /// 16 bytes.
    #[allow(non_camel_case_types)]
    pub type u8x16 = super::Bytes<16>;
}

/// What is made of each place.
#[inline(always)]
fn each<const N: usize>(of: impl Fn(usize) -> u8) -> [u8; N] {
    ::std::array::from_fn(of)
}

/// A byte of ones where something holds.
#[inline(always)]
fn mark(holds: bool) -> u8 {
    0u8.wrapping_sub(u8::from(holds))
}

impl<const N: usize> Bytes<N> {
    /// One byte `N` times.
    #[inline(always)]
    pub fn splat(byte: u8) -> Self {
        Bytes([byte; N])
    }

    /// The first `N` bytes of a slice that has as many.
    #[inline(always)]
    pub fn from_slice(bytes: &[u8]) -> Self {
        Bytes(each(|i| bytes[..N][i]))
    }

    /// Where they are less.
    #[inline(always)]
    pub fn simd_lt(self, other: Self) -> Mask<N> {
        Mask(each(|i| mark(self.0[i] < other.0[i])))
    }

    /// Where they are no less.
    #[inline(always)]
    pub fn simd_ge(self, other: Self) -> Mask<N> {
        Mask(each(|i| mark(self.0[i] >= other.0[i])))
    }

    /// Where they are equal.
    #[inline(always)]
    pub fn simd_eq(self, other: Self) -> Mask<N> {
        Mask(each(|i| mark(self.0[i] == other.0[i])))
    }

    /// Where they differ.
    #[inline(always)]
    pub fn simd_ne(self, other: Self) -> Mask<N> {
        Mask(each(|i| mark(self.0[i] != other.0[i])))
    }
}

impl<const N: usize> BitOr for Bytes<N> {
    type Output = Self;

    #[inline(always)]
    fn bitor(self, other: Self) -> Self {
        Bytes(each(|i| self.0[i] | other.0[i]))
    }
}

impl<const N: usize> Sub for Bytes<N> {
    type Output = Self;

    /// Modulo 256, as vectors subtract.
    #[inline(always)]
    fn sub(self, other: Self) -> Self {
        Bytes(each(|i| self.0[i].wrapping_sub(other.0[i])))
    }
}

impl<const N: usize> BitOr for Mask<N> {
    type Output = Self;

    #[inline(always)]
    fn bitor(self, other: Self) -> Self {
        Mask(each(|i| self.0[i] | other.0[i]))
    }
}

impl<const N: usize> BitAnd for Mask<N> {
    type Output = Self;

    #[inline(always)]
    fn bitand(self, other: Self) -> Self {
        Mask(each(|i| self.0[i] & other.0[i]))
    }
}

impl<const N: usize> Mask<N> {
    /// A bit for each place, the first of them the lowest.
    #[inline(always)]
    pub fn to_bitmask(self) -> u64 {
        self.0.iter().enumerate().fold(0, |bits, (i, byte)| bits | (u64::from(byte & 1) << i))
    }
}
