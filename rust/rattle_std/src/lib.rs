//! The forms of the kit's `std` over Rust's, as the sources of Ropepeach use them.
//!
//! What takes memory is given a [`Global`](alloc::Global), and answers a `Result`: no refusal of memory ends the
//! process. What reaches outside is given the [`HostRuntime`](rt::HostRuntime). Only what is used is here, and a
//! collection has no methods of Rust's own but those of slices and texts, so that none of them is taken by mistake.
//!
//! Two modules have `unsafe` code: `calls`, the calls of the system, and `rc`.
#![deny(unsafe_code)]

const _: () = ::std::assert!(size_of::<usize>() == 8, "sizes and offsets are of 64 bits");

pub mod alloc;
#[allow(unsafe_code)]
mod calls;
pub mod convert;
pub mod env;
pub mod fs;
pub mod io;
mod macros;
pub mod marker;
pub mod net;
pub mod path;
pub mod prelude;
pub mod process;
#[allow(unsafe_code)]
pub mod rc;
pub mod rt;
pub mod simd;
pub mod str;
pub mod string;
pub mod test;
pub mod vec;

pub use ::std::{cell, cmp, error, fmt, hash, mem, ops, result, time};

/// What is of one system.
pub mod os {
    pub use ::std::os::fd;

    /// What is of Unix.
    pub mod unix {
        /// Files by offsets.
        pub mod fs {
            pub use crate::fs::FileExt;
        }
    }
}

/// The call of the C library that the sources make by its name: see the crate `libc` beside this one.
pub use calls::posix_fadvise;
