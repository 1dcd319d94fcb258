//! The macros of the kit, which are given an allocator or the runtime first.

/// A [`Vec`](crate::vec::Vec): of these values, or of one value so many times.
#[macro_export]
macro_rules! vec {
    (in $alloc:expr; $value:expr; $count:expr) => { $crate::vec::Vec::from_elem($alloc, $value, $count) };
    (in $alloc:expr; $($item:expr),* $(,)?) => { $crate::vec::Vec::from_array($alloc, [$($item),*]) };
}

/// A [`String`](crate::string::String) of this format.
#[macro_export]
macro_rules! format {
    (in $alloc:expr; $($what:tt)*) => { $crate::string::String::formatted($alloc, ::std::format_args!($($what)*)) };
}

/// A line on standard output.
#[macro_export]
macro_rules! println {
    ($rt:expr; $($what:tt)*) => { $rt.print(::std::format_args!("{}\n", ::std::format_args!($($what)*))) };
}

/// A line on standard error.
#[macro_export]
macro_rules! eprintln {
    ($rt:expr; $($what:tt)*) => { $rt.eprint(::std::format_args!("{}\n", ::std::format_args!($($what)*))) };
}

/// What the proofs show to hold. A build for tests looks.
#[macro_export]
macro_rules! prove {
    ($($what:tt)*) => { ::std::debug_assert!($($what)*) };
}

/// What the proofs show to be equal. A build for tests looks.
#[macro_export]
macro_rules! prove_eq {
    ($($what:tt)*) => { ::std::debug_assert_eq!($($what)*) };
}

/// That something holds.
#[macro_export]
macro_rules! assert {
    ($rt:expr; $($what:tt)*) => { ::std::assert!($($what)*) };
}

/// That two values are equal.
#[macro_export]
macro_rules! assert_eq {
    ($rt:expr; $($what:tt)*) => { ::std::assert_eq!($($what)*) };
}

/// That two values differ.
#[macro_export]
macro_rules! assert_ne {
    ($rt:expr; $($what:tt)*) => { ::std::assert_ne!($($what)*) };
}

/// Ends the process.
#[macro_export]
macro_rules! panic {
    ($rt:expr; $($what:tt)*) => { ::std::panic!($($what)*) };
}
