"""The names that the eraser renames, keeps, erases and refuses."""

# Names in code, with their names in plain Rust. Rust has methods with the first three names and other arguments.
# Outside a derive, `Clone` is the trait of the kit, whose method returns a result.
RENAMED_METHODS = {"expect": "expect_by", "to_string": "to_string_by", "to_vec": "to_vec_by"}
RENAMED_TRAITS = {"Clone": "TryClone"}
STD = "rattle_std"

# The names of the kit's `std` that the sources may use. rattle_std has all of them.
STD_NAMES = frozenset("""
    alloc alloc::AllocError alloc::Allocator alloc::Global
    cell::Cell cmp::Ordering convert::AsSlice
    env env::args error error::Error
    fmt fmt::Display fmt::Write
    fs fs::File fs::OpenOptions
    hash::Hash hash::Hasher
    io io::BufReader io::BufWriter io::ErrorKind io::Read io::Write
    marker::Model marker::PhantomData
    mem mem::replace mem::swap mem::take
    net::Ipv4Addr net::Net net::Shutdown net::TcpListener net::TcpStream
    ops::Range
    os::fd::AsRawFd os::unix::fs::FileExt
    path::Path
    process::Abort process::ExitCode
    rc::Rc result::Result
    rt::Clock rt::Env rt::Files
    simd::prelude
    str str::FromStr str::from_utf8 str::from_utf8_unchecked
    test::Fail
    time::Duration time::SystemTime time::UNIX_EPOCH
""".split())

# These names need no `use` in a module.
PRELUDE = ("#[allow(unused_imports)] use rattle_std::{assert, assert_eq, assert_ne, eprintln, format, panic, "
           "prelude::*, println, vec};")

ERASED_ATTRIBUTES = frozenset({"tactic", "cycle"})
KEPT_ATTRIBUTES = frozenset({"allow", "cfg", "error", "from", "inline", "must_use", "source", "test"})
ERASED_DERIVES = frozenset({"Drop"})
KEPT_DERIVES = frozenset({"Clone", "Copy", "Debug", "Default", "Eq", "Error", "Hash", "Ord", "PartialEq", "PartialOrd"})

# The known macros, besides the `macro_rules!` of the crate itself.
MACROS = frozenset("""
    assert assert_eq assert_ne eprintln format macro_rules matches panic println prove prove_eq unreachable vec write
""".split())

# Keywords that no source of ours needs. `unsafe` is erased before a block, because rattle_std checks the calls.
REFUSED_WORDS = frozenset("async await dyn extern union yield".split())
# Methods of Rust's slices, texts and iterators that allocate memory and cannot report a failure.
REFUSED_METHODS = frozenset("""
    concat into_boxed_slice into_string join repeat sort sort_by sort_by_cached_key sort_by_key to_lowercase to_owned
    to_uppercase
""".split())
# Traits that no source may implement by hand. The kit would not run the code of a `Drop`.
REFUSED_IMPLS = frozenset({"Drop"})
