//! What each module has without a `use`.
pub use crate::io::{Eprint, Input, Print};
pub use crate::marker::{Drop, TryClone};
pub use crate::rt::{Alloc, AllocGlobal, HostRuntime};
pub use crate::string::{String, TextForms};
pub use crate::test::Expect;
pub use crate::vec::{SliceForms, Vec};
pub use crate::{prove, prove_eq};
