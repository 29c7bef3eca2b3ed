//! What is in scope in every module of the crates: the translator imports it there.

pub use crate::boxed::Box;
pub use crate::io::Input;
pub use crate::marker::Drop;
pub use crate::older::{CastSigned, CastUnsigned};
pub use crate::rt::{AllocGlobal, Eprint, HostRuntime, Print};
pub use crate::string::{String, ToStringIn};
pub use crate::test::ExpectOn;
pub use crate::vec::{CollectIn, ToVecIn, Vec};
pub use crate::{eprint, eprintln, format, vec};
