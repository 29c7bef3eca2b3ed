//! The kit's `std`, as far as the crates call it, over stock Rust's.
//!
//! The crates are compiled without stock Rust's `std` and find this crate under that name. What takes no
//! allocator and no handle of the process is stock Rust's own; the rest stands here: what allocates takes an
//! allocator and returns an `Err` where there is no memory, and what touches the process takes its handle.

pub mod alloc;
pub mod boxed;
pub mod collections;
pub mod convert;
pub mod env;
pub mod fs;
pub mod io;
mod macros;
pub mod marker;
mod memory;
mod older;
pub mod prelude;
pub mod process;
pub mod rt;
pub mod snapshot;
#[doc(hidden)]
pub mod start;
mod streams;
pub mod string;
pub mod sync;
pub mod test;
pub mod thread;
pub mod time;
pub mod vec;

pub use std::{fmt, mem, str};

#[doc(hidden)]
pub use memory::OrEnd;
