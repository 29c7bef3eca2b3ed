//! Threads of the system.

mod indices;
mod scoped;
#[cfg(unix)]
#[path = "pthreads.rs"]
mod system;
#[cfg(target_arch = "wasm32")]
#[path = "none.rs"]
mod system;

pub use indices::map_indices;
pub use scoped::{Promise, PromisedHandle, Scope, scope, scope_env};
pub use std::thread::yield_now;

use crate::rt::HostRuntime;

/// The process may have threads.
pub trait Threads {}

impl Threads for HostRuntime {}
