//! Standard streams and files, as the system has them.

#[cfg(unix)]
#[path = "unix.rs"]
mod system;
#[cfg(target_arch = "wasm32")]
#[path = "wasi.rs"]
mod system;

pub use system::{File, Stream, open};
#[cfg(target_arch = "wasm32")]
pub(crate) use system::{end, words};

/// Whether a stream is a terminal. No type outside stock Rust's library can have its trait of this name.
pub trait IsTerminal {
    /// Whether it is a terminal.
    fn is_terminal(&self) -> bool;
}
