//! The clock.

use crate::rt::Clock;
use std::io;
use std::time::Duration;

/// A time by the clock that never goes back.
#[derive(Clone, Copy)]
pub struct Instant(std::time::Instant);

impl Instant {
    /// The time now. WebAssembly has no such clock here.
    pub fn now<R: Clock>(_rt: &R) -> io::Result<Instant> {
        if cfg!(target_arch = "wasm32") {
            return Err(io::ErrorKind::Unsupported.into());
        }
        Ok(Instant(std::time::Instant::now()))
    }

    /// How long ago it was.
    pub fn elapsed<R: Clock>(&self, _rt: &R) -> io::Result<Duration> {
        Ok(self.0.elapsed())
    }
}
