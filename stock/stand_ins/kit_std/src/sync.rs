//! A lock. Taking it may wait, which the handle must allow.

use crate::rt::HostRuntime;

pub use std::sync::atomic;

/// The process may wait.
pub trait Wait {}

impl Wait for HostRuntime {}

/// Stock Rust's lock of this name. A thread that panics ends the process, so no value is left half changed.
pub struct Mutex<T>(std::sync::Mutex<T>);

impl<T> Mutex<T> {
    /// A lock over this value.
    pub fn new(value: T) -> Self {
        Mutex(std::sync::Mutex::new(value))
    }

    /// Waits for the lock, and holds it as long as what it returns.
    pub fn lock<R: Wait>(&self, _rt: &R) -> std::sync::MutexGuard<'_, T> {
        self.0.lock().unwrap()
    }

    /// The value.
    pub fn into_inner(self) -> T {
        self.0.into_inner().unwrap()
    }
}
