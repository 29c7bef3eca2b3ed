//! Values that only contracts look at.

use std::marker::PhantomData;

/// What a value was at some time. It is nothing when the program runs.
pub struct Snapshot<T>(PhantomData<fn() -> T>);

impl<T> Snapshot<T> {
    /// What this value is now.
    pub fn of(_value: &T) -> Self {
        Snapshot(PhantomData)
    }
}
