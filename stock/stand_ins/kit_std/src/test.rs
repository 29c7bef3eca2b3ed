//! What tests call.

use crate::alloc::{AllocError, AllocFailed};
use crate::rt::HostRuntime;

/// The process may be ended by a test that fails.
pub trait Abort {}

impl Abort for HostRuntime {}

/// A test failed.
#[derive(Debug)]
pub struct Fail(#[expect(dead_code, reason = "printed by the test that fails")] std::string::String);

impl From<&str> for Fail {
    fn from(why: &str) -> Fail {
        Fail(why.into())
    }
}

impl From<AllocError> for Fail {
    fn from(_: AllocError) -> Fail {
        "no memory".into()
    }
}

impl<T> From<AllocFailed<T>> for Fail {
    fn from(_: AllocFailed<T>) -> Fail {
        "no memory".into()
    }
}

/// `expect` with a handle, which the translator calls by this name. An error need not be `Debug`.
pub trait ExpectOn<T> {
    /// The value, or the end of the test with this text.
    fn expect_on<R: ?Sized>(self, rt: &R, text: &str) -> T;
}

impl<T> ExpectOn<T> for Option<T> {
    #[track_caller]
    fn expect_on<R: ?Sized>(self, _rt: &R, text: &str) -> T {
        self.unwrap_or_else(|| panic!("{text}"))
    }
}

impl<T, E> ExpectOn<T> for Result<T, E> {
    #[track_caller]
    fn expect_on<R: ?Sized>(self, rt: &R, text: &str) -> T {
        self.ok().expect_on(rt, text)
    }
}
