//! How the process ends.

pub use crate::test::Abort;

/// The status with which the process ends.
pub struct ExitCode(
    #[doc(hidden)]
    pub u8,
);

impl From<u8> for ExitCode {
    fn from(status: u8) -> ExitCode {
        ExitCode(status)
    }
}
