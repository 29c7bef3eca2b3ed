//! Command lines: the published `clap`, as far as the crates call it.
//!
//! A command has words in their places, `--name value` or `--name=value`, flags, and commands below it. The crates
//! read no message of an error, only its kind.

mod arg;
mod command;
pub mod error;
mod matches;
mod reading;

pub use arg::{Arg, ArgAction};
pub use command::Command;
pub use error::Error;
pub use matches::ArgMatches;
