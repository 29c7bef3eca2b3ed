//! The description of a command.

use crate::arg::Arg;
use crate::error::Error;
use crate::matches::ArgMatches;
use crate::reading::read;
use kit_std::alloc::{AllocError, Global};
use kit_std::convert::AsStr;
use kit_std::vec::Vec;

/// A command with its arguments and the commands below it.
pub struct Command<'a> {
    pub(crate) name: &'a str,
    pub(crate) args: Vec<Arg<'a>>,
    pub(crate) subcommands: Vec<Command<'a>>,
}

impl<'a> Command<'a> {
    /// A command without arguments.
    pub fn new(alloc: Global, name: &'a str) -> Self {
        Command { name, args: Vec::new(alloc), subcommands: Vec::new(alloc) }
    }

    /// Adds an argument. Those in places stand in this order.
    pub fn arg(mut self, arg: Arg<'a>) -> Result<Self, AllocError> {
        self.args.push(arg)?;
        Ok(self)
    }

    /// Adds a command below this one.
    pub fn subcommand(mut self, command: Command<'a>) -> Result<Self, AllocError> {
        self.subcommands.push(command)?;
        Ok(self)
    }

    /// What these words say, the first of which is the program's name.
    pub fn try_get_matches_from<S: AsStr>(&self, words: &'a [S]) -> Result<ArgMatches<'a>, Error> {
        read(self, &mut words.iter().skip(1).map(|word| word.as_str()))
    }
}
