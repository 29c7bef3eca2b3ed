//! What a command line says.

use kit_std::alloc::{AllocFailed, Global};
use kit_std::vec::Vec;

/// The values of a command's arguments, and the command below it that was asked for.
pub struct ArgMatches<'a> {
    values: Vec<(&'a str, &'a str)>,
    /// At most one.
    subcommand: Vec<(&'a str, ArgMatches<'a>)>,
}

impl<'a> ArgMatches<'a> {
    pub(crate) fn none() -> Self {
        ArgMatches { values: Vec::new(Global), subcommand: Vec::new(Global) }
    }

    pub(crate) fn add(&mut self, id: &'a str, value: &'a str) -> Result<(), AllocFailed<(&'a str, &'a str)>> {
        self.values.push((id, value))
    }

    pub(crate) fn with_subcommand(
        mut self,
        name: &'a str,
        matches: ArgMatches<'a>,
    ) -> Result<Self, AllocFailed<(&'a str, ArgMatches<'a>)>> {
        self.subcommand.push((name, matches))?;
        Ok(self)
    }

    /// The value of an argument.
    pub fn get_str(&self, id: &str) -> Option<&'a str> {
        self.values.iter().find(|(name, _)| *name == id).map(|(_, value)| *value)
    }

    /// The command below this one, and what is said to it.
    pub fn subcommand(&self) -> Option<(&'a str, &ArgMatches<'a>)> {
        self.subcommand.first().map(|(name, matches)| (*name, matches))
    }
}
