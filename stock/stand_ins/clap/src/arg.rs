//! One argument of a command.

use kit_std::alloc::Global;

/// What giving an argument does.
#[derive(Clone, Copy, PartialEq, Eq)]
pub enum ArgAction {
    /// It has a value.
    Set,
    /// It is a flag, whose value is `true` where it is given and `false` where it isn't.
    SetTrue,
}

/// An argument: a word in its place, or an option with a long name.
#[derive(Clone, Copy)]
pub struct Arg<'a> {
    pub(crate) id: &'a str,
    pub(crate) long: Option<&'a str>,
    pub(crate) action: ArgAction,
    pub(crate) default: Option<&'a str>,
    pub(crate) required: bool,
}

impl<'a> Arg<'a> {
    /// A word in its place, which has a value.
    pub fn new(_alloc: Global, id: &'a str) -> Self {
        Arg { id, long: None, action: ArgAction::Set, default: None, required: false }
    }

    /// An option, `--name`.
    pub fn long(self, name: &'a str) -> Self {
        Arg { long: Some(name), ..self }
    }

    /// What giving it does.
    pub fn action(self, action: ArgAction) -> Self {
        Arg { action, ..self }
    }

    /// The value where it isn't given.
    pub fn default_value(self, value: &'a str) -> Self {
        Arg { default: Some(value), ..self }
    }

    /// Whether it has to be given.
    pub fn required(self, required: bool) -> Self {
        Arg { required, ..self }
    }

    /// The value where it isn't given, if it has one then.
    pub(crate) fn value_by_itself(&self) -> Option<&'a str> {
        match self.action {
            ArgAction::Set => self.default,
            ArgAction::SetTrue => Some("false"),
        }
    }
}
