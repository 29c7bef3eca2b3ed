//! Reading the words of a command line.

use crate::arg::{Arg, ArgAction};
use crate::command::Command;
use crate::error::Error;
use crate::matches::ArgMatches;

/// The words that are still to be read.
type Words<'w, 'a> = &'w mut dyn Iterator<Item = &'a str>;

/// What the words say to a command, or to one below it.
pub(crate) fn read<'a>(command: &Command<'a>, words: Words<'_, 'a>) -> Result<ArgMatches<'a>, Error> {
    let mut found = ArgMatches::none();
    let mut places = command.args.iter().filter(|arg| arg.long.is_none());
    let mut only_places = false;
    while let Some(word) = words.next() {
        if !only_places && word == "--" {
            only_places = true;
        } else if !only_places && is_option(word) {
            read_option(command, &mut found, word, words)?;
        } else if !only_places && !command.subcommands.is_empty() {
            let below = command.subcommands.iter().find(|below| below.name == word).ok_or(Error::REFUSED)?;
            let said = read(below, words)?;
            return Ok(with_values_by_themselves(command, found)?.with_subcommand(below.name, said)?);
        } else {
            found.add(places.next().ok_or(Error::REFUSED)?.id, word)?;
        }
    }
    with_values_by_themselves(command, found)
}

/// Whether a word begins an option. A single `-` is a word as any other.
fn is_option(word: &str) -> bool {
    word.len() > 1 && word.starts_with('-')
}

/// Reads an option, and its value where that is the next word. No option comes twice.
fn read_option<'a>(
    command: &Command<'a>,
    found: &mut ArgMatches<'a>,
    word: &'a str,
    words: Words<'_, 'a>,
) -> Result<(), Error> {
    let said = word.strip_prefix("--").ok_or(Error::REFUSED)?;
    let (name, value) = match said.split_once('=') {
        Some((name, value)) => (name, Some(value)),
        None => (said, None),
    };
    let arg = command.args.iter().find(|arg| arg.long == Some(name)).ok_or(Error::REFUSED)?;
    if found.get_str(arg.id).is_some() {
        return Err(Error::REFUSED);
    }
    Ok(found.add(arg.id, value_of(arg, value, words)?)?)
}

/// The value that an option gets, which is said with its name or is the next word.
fn value_of<'a>(arg: &Arg<'a>, said: Option<&'a str>, words: Words<'_, 'a>) -> Result<&'a str, Error> {
    match (arg.action, said) {
        (ArgAction::SetTrue, None) => Ok("true"),
        (ArgAction::SetTrue, Some(_)) => Err(Error::REFUSED),
        (ArgAction::Set, Some(value)) => Ok(value),
        (ArgAction::Set, None) => words.next().filter(|word| !is_option(word)).ok_or(Error::REFUSED),
    }
}

/// With the values of arguments that weren't given. One that has to be given and wasn't is refused.
fn with_values_by_themselves<'a>(
    command: &Command<'a>,
    mut found: ArgMatches<'a>,
) -> Result<ArgMatches<'a>, Error> {
    for arg in &command.args {
        if found.get_str(arg.id).is_some() {
            continue;
        }
        match arg.value_by_itself() {
            Some(value) => found.add(arg.id, value)?,
            None if arg.required => return Err(Error::REFUSED),
            None => {}
        }
    }
    Ok(found)
}

#[cfg(test)]
mod tests {
    use super::*;
    use crate::error::ErrorKind;
    use kit_std::alloc::Global;

    /// `top` with `go FILE [--size N] [--all]`, whose size is 4 by itself.
    fn top() -> Command<'static> {
        let args = [
            Arg::new(Global, "file").required(true),
            Arg::new(Global, "size").long("size").action(ArgAction::Set).default_value("4"),
            Arg::new(Global, "all").long("all").action(ArgAction::SetTrue),
        ];
        let go = args.into_iter().fold(Command::new(Global, "go"), |go, arg| go.arg(arg).unwrap());
        Command::new(Global, "top").subcommand(go).unwrap()
    }

    fn said(words: &'static str) -> Option<[&'static str; 3]> {
        let words: Vec<&str> = words.split(' ').collect();
        let words: &'static [&str] = words.leak();
        match top().try_get_matches_from(words) {
            Ok(matches) => {
                let (name, go) = matches.subcommand()?;
                assert_eq!(name, "go");
                Some(["file", "size", "all"].map(|id| go.get_str(id).unwrap()))
            }
            Err(error) => {
                assert_eq!(error.kind(), ErrorKind::Refused);
                None
            }
        }
    }

    #[test]
    fn words_and_options_come_in_any_order() {
        assert_eq!(said("top go a"), Some(["a", "4", "false"]));
        assert_eq!(said("top go --size 8 a --all"), Some(["a", "8", "true"]));
        assert_eq!(said("top go --size=8 -"), Some(["-", "8", "false"]));
        assert_eq!(said("top go --size= -- --all"), Some(["--all", "", "false"]));
        assert_eq!(said("top go a --"), Some(["a", "4", "false"]));
    }

    #[test]
    fn other_words_are_refused() {
        for words in [
            "top go", "top stay", "top go a b", "top go a --size", "top go a --size --all", "top go a --size 1 --size 2",
            "top go a --all=true", "top go a --siz 1", "top go -a", "top go a --help", "top --all go a",
        ] {
            assert_eq!(said(words), None, "{words}");
        }
    }
}
