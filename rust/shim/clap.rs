//! A command line of options, with a value each or with none, and of positional words, read as `clap` reads it.

use super::alloc::{AllocError, Global};
use super::string::String;
use super::vec::Vec;
use core::marker::PhantomData;
use core::str::FromStr;

pub mod error {
    /// Why words aren't taken.
    #[derive(Clone, Copy, Debug, PartialEq, Eq)]
    pub enum ErrorKind {
        /// They ask for the help text.
        DisplayHelp,
        /// They ask for the version.
        DisplayVersion,
        /// There was no memory to read them.
        OutOfMemory,
        /// They are others than the command has.
        UnknownArgument,
        /// An option has no value, or one that isn't as it should be.
        InvalidValue,
        /// An option stands there twice.
        ArgumentConflict,
    }
}

use error::ErrorKind;

/// Why words aren't taken.
#[derive(Clone, Copy, Debug, PartialEq, Eq)]
pub struct Error(ErrorKind);

impl Error {
    pub fn kind(&self) -> ErrorKind {
        self.0
    }
}

impl From<AllocError> for Error {
    fn from(_error: AllocError) -> Error {
        Error(ErrorKind::OutOfMemory)
    }
}

/// What an option does.
#[derive(Clone, Copy, Debug, PartialEq, Eq)]
pub enum ArgAction {
    /// It has no value, and is given or not.
    SetTrue,
}

/// An option, or a positional word where it has no long name.
#[derive(Clone, Copy)]
pub struct Arg {
    name: &'static str,
    long: Option<&'static str>,
    has_value: bool,
}

impl Arg {
    pub fn new(_alloc: Global, name: &'static str) -> Arg {
        Arg {
            name,
            long: None,
            has_value: true,
        }
    }

    pub fn action(self, action: ArgAction) -> Arg {
        Arg {
            has_value: action != ArgAction::SetTrue,
            ..self
        }
    }

    pub fn long(self, name: &'static str) -> Arg {
        Arg {
            long: Some(name),
            ..self
        }
    }
}

/// What a command line may have.
pub struct Command<'a> {
    args: Vec<Arg>,
    has_version: bool,
    names: PhantomData<&'a ()>,
}

impl<'a> Command<'a> {
    pub fn new(alloc: Global, _name: &'static str) -> Command<'a> {
        Command {
            args: Vec::new(alloc),
            has_version: false,
            names: PhantomData,
        }
    }

    /// The words never begin with the program's own name here.
    pub fn no_binary_name(self, yes: bool) -> Command<'a> {
        assert!(yes, "the program's own name is not among the words");
        self
    }

    /// Whoever asks for the version is told so by the fault, and prints it.
    pub fn version(self, _version: &'static str) -> Command<'a> {
        Command {
            has_version: true,
            ..self
        }
    }

    pub fn arg(mut self, arg: Arg) -> Result<Command<'a>, AllocError> {
        self.args.push(arg)?;
        Ok(self)
    }

    /// Reads the words in their order; the first that isn't taken ends it.
    pub fn try_get_matches_from(self, words: &[String]) -> Result<ArgMatches, Error> {
        let mut matches = ArgMatches {
            values: Vec::new(Global),
        };
        let mut words = words.iter().map(|word| word.as_str());
        let mut all_are_positional = false;
        while let Some(word) = words.next() {
            if all_are_positional || word == "-" || !word.starts_with('-') {
                let arg = self.next_positional(&matches)?;
                matches.add(arg, word)?;
            } else if word == "--" {
                all_are_positional = true;
            } else if let Some(option) = word.strip_prefix("--") {
                let (arg, value) = self.option(option)?;
                if !arg.has_value {
                    if value.is_some() {
                        return Err(Error(ErrorKind::InvalidValue));
                    }
                    matches.add(arg, "true")?;
                    continue;
                }
                // a value that begins with a minus is read as an option, and then this one has none
                let value = value.or_else(|| {
                    words
                        .next()
                        .filter(|next| *next == "-" || !next.starts_with('-'))
                });
                matches.add(arg, value.ok_or(Error(ErrorKind::InvalidValue))?)?;
            } else {
                return Err(Error(if word.starts_with("-h") {
                    ErrorKind::DisplayHelp
                } else if self.has_version && word.starts_with("-V") {
                    ErrorKind::DisplayVersion
                } else {
                    ErrorKind::UnknownArgument
                }));
            }
        }
        Ok(matches)
    }

    fn next_positional(&self, matches: &ArgMatches) -> Result<Arg, Error> {
        let free = self
            .args
            .iter()
            .find(|arg| arg.long.is_none() && matches.get_str(arg.name).is_none());
        free.copied().ok_or(Error(ErrorKind::UnknownArgument))
    }

    /// The option of a word without its two minus signs, and the value behind its equals sign.
    fn option<'w>(&self, word: &'w str) -> Result<(Arg, Option<&'w str>), Error> {
        let (name, value) = match word.split_once('=') {
            Some((name, value)) => (name, Some(value)),
            None => (word, None),
        };
        match self.args.iter().find(|arg| arg.long == Some(name)) {
            Some(arg) => Ok((*arg, value)),
            None if name == "help" && value.is_none() => Err(Error(ErrorKind::DisplayHelp)),
            None if self.has_version && name == "version" && value.is_none() => {
                Err(Error(ErrorKind::DisplayVersion))
            }
            None => Err(Error(ErrorKind::UnknownArgument)),
        }
    }
}

/// The values that words have given.
pub struct ArgMatches {
    values: Vec<(&'static str, String)>,
}

impl ArgMatches {
    fn add(&mut self, arg: Arg, value: &str) -> Result<(), Error> {
        if self.get_str(arg.name).is_some() {
            return Err(Error(ErrorKind::ArgumentConflict));
        }
        let value = String::from_str(Global, value)?;
        self.values
            .push((arg.name, value))
            .map_err(AllocError::from)?;
        Ok(())
    }

    pub fn get_str(&self, name: &str) -> Option<&str> {
        let found = self.values.iter().find(|(given, _)| *given == name)?;
        Some(found.1.as_str())
    }

    pub fn get_flag(&self, name: &str) -> bool {
        self.get_str(name) == Some("true")
    }

    pub fn try_get_one<T: FromStr>(&self, name: &str) -> Result<Option<T>, Error> {
        match self.get_str(name) {
            Some(text) => text
                .parse()
                .map(Some)
                .map_err(|_| Error(ErrorKind::InvalidValue)),
            None => Ok(None),
        }
    }
}
