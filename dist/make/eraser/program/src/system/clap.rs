//! The package clap, in the form in which the program calls it.
//!
//! clap has no answer for memory that is refused, so a refusal within it ends the program ([`super::Refusing`]).

use super::alloc::{AllocError, Global};
use super::refusing::or_end;
use super::text::String;
use alloc::string::ToString;
use alloc::{boxed::Box, string, vec};
pub use ::clap::ArgAction;
use core::fmt;
use core::marker::PhantomData;

/// What is wrong with the words.
pub mod error {
    /// The kind of an error.
    #[derive(Clone, Copy, Debug, PartialEq, Eq)]
    pub enum ErrorKind {
        /// An allocation was refused. It is never made, since the program ends then.
        OutOfMemory,
        /// The words are not understood, or ask for help or the version.
        Words(::clap::error::ErrorKind),
    }
}

/// Why words are refused, or the help that they ask for.
#[derive(Debug)]
pub struct Error(::clap::Error);

impl Error {
    /// Its kind.
    pub fn kind(&self) -> error::ErrorKind {
        error::ErrorKind::Words(self.0.kind())
    }

    /// The status of the program: 0 for help and the version, and 2 for others.
    pub fn exit_code(&self) -> i32 {
        self.0.exit_code()
    }
}

impl fmt::Display for Error {
    fn fmt(&self, f: &mut fmt::Formatter<'_>) -> fmt::Result {
        let text = or_end(|| self.0.to_string());
        f.write_str(&text)
    }
}

/// A command.
pub struct Command<'a>(::clap::Command, PhantomData<&'a str>);

/// An argument of a command.
pub struct Arg<'a>(::clap::Arg, PhantomData<&'a str>);

/// The words that were given, by their names.
pub struct ArgMatches<'a> {
    found: ::clap::ArgMatches,
    below: Option<(string::String, Box<ArgMatches<'a>>)>,
    words: PhantomData<&'a str>,
}

impl<'a> Arg<'a> {
    fn with(self, change: impl FnOnce(::clap::Arg) -> ::clap::Arg) -> Arg<'a> {
        Arg(or_end(|| change(self.0)), PhantomData)
    }

    /// A positional argument with this name.
    pub fn new(_: Global, name: &'a str) -> Arg<'a> {
        Arg(or_end(|| ::clap::Arg::new(name.to_string())), PhantomData)
    }

    /// Whether it has to be there.
    pub fn required(self, is_on: bool) -> Arg<'a> {
        self.with(|arg| arg.required(is_on))
    }

    /// What is done with its values.
    pub fn action(self, action: ArgAction) -> Arg<'a> {
        self.with(|arg| arg.action(action))
    }

    /// What its value is called in the help.
    pub fn value_name(self, name: &'a str) -> Arg<'a> {
        self.with(|arg| arg.value_name(name.to_string()))
    }

    /// Its value where none is given.
    pub fn default_value(self, value: &'a str) -> Arg<'a> {
        self.with(|arg| arg.default_value(value.to_string()))
    }

    /// It is an option with this name, behind two dashes.
    pub fn long(self, name: &'a str) -> Arg<'a> {
        self.with(|arg| arg.long(name.to_string()))
    }

    /// Its line in the help.
    pub fn help(self, text: &'a str) -> Arg<'a> {
        self.with(|arg| arg.help(text.to_string()))
    }
}

impl<'a> Command<'a> {
    fn with(self, change: impl FnOnce(::clap::Command) -> ::clap::Command) -> Command<'a> {
        Command(or_end(|| change(self.0)), PhantomData)
    }

    /// A command with this name.
    pub fn new(_: Global, name: &'a str) -> Command<'a> {
        Command(or_end(|| ::clap::Command::new(name.to_string())), PhantomData)
    }

    /// What it does, in the help.
    pub fn about(self, text: &'a str) -> Command<'a> {
        self.with(|command| command.about(text.to_string()))
    }

    /// The end of its help.
    pub fn after_help(self, text: &'a str) -> Command<'a> {
        self.with(|command| command.after_help(text.to_string()))
    }

    /// Whether a subcommand has to be there.
    pub fn subcommand_required(self, is_on: bool) -> Command<'a> {
        self.with(|command| command.subcommand_required(is_on))
    }

    /// What `--version` prints behind the name.
    pub fn version(self, text: &'a str) -> Command<'a> {
        self.with(|command| command.version(text.to_string()))
    }

    /// What the program is called in the help.
    ///
    /// # Errors
    ///
    /// None: the program ends where memory is refused. The same holds below.
    pub fn bin_name(self, name: &'a str) -> Result<Command<'a>, AllocError> {
        Ok(self.with(|command| command.bin_name(name.to_string())))
    }

    /// With an argument more.
    ///
    /// # Errors
    ///
    /// None.
    pub fn arg(self, arg: Arg<'a>) -> Result<Command<'a>, AllocError> {
        Ok(self.with(|command| command.arg(arg.0)))
    }

    /// With a subcommand more.
    ///
    /// # Errors
    ///
    /// None.
    pub fn subcommand(self, sub: Command<'a>) -> Result<Command<'a>, AllocError> {
        Ok(self.with(|command| command.subcommand(sub.0)))
    }

    /// What the words say. The first is the program's name.
    ///
    /// # Errors
    ///
    /// The words are not understood, or ask for help or the version.
    pub fn try_get_matches_from(self, words: &'a [String]) -> Result<ArgMatches<'a>, Error> {
        let found = or_end(|| {
            let words: vec::Vec<string::String> = words.iter().map(|it| it.as_str().to_string()).collect();
            self.0.try_get_matches_from(words).map(ArgMatches::of)
        });
        found.map_err(Error)
    }
}

impl<'a> ArgMatches<'a> {
    fn of(mut found: ::clap::ArgMatches) -> ArgMatches<'a> {
        let below = found.remove_subcommand().map(|(name, sub)| (name, Box::new(ArgMatches::of(sub))));
        ArgMatches { found, below, words: PhantomData }
    }

    /// The value of an argument; of a flag `true` or `false`.
    pub fn get_str(&self, name: &str) -> Option<&str> {
        if let Ok(Some(is_on)) = self.found.try_get_one::<bool>(name) {
            return Some(if *is_on { "true" } else { "false" });
        }
        self.found.try_get_one::<string::String>(name).ok()?.map(string::String::as_str)
    }

    /// The values of an argument, in their order.
    pub fn get_strs(&self, name: &str) -> Option<impl Iterator<Item = &str>> {
        Some(self.found.get_many::<string::String>(name)?.map(string::String::as_str))
    }

    /// The subcommand that was given, and what it has.
    pub fn subcommand(&self) -> Option<(&str, &ArgMatches<'a>)> {
        self.below.as_ref().map(|(name, found)| (name.as_str(), &**found))
    }
}
