//! The words of a command line after the command: options, and the others in order.

use crate::{nearest, Command, Failure};
use std::ffi::OsString;

/// The words of one use of a command.
#[derive(Debug, Default)]
pub struct Arguments {
    /// Options with their values; a flag's is empty.
    options: Vec<(&'static str, String)>,
    /// The words that are no options.
    pub operands: Vec<OsString>,
}

impl Arguments {
    /// Reads the words by the options that the command has; none if help is asked for. `--` ends the options, and `-`
    /// is no option.
    pub fn parse(command: &Command, words: &[OsString]) -> Result<Option<Arguments>, Failure> {
        let mut arguments = Arguments::default();
        let mut words = words.iter();
        while let Some(word) = words.next() {
            let shown = word.to_string_lossy();
            match &*shown {
                "--" => arguments.operands.extend(words.by_ref().cloned()),
                "--help" | "-h" => return Ok(None),
                option if option.starts_with('-') && option != "-" => {
                    arguments.options.push(read_option(command, option, &mut words)?)
                }
                _ => arguments.operands.push(word.clone()),
            }
        }
        Ok(Some(arguments))
    }

    pub fn has(&self, flag: &str) -> bool {
        self.options.iter().any(|(name, _)| *name == flag)
    }

    /// The value of an option, the last one if it stands twice.
    pub fn value(&self, option: &str) -> Option<&str> {
        self.options.iter().rev().find(|(name, _)| *name == option).map(|(_, value)| value.as_str())
    }
}

/// One option with its value, which is in the word after an equals sign, or else the next word.
fn read_option<'w>(
    command: &Command,
    word: &str,
    next: &mut impl Iterator<Item = &'w OsString>,
) -> Result<(&'static str, String), Failure> {
    let (name, value) = match word.split_once('=') {
        Some((name, value)) => (name, Some(value.to_owned())),
        None => (word, None),
    };
    let Some(option) = command.options.iter().find(|option| option.name == name) else {
        let known = command.options.iter().map(|option| option.name).chain(["--help"]);
        return Err(Failure::Misuse(format!("there is no option {name}{}", nearest::question(name, known))));
    };
    match (option.value, value) {
        (None, None) => Ok((option.name, String::new())),
        (None, Some(_)) => Err(Failure::Misuse(format!("{name} takes no value"))),
        (Some(_), Some(value)) => Ok((option.name, value)),
        (Some(_), None) => match next.next() {
            Some(value) => Ok((option.name, value.to_string_lossy().into_owned())),
            None => Err(Failure::Misuse(format!("{name} needs a value"))),
        },
    }
}
