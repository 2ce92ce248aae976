//! The command `copybook`: layouts of COBOL copybooks, over the binding of the proved library. What is proved is the
//! library; what prints is here, and docs/FORMATS.md says how.
//!
//! Exit status: 0 answered, 1 refused, 2 misuse, or something could not be read or written, 3 answered with a doubt.
//! The answer goes to standard output, words about it to standard error.

/// Says a line on standard error, as [`files::say`] does.
macro_rules! say {
    ($($words:tt)*) => {
        $crate::files::say(&format!($($words)*))
    };
}

mod arguments;
mod extract;
mod facts;
mod files;
mod flat;
mod forms;
mod help;
mod key;
mod layout;
mod machines;
mod nearest;
mod output;
mod owner;
mod picture;
mod places;
mod reasons;
mod refusals;
mod table;

use arguments::Arguments;
use help::Opt;
use std::ffi::OsString;
use std::process::ExitCode;

/// One command. A new one is a module that has such a value, and its line in [`COMMANDS`].
pub struct Command {
    pub name: &'static str,
    /// Its line in `copybook help`.
    pub summary: &'static str,
    /// The words behind its name.
    pub usage: &'static str,
    /// What it answers. Here and in the notes an empty line parts paragraphs; what is typed or printed is indented.
    pub about: &'static str,
    pub options: &'static [Opt],
    /// What is to be said behind the options.
    pub notes: &'static str,
    pub run: fn(&Arguments) -> Result<Status, Failure>,
}

const COMMANDS: &[Command] =
    &[layout::COMMAND, owner::COMMAND, reasons::COMMAND, extract::COMMAND, key::COMMAND, picture::COMMAND];

/// How a command ended that could be carried out.
/// Of several, the last is the worst.
#[derive(Debug, Clone, Copy, PartialEq, Eq, PartialOrd, Ord)]
pub enum Status {
    Answered,
    /// Answered, and something was said of the answer that people should read.
    Doubtful,
    Refused,
    /// There is no answer for a file, and it was said why.
    Failed,
}

/// Why a command could not be carried out.
#[derive(Debug)]
pub enum Failure {
    /// The words of the command line are no use of the command.
    Misuse(String),
    /// A file, by its name, could not be read.
    Unreadable { name: String, reason: String },
    /// The answer could not be written.
    Unwritable(String),
    /// Whoever read the answer has read enough.
    ReaderStopped,
}

fn command(name: &str) -> Result<&'static Command, Failure> {
    COMMANDS.iter().find(|c| c.name == name).ok_or_else(|| {
        let names: Vec<&str> = COMMANDS.iter().map(|c| c.name).collect();
        let meant = nearest::question(name, names.iter().chain(&["help", "--help", "--version"]).copied());
        let all = format!("; there are {}, help and --version", names.join(", "));
        Failure::Misuse(format!("there is no command {name}{}", if meant.is_empty() { all } else { meant }))
    })
}

fn print(text: &str) -> Result<Status, Failure> {
    files::write(|out| out.write_all(text.as_bytes()))?;
    Ok(Status::Answered)
}

/// `copybook help [COMMAND]`, or with a word of [`help::MADE`].
fn print_help(words: &[OsString]) -> Result<Status, Failure> {
    match words {
        [] => print(&help::all()),
        [name] => match help::MADE.iter().find(|(word, _)| name == word) {
            Some((_, made)) => print(&made()),
            None => print(&help::one(command(&name.to_string_lossy())?)),
        },
        _ => Err(Failure::Misuse("help takes one COMMAND, or none".into())),
    }
}

fn run(words: &[OsString]) -> Result<Status, Failure> {
    let Some((first, rest)) = words.split_first() else {
        return Err(Failure::Misuse("no command".into()));
    };
    match &*first.to_string_lossy() {
        "help" | "--help" | "-h" => print_help(rest),
        "--version" | "-V" => print(concat!("copybook ", env!("CARGO_PKG_VERSION"), "\n")),
        name => {
            let command = command(name)?;
            match Arguments::parse(command, rest)? {
                None => print(&help::one(command)),
                Some(arguments) => (command.run)(&arguments),
            }
        }
    }
}

/// What is said of words that are no use of the command: the command's own name and help, if they begin with one.
fn misuse(words: &[OsString], what: &str) -> String {
    match words.first().and_then(|word| COMMANDS.iter().find(|c| word == c.name)) {
        Some(c) => format!("copybook {}: {what}\nTry: copybook {} --help", c.name, c.name),
        None => format!("copybook: {what}\nTry: copybook help"),
    }
}

fn main() -> ExitCode {
    let words: Vec<OsString> = std::env::args_os().skip(1).collect();
    match run(&words) {
        Ok(Status::Answered) => ExitCode::SUCCESS,
        Ok(Status::Refused) => ExitCode::from(1),
        Ok(Status::Doubtful) => ExitCode::from(3),
        Ok(Status::Failed) => ExitCode::from(2),
        Err(Failure::Misuse(what)) => {
            say!("{}", misuse(&words, &what));
            ExitCode::from(2)
        }
        Err(Failure::Unreadable { name, reason }) => {
            say!("copybook: {name}: {reason}");
            ExitCode::from(2)
        }
        Err(Failure::Unwritable(what)) => {
            say!("copybook: {what}");
            ExitCode::from(2)
        }
        Err(Failure::ReaderStopped) => ExitCode::SUCCESS,
    }
}
