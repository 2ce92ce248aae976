//! Reading copybooks and writing answers. What goes wrong is said in words.

use crate::{output, Arguments, Failure};
use copybook::limits;
use std::borrow::Cow;
use std::ffi::OsStr;
use std::fs::File;
use std::io::{self, BufWriter, ErrorKind, IsTerminal, Read, Write};
use std::sync::OnceLock;

/// No copybook is longer, and one byte more shows that a text is too long.
const MOST: u64 = limits::MOST_BYTES as u64 + 1;

/// A copybook, and what messages call it.
pub struct Source {
    pub name: String,
    pub text: Vec<u8>,
}

/// Why something could not be opened, read or written.
fn reason(e: &io::Error) -> String {
    match e.kind() {
        ErrorKind::NotFound => "there is no such file".into(),
        ErrorKind::IsADirectory => "this is a directory, not a file".into(),
        ErrorKind::PermissionDenied => "there is no permission to read it".into(),
        _ => e.to_string(),
    }
}

fn read_from(mut file: impl Read) -> io::Result<Vec<u8>> {
    let mut text = Vec::new();
    file.by_ref().take(MOST).read_to_end(&mut text)?;
    Ok(text)
}

/// The option that has every byte over 127 read as `?`.
pub const ANY_BYTES: &str = "--any-bytes";

/// The copybook in a file, or on standard input where none is named, or `-`, as the options have it read.
pub fn read(file: Option<&OsStr>, arguments: &Arguments) -> Result<Source, Failure> {
    let source = read_whole(file)?;
    if !arguments.has(ANY_BYTES) {
        return Ok(source);
    }
    match copybook::any_bytes(&source.text) {
        Cow::Borrowed(_) => Ok(source),
        Cow::Owned(text) => {
            say!("{}: {}", source.name, replaced(&source.text));
            Ok(Source { text, ..source })
        }
    }
}

/// How many bytes of a text are over 127, and on which lines.
fn replaced(text: &[u8]) -> String {
    /// No more lines are named.
    const MOST: usize = 10;
    let over = |line: &[u8]| line.iter().filter(|b| !b.is_ascii()).count();
    let lines: Vec<(usize, usize)> =
        text.split(|&b| b == b'\n').map(over).zip(1..).filter(|(count, _)| *count > 0).collect();
    let bytes: usize = lines.iter().map(|(count, _)| count).sum();
    let mut named: Vec<String> = lines.iter().take(MOST).map(|(_, line)| line.to_string()).collect();
    if lines.len() > MOST {
        named.push(format!("and {} more", lines.len() - MOST));
    }
    let (are, s) = (if bytes == 1 { " is" } else { "s are" }, if lines.len() == 1 { "" } else { "s" });
    format!("{bytes} byte{are} over 127 and read as ?, on line{s} {}", named.join(", "))
}

fn read_whole(file: Option<&OsStr>) -> Result<Source, Failure> {
    let (name, text) = match file {
        Some(file) if file != "-" => (file.to_string_lossy().into_owned(), File::open(file).and_then(read_from)),
        _ => {
            let input = io::stdin();
            if input.is_terminal() {
                say!("copybook: reading the copybook from standard input; Ctrl-D ends it");
            }
            ("(standard input)".into(), read_from(input))
        }
    };
    match text {
        Ok(text) => Ok(Source { name, text }),
        Err(e) => Err(Failure::Unreadable { name, reason: reason(&e) }),
    }
}

/// Says a line on standard error, with control characters by their numbers, whatever names a copybook or a file has.
pub fn say(words: &str) {
    let lines: Vec<String> = words.split('\n').map(harmless).collect();
    // there is nowhere else to say that this fails
    let _ = writeln!(io::stderr(), "{}", lines.join("\n"));
}

/// A line without control characters but tabs, under which marks stand.
fn harmless(line: &str) -> String {
    line.split('\t').map(copybook::escaped).collect::<Vec<String>>().join("\t")
}

/// A line of an answer for programs: on a terminal with control characters by their numbers, else as it is. The system
/// is asked once what standard output is.
pub fn for_output(line: &str) -> Cow<'_, str> {
    static IS_TERMINAL: OnceLock<bool> = OnceLock::new();
    match *IS_TERMINAL.get_or_init(|| io::stdout().is_terminal()) {
        true => Cow::Owned(copybook::escaped(line)),
        false => Cow::Borrowed(line),
    }
}

/// Has an answer written to standard output.
pub fn write(answer: impl FnOnce(&mut dyn Write) -> io::Result<()>) -> Result<(), Failure> {
    if output::was_closed() {
        return Err(Failure::Unwritable("standard output is closed".into()));
    }
    let mut out = BufWriter::new(io::stdout().lock());
    answer(&mut out).and_then(|()| out.flush()).map_err(|e| match e.kind() {
        ErrorKind::BrokenPipe => Failure::ReaderStopped,
        _ => Failure::Unwritable(format!("standard output: {e}")),
    })
}
