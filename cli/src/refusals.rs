//! How a refusal is told: its number to standard output, and its words, which are the binding's, to standard error.

use crate::files::{self, Source};
use crate::{forms, Failure, Status};
use copybook::{Form, Layout, Refusal};
use std::io::{self, Write};

/// Prints a refusal of a text.
pub fn print(refusal: &Refusal, source: &Source) -> Result<Status, Failure> {
    files::write(|out| line(refusal, out))?;
    Ok(say(refusal, source))
}

/// The line of a refusal.
pub fn line(refusal: &Refusal, out: &mut dyn Write) -> io::Result<()> {
    writeln!(out, "refused {} {}", refusal.number, refusal.position)
}

/// Says why a text is refused.
pub fn say(refusal: &Refusal, source: &Source) -> Status {
    say!("{}", refusal.told(&source.text).of_file(&source.name).trim_end());
    Status::Refused
}

/// Prints why a copybook is not laid out, and before it what may be behind that.
pub fn not_laid_out(refusal: &Refusal, source: &Source) -> Result<Status, Failure> {
    forms::hint(source, refusal.form, Err(refusal));
    print(refusal, source)
}

/// Says what is doubtful of a layout, and how the command ends then: it has no entries, whoever reads the answer; or,
/// of an answer for people, its text seems to be written in another form.
pub fn doubts(layout: &Layout, source: &Source, form: Form, for_people: bool) -> Status {
    let is_empty = layout.top_len() == 0;
    if is_empty {
        say!("{}: no item: the text has no statement but empty ones and level 88", source.name);
    }
    match forms::hint(source, form, Ok(layout)) && for_people || is_empty {
        true => Status::Doubtful,
        false => Status::Answered,
    }
}
