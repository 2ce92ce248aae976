//! `copybook reasons`: why an entry of the layout stands where it does, in sentences; and the words for the table.

use crate::help::{Opt, ANY_BYTES, CARDS};
use crate::places::{self, Places};
use crate::{files, forms, nearest, refusals, Arguments, Command, Failure, Status};
use copybook::{Details, Entry, Form, Layout, Reader, Reason, Refusal, Word};
use std::ffi::OsStr;
use std::io::{self, Write};

pub const COMMAND: Command = Command {
    name: "reasons",
    summary: "why a column starts where it does",
    usage: "[--cards] [--any-bytes] [--from-1] [--hex] [FILE] [ENTRY|NAME]",
    about: "\
Why an entry of the layout starts where it does, by its number, from 0, or by its name, letter case aside; every entry
of that name, with its number if there are several; and without either every entry of the layout:

    NAME starts at byte FIRST: directly after SIBLING, at PLACE; 1 byte of slack, aligned to 2

An item is the first of its list, or stands directly after the latest item before it without REDEFINES, and after the
slack at the end of that, or is laid over the item that it redefines. Places count from the start of the list; each group around the item has a line, the
outermost last, with the bytes before the item so far. An item and those that redefine it stand together in a group of
the item's name, which starts where the item does.
",
    options: &[
        CARDS,
        ANY_BYTES,
        Opt::flag(places::FROM_1, "bytes and places count from 1, and not from 0"),
        Opt::flag(places::HEX, "bytes and places are hexadecimal, as 0x1a"),
    ],
    notes: "\
One word alone is a FILE, or an ENTRY if it is digits alone; of a copybook on standard input a NAME comes after -.
",
    run,
};

fn name(word: Option<Word>) -> String {
    copybook::escaped(word.map_or("FILLER", |word| word.word))
}

fn bytes(n: u64) -> String {
    format!("{n} byte{}", if n == 1 { "" } else { "s" })
}

/// One item of a chain: the group that the ones before it are inside of, if it is one; what placed it; the bytes so
/// far.
struct Step {
    group: Option<String>,
    placed: String,
    so_far: u64,
}

/// How reasons are told: how places are shown, and of which groups the slack at the end takes bytes of their lists. A
/// group is known by its name, as a part of the text.
pub struct Telling<'t> {
    places: Places,
    padded: Vec<&'t str>,
}

impl<'t> Telling<'t> {
    pub fn new(layout: &Layout<'t, '_>, details: &Details<'t, '_>, places: Places) -> Telling<'t> {
        let ends = layout.entries().zip(details.iter());
        let padded = ends.filter(|(entry, detail)| detail.slack_at_end > 0 && entry.reserved_width() > 0);
        Telling { places, padded: padded.filter_map(|(entry, _)| entry.name).collect() }
    }

    /// What is said behind the name of a sibling.
    fn slack_at_end(&self, sibling: Option<Word>) -> &'static str {
        let is = |padded: &&str| sibling.is_some_and(|word| std::ptr::eq(word.word, *padded));
        if self.padded.iter().any(is) {
            " and the slack at its end"
        } else {
            ""
        }
    }
}

/// The items of an entry's chain, the entry's own first, in words. A width of 2, 4 or 8 is what slack aligns to.
fn steps<'t>(reasons: impl Iterator<Item = Reason<'t>>, width: usize, telling: &Telling) -> Vec<Step> {
    let places = telling.places;
    let mut steps: Vec<Step> = Vec::new();
    let (mut group, mut so_far) = (None, 0);
    for reason in reasons {
        so_far += reason.adds() as u64;
        let words = match reason {
            Reason::First => "first in its list".into(),
            Reason::After { name: sibling, end } => {
                let slack = telling.slack_at_end(sibling);
                format!("directly after {}{slack}, at {}", name(sibling), places.shown(end as u64))
            }
            Reason::Over { name: target, offset } => {
                format!("laid over {}, at {}", name(target), places.shown(offset as u64))
            }
            Reason::Slack { bytes: n } => {
                let step = steps.last_mut().expect("slack comes after what placed the item");
                step.placed += &format!("; {} of slack, aligned to {width}", bytes(n as u64));
                step.so_far = so_far;
                continue;
            }
            Reason::Inside { name: around } => {
                group = Some(name(around));
                continue;
            }
        };
        steps.push(Step { group: group.take(), placed: words, so_far });
    }
    steps
}

/// Why an entry stands where it does, in one line: `directly after TAG, at 5; inside G: first in its list`. Names have
/// control characters by their numbers.
pub fn line(reader: &mut Reader, text: &[u8], entry: &Entry, telling: &Telling) -> Result<String, Refusal> {
    let steps = steps(reader.reasons(text, entry.number)?.iter(), entry.width, telling);
    let words = steps.iter().map(|step| match &step.group {
        Some(group) => format!("; inside {group}: {}", step.placed),
        None => step.placed.clone(),
    });
    Ok(words.collect())
}

/// The sentences of an entry, after a few words: a line for itself and one for each group around it, with the bytes so
/// far.
fn sentences(
    reader: &mut Reader,
    text: &[u8],
    entry: &Entry,
    telling: &Telling,
    before: &str,
) -> Result<String, Refusal> {
    let found = reader.reasons(text, entry.number)?;
    let steps = steps(found.iter(), entry.width, telling);
    let item = copybook::escaped(entry.name.unwrap_or("FILLER"));
    let mut out = format!("{before}{item} starts at byte {}: ", telling.places.shown(found.sum()));
    for step in &steps {
        if let Some(group) = &step.group {
            out += &format!("  inside {group}: ");
        }
        out += &step.placed;
        if steps.len() > 1 {
            out += &format!("; {} so far", bytes(step.so_far));
        }
        out.push('\n');
    }
    Ok(out)
}

/// The entries that are asked for: the one of a number, those of a name, or all.
enum Asked<'w> {
    Number(usize),
    Name(&'w str),
    All,
}

/// The number of an ENTRY: digits alone. One of more digits than a number has is behind every listing.
fn number(word: &OsStr) -> Option<usize> {
    let digits = word.to_str().filter(|w| !w.is_empty() && w.bytes().all(|b| b.is_ascii_digit()))?;
    Some(digits.parse().unwrap_or(usize::MAX))
}

/// The FILE and the ENTRY or NAME of the command line.
fn asked(arguments: &Arguments) -> Result<(Option<&OsStr>, Asked<'_>), Failure> {
    match arguments.operands.as_slice() {
        [] => Ok((None, Asked::All)),
        [one] => Ok(number(one).map_or((Some(one.as_os_str()), Asked::All), |n| (None, Asked::Number(n)))),
        [file, word] => match (number(word), word.to_str()) {
            (Some(number), _) => Ok((Some(file), Asked::Number(number))),
            (None, Some(name)) => Ok((Some(file), Asked::Name(name))),
            (None, None) => Err(Failure::Misuse("a NAME is text".into())),
        },
        _ => Err(Failure::Misuse("one FILE, or none to read standard input, and one ENTRY or NAME at most".into())),
    }
}

fn of_name<'t>(layout: &Layout<'t, '_>, name: &str) -> Vec<Entry<'t>> {
    layout.entries().filter(|e| e.name.unwrap_or("FILLER").eq_ignore_ascii_case(name)).collect()
}

/// All that is printed of these entries.
fn all(form: Form, text: &[u8], entries: &[Entry], telling: &Telling, out: &mut dyn Write) -> io::Result<()> {
    let mut reader = Reader::of(form);
    for entry in entries {
        let before = if entries.len() > 1 { format!("entry {}: ", entry.number) } else { String::new() };
        let told = sentences(&mut reader, text, entry, telling, &before).expect("an entry of the layout has reasons");
        out.write_all(told.as_bytes())?;
    }
    Ok(())
}

fn run(arguments: &Arguments) -> Result<Status, Failure> {
    let (file, asked) = asked(arguments)?;
    let form = forms::asked(arguments);
    let source = files::read(file, arguments)?;
    let (layout, details) = match form.layout_and_details(&source.text) {
        Ok(answer) => answer,
        Err(refusal) => return refusals::not_laid_out(&refusal, &source),
    };
    let status = refusals::doubts(&layout, &source, form, true);
    let entries: Vec<Entry> = match asked {
        Asked::All => layout.entries().collect(),
        Asked::Name(name) => match of_name(&layout, name) {
            none if none.is_empty() => {
                let names = layout.entries().map(|e| e.name.unwrap_or("FILLER"));
                say!("{}: no entry is called {name}{}", source.name, nearest::question(name, names));
                return Ok(Status::Refused);
            }
            entries => entries,
        },
        Asked::Number(number) => match form.reasons(&source.text, number) {
            Ok(_) => layout.entries().skip(number).take(1).collect(),
            Err(refusal) => return refusals::print(&refusal, &source),
        },
    };
    let telling = Telling::new(&layout, &details, Places::asked(arguments));
    files::write(|out| all(form, &source.text, &entries, &telling, out))?;
    Ok(status)
}
