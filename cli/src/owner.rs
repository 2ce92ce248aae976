//! `copybook owner`: whose a byte of the record is, or every byte.

use crate::help::{Opt, ANY_BYTES, CARDS};
use crate::places::{self, Places};
use crate::{files, forms, refusals, Arguments, Command, Failure, Status};
use copybook::{Entry, FieldKind, Form, Layout, Owner, Reader, Refusal};
use std::ffi::OsStr;
use std::io::{self, Write};

pub const COMMAND: Command = Command {
    name: "owner",
    summary: "whose the byte at a position of the record is, or every byte",
    usage: "[--cards] [--any-bytes] [--from-1] [--hex] [FILE] [POSITION]",
    about: "\
Whose the byte at a position of the record is. Positions count from 0, and 0x1a is one in hexadecimal:

    POSITION entry NUMBER PATH KIND WIDTH first FIRST place PLACE
    POSITION slack before NUMBER PATH
    POSITION slack at the end of NUMBER PATH

Without a position, one line for each piece of the record and each run of slack, in the record's order:

    FIRST-LAST entry NUMBER PATH KIND WIDTH
    FIRST-LAST slack before NUMBER PATH
    FIRST-LAST slack at the end of NUMBER PATH

NUMBER is the entry's in the layout, from 0; FIRST the first byte of the piece, one occurrence of the item, and PLACE
the byte's place in it. PATH has the names of the groups around the item and its own, joined by periods, and after
each name with an OCCURS which of them it is, from 1: PEN(3).FISH(2).TAG.
",
    options: &[
        CARDS,
        ANY_BYTES,
        Opt::flag(places::FROM_1, "POSITION, FIRST, LAST and PLACE count from 1, and not from 0"),
        Opt::flag(places::HEX, "they are printed in hexadecimal, as 0x1a"),
    ],
    notes: "\
One word of digits alone is a POSITION; a FILE of such a name is ./12. A copybook with REDEFINES or DEPENDING ON is
refused (40): its bytes have no single owner. See copybook layout --table for it.
",
    run,
};

/// Where in the list of an entry's occurrences a place of its list is: which occurrence, from 0, and where in it.
fn occurrence(entry: &Entry, place: usize) -> (usize, usize) {
    let past = place.saturating_sub(entry.offset);
    match entry.width {
        0 => (0, 0),
        width => (past / width, past % width),
    }
}

/// The name of an entry, and which of its occurrences has a place of its list.
fn named(entry: &Entry, place: usize) -> String {
    let name = copybook::escaped(entry.name.unwrap_or("FILLER"));
    match entry.occurs {
        Some(_) => format!("{name}({})", occurrence(entry, place).0 + 1),
        None => name,
    }
}

/// A record whose owners are asked for: its text and its entries.
struct Record<'t> {
    text: &'t [u8],
    entries: Vec<Entry<'t>>,
    reader: Reader,
    places: Places,
}

impl<'t> Record<'t> {
    fn new(form: Form, text: &'t [u8], layout: &Layout<'t, '_>, places: Places) -> Record<'t> {
        Record { text, entries: layout.entries().collect(), reader: Reader::of(form), places }
    }

    fn owner(&mut self, position: usize) -> Result<Owner, Refusal> {
        self.reader.owner(self.text, position)
    }

    /// The groups around an entry, the outermost first.
    fn around(&self, number: usize) -> Vec<&Entry<'t>> {
        let mut depth = self.entries[number].depth;
        let mut groups = Vec::new();
        for entry in self.entries[..number].iter().rev() {
            if entry.depth < depth {
                depth = entry.depth;
                groups.push(entry);
            }
        }
        groups.reverse();
        groups
    }

    /// The groups around an entry with a period after each, and where in the innermost a position of the record is.
    fn path(&self, number: usize, position: usize) -> (String, usize) {
        let mut path = String::new();
        let mut place = position;
        for group in self.around(number) {
            path += &named(group, place);
            path.push('.');
            place = occurrence(group, place).1;
        }
        (path, place)
    }

    /// The words for the piece of an entry that has a position.
    fn piece(&self, number: usize, position: usize) -> String {
        let (path, place) = self.path(number, position);
        let entry = &self.entries[number];
        format!("entry {number} {path}{} {} {}", named(entry, place), entry.kind.word(), entry.width)
    }

    /// The words for the slack at a position: that of a group stands at the end of each of its occurrences, that of an
    /// item before all of them.
    fn slack(&self, number: usize, position: usize) -> String {
        let (path, place) = self.path(number, position);
        let entry = &self.entries[number];
        match entry.kind {
            FieldKind::Group { .. } => format!("slack at the end of {number} {path}{}", named(entry, place)),
            _ => format!("slack before {number} {path}{}", copybook::escaped(entry.name.unwrap_or("FILLER"))),
        }
    }

    /// The line of one position.
    fn at(&mut self, position: usize) -> Result<String, Refusal> {
        let owner = self.owner(position)?;
        let shown = |place: usize| self.places.shown(place as u64);
        Ok(match owner {
            Owner::Piece { entry, first, place } => {
                let piece = self.piece(entry, position);
                format!("{} {piece} first {} place {}", shown(position), shown(first), shown(place))
            }
            Owner::Slack { entry } => format!("{} {}", shown(position), self.slack(entry, position)),
        })
    }

    /// The line of the piece or slack that begins at a position, and the position after it.
    fn from(&mut self, first: usize) -> Result<(String, usize), Refusal> {
        let places = self.places;
        let range = |after: usize| format!("{}-{}", places.shown(first as u64), places.shown(after as u64 - 1));
        match self.owner(first)? {
            Owner::Piece { entry, .. } => {
                let after = first + self.entries[entry].width;
                Ok((format!("{} {}", range(after), self.piece(entry, first)), after))
            }
            slack @ Owner::Slack { entry } => {
                let mut after = first + 1;
                while self.owner(after) == Ok(slack) {
                    after += 1;
                }
                Ok((format!("{} {}", range(after), self.slack(entry, first)), after))
            }
        }
    }

    /// A line for each piece and each run of slack.
    fn all(&mut self, length: usize, out: &mut dyn Write) -> io::Result<()> {
        let mut position = 0;
        while position < length {
            let (line, after) = self.from(position).expect("a byte below the record length has an owner");
            writeln!(out, "{line}")?;
            position = after;
        }
        Ok(())
    }
}

/// The FILE and the POSITION of the command line.
fn asked(arguments: &Arguments, places: Places) -> Result<(Option<&OsStr>, Option<usize>), Failure> {
    let position = |word: &OsStr| {
        let (shown, from) = (word.to_string_lossy(), places.from);
        let none = || Failure::Misuse(format!("{shown} is no position: digits alone, from {from}"));
        word.to_str().and_then(|word| places.read(word)).map(Some).ok_or_else(none)
    };
    match arguments.operands.as_slice() {
        [] => Ok((None, None)),
        [one] if Places::is_written(one) => Ok((None, position(one)?)),
        [one] => Ok((Some(one), None)),
        [file, second] => Ok((Some(file), position(second)?)),
        _ => Err(Failure::Misuse("one FILE and one POSITION at most".into())),
    }
}

/// The refusal of a position that is not below the record length.
const PAST_RECORD: u32 = 41;

fn run(arguments: &Arguments) -> Result<Status, Failure> {
    let places = Places::asked(arguments);
    let (file, position) = asked(arguments, places)?;
    let form = forms::asked(arguments);
    let source = files::read(file, arguments)?;
    let layout = match form.layout(&source.text) {
        Ok(layout) => layout,
        Err(refusal) => return refusals::not_laid_out(&refusal, &source),
    };
    let status = refusals::doubts(&layout, &source, form, true);
    let mut record = Record::new(form, &source.text, &layout, places);
    if let Some(position) = position {
        match record.at(position) {
            Ok(line) => files::write(|out| writeln!(out, "{line}"))?,
            Err(refusal) => return refusals::print(&refusal, &source),
        }
        return Ok(status);
    }
    // of an empty record no byte is asked for
    if let Some(refusal) = record.owner(0).err().filter(|refusal| refusal.number != PAST_RECORD) {
        return refusals::print(&refusal, &source);
    }
    files::write(|out| record.all(layout.record_len(), out))?;
    Ok(status)
}
