//! `copybook key`: the column of one name that every copybook of a set has in the same place; and where there is none,
//! which copybook is to blame. The answer is the library's; the words for 57 are found in the layouts.

use crate::facts::{self, Facts};
use crate::files::Source;
use crate::help::ANY_BYTES;
use crate::{files, refusals, Arguments, Command, Failure, Status};
use copybook::{Entry, FieldKind, Form, NoKey, Usage};
use std::ffi::OsString;

pub const COMMAND: Command = Command {
    name: "key",
    summary: "the column of one name that several copybooks have in the same place",
    usage: "[--any-bytes] NAME FILE FILE...",
    about: "\
Where the column of that name stands in the records of two to sixteen copybooks, if that is one place in all, so that a
file which mixes them is sorted by it: the bytes before it, and its own:

    offset BYTES
    width BYTES

Each copybook must have exactly one column of that name at the top of its layout, letter case aside; it is no group, has
neither OCCURS nor REDEFINES, and stands behind no DEPENDING ON; and all agree in offset, width, kind and what the
layout says of the kind, edited ones in their mask. Else the set is refused (57), and standard error says which file
is to blame, and why. A copybook that cannot be laid out is refused as by copybook layout; - is standard input.
",
    options: &[ANY_BYTES],
    notes: "",
    run,
};

/// The key that a copybook has, in the words of what must agree.
#[derive(PartialEq, Eq)]
struct Column {
    offset: usize,
    width: usize,
    kind: String,
    holds: String,
    mask: Option<String>,
}

/// The kind with all of its details but the picture's place.
fn kind_details(kind: &FieldKind) -> String {
    match *kind {
        FieldKind::Edited { precision, scale, signed, .. } => format!("edited {precision} {scale} {signed}"),
        ref other => format!("{other:?}"),
    }
}

fn mask(kind: &FieldKind) -> Option<String> {
    match kind {
        FieldKind::Edited { picture, .. } => copybook::mask(picture.as_bytes(), Usage::Display).ok(),
        _ => None,
    }
}

/// The key of one copybook that is laid out, or why it has none.
fn column(text: &[u8], name: &[u8]) -> Result<Column, String> {
    let (layout, details) = copybook::layout_and_details(text).map_err(|refusal| refusal.to_string())?;
    let called = |e: &Entry| e.depth == 0 && e.name.unwrap_or("FILLER").as_bytes().eq_ignore_ascii_case(name);
    let found: Vec<Entry> = layout.entries().filter(called).collect();
    let shown = String::from_utf8_lossy(name);
    let entry = match found.as_slice() {
        [] if layout.entries().any(|e| e.name.is_some_and(|n| n.as_bytes().eq_ignore_ascii_case(name))) => {
            return Err(format!("{shown} stands in a group, and not at the top"));
        }
        [] => return Err(format!("no column is called {shown}")),
        [one] => one,
        several => return Err(format!("{} columns at the top are called {shown}", several.len())),
    };
    let before = layout.entries().take(entry.number).find(|e| e.depending_on.is_some());
    if matches!(entry.kind, FieldKind::Group { .. }) {
        Err(format!("{shown} is a group"))
    } else if entry.occurs.is_some() {
        Err(format!("{shown} has an OCCURS"))
    } else if entry.redefines.is_some() {
        Err(format!("{shown} has a REDEFINES"))
    } else if let Some(table) = before {
        Err(format!("{shown} stands behind {}, which has a DEPENDING ON", table.name.unwrap_or("FILLER")))
    } else {
        let number = Facts::new(Form::Free, text, &layout, &details).rows[entry.number].number;
        Ok(Column {
            offset: entry.offset,
            width: entry.width,
            kind: kind_details(&entry.kind),
            holds: facts::holds(&entry.kind, number),
            mask: mask(&entry.kind),
        })
    }
}

/// The first thing in which two keys differ, this one and that of another file.
fn differs(this: &Column, that: &Column, file: &str) -> Option<String> {
    let bytes = |n: usize| format!("{n} byte{}", if n == 1 { "" } else { "s" });
    if this.offset != that.offset {
        Some(format!("it starts at byte {}, and at {} in {file}", this.offset, that.offset))
    } else if this.width != that.width {
        Some(format!("it is {} wide, and {} in {file}", bytes(this.width), that.width))
    } else if this.kind != that.kind {
        Some(format!("it holds: {}; and in {file}: {}", this.holds, that.holds))
    } else if this.mask != that.mask {
        let shown = |mask: &Option<String>| mask.clone().unwrap_or_default();
        Some(format!("its mask is {}, and {} in {file}", shown(&this.mask), shown(&that.mask)))
    } else {
        None
    }
}

/// What is wrong with each file, a line for each that is to blame: the others are held against the first that may have
/// the key.
fn faults(sources: &[Source], name: &[u8]) -> Vec<String> {
    let columns: Vec<Result<Column, String>> = sources.iter().map(|source| column(&source.text, name)).collect();
    let model = columns.iter().zip(sources).find_map(|(column, source)| column.as_ref().ok().zip(Some(&source.name)));
    let fault = |column: &Result<Column, String>| match (column, model) {
        (Err(fault), _) => Some(fault.clone()),
        (Ok(this), Some((that, file))) => differs(this, that, file),
        (Ok(_), None) => None,
    };
    let lines = columns.iter().zip(sources).filter_map(|(column, source)| Some((source, fault(column)?)));
    lines.map(|(source, fault)| format!("{}: {fault}", source.name)).collect()
}

/// Prints why a set has no key.
fn no_key(refused: &NoKey, sources: &[Source], name: &[u8]) -> Result<Status, Failure> {
    if let Some(number) = refused.copybook {
        return refusals::not_laid_out(&refused.refusal, &sources[number]);
    }
    let refusal = refused.refusal;
    files::write(|out| writeln!(out, "refused {} {}", refusal.number, refusal.position))?;
    let mut lines = if refusal.number == NO_KEY { faults(sources, name) } else { Vec::new() };
    if lines.is_empty() {
        let count = sources.len();
        let copybooks = if count == 1 { "copybook is" } else { "copybooks are" };
        let names: String = sources.iter().map(|source| format!("{}: ", source.name)).take(1).collect();
        lines.push(format!("{names}{count} {copybooks} given, and {}", refusal.told(&[]).sentence));
    }
    say!("{}\n    {}", lines.join("\n"), refusal.advice());
    Ok(Status::Refused)
}

const NO_KEY: u32 = 57;

fn run(arguments: &Arguments) -> Result<Status, Failure> {
    let [name, files @ ..] = arguments.operands.as_slice() else {
        return Err(Failure::Misuse("a NAME and the FILEs of two to sixteen copybooks".into()));
    };
    let name = name.as_encoded_bytes();
    let read = |file: &OsString| files::read(Some(file), arguments);
    let sources = files.iter().map(read).collect::<Result<Vec<Source>, Failure>>()?;
    let texts: Vec<&[u8]> = sources.iter().map(|source| source.text.as_slice()).collect();
    match copybook::key(name, &texts) {
        Ok(key) => {
            files::write(|out| write!(out, "offset {}\nwidth {}\n", key.offset, key.width))?;
            Ok(Status::Answered)
        }
        Err(refused) => no_key(&refused, &sources, name),
    }
}
