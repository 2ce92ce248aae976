//! A layout as JSON and as CSV: the same fields, in the same order; and a refusal as JSON. docs/FORMATS.md says what
//! each field is. Where several files are asked for, each answer has the name of its own.

use crate::facts::{self, Facts, Row};
use crate::files::{self, Source};
use crate::flat::Piece;
use copybook::Refusal;
use std::io::{self, Write};

/// What a field holds.
enum Value {
    Number(u64),
    Text(String),
    Flag(bool),
    List(Vec<String>),
    Absent,
}

impl Value {
    fn number(n: Option<usize>) -> Value {
        n.map_or(Value::Absent, |n| Value::Number(n as u64))
    }

    fn text(text: Option<&str>) -> Value {
        text.map_or(Value::Absent, |text| Value::Text(text.to_owned()))
    }

    fn json(&self) -> String {
        match self {
            Value::Number(n) => n.to_string(),
            Value::Text(text) => json_string(text),
            Value::Flag(flag) => flag.to_string(),
            Value::List(texts) => {
                format!("[{}]", texts.iter().map(|text| json_string(text)).collect::<Vec<_>>().join(", "))
            }
            Value::Absent => "null".into(),
        }
    }

    fn csv(&self) -> String {
        match self {
            Value::Number(n) => n.to_string(),
            Value::Text(text) => csv_cell(text),
            Value::Flag(flag) => flag.to_string(),
            Value::List(texts) if texts.is_empty() => String::new(),
            Value::List(texts) => csv_cell(&texts.join(" ")),
            Value::Absent => String::new(),
        }
    }
}

/// Between quotes, with quotes, backslashes and control characters escaped.
fn json_string(text: &str) -> String {
    let mut quoted = String::from("\"");
    for c in text.chars() {
        match c {
            '"' | '\\' => quoted.extend(['\\', c]),
            c if c.is_control() => quoted += &format!("\\u{:04x}", c as u32),
            c => quoted.push(c),
        }
    }
    quoted + "\""
}

/// Between quotes, with quotes doubled, if it has a comma, a quote, a control character or a blank, or is empty.
fn csv_cell(text: &str) -> String {
    if text.is_empty() || text.contains(|c: char| c == ',' || c == '"' || c == ' ' || c.is_control()) {
        return format!("\"{}\"", text.replace('"', "\"\""));
    }
    text.to_owned()
}

type OfRecord = fn(&Facts<'_>) -> Value;
type OfEntry = fn(&Facts<'_>, &Row<'_>) -> Value;
type OfPiece = fn(&Facts<'_>, &[Piece<'_, '_>], &Piece<'_, '_>) -> Value;

/// The fields of the record: their names, and what each holds.
const RECORD: &[(&str, OfRecord)] = &[
    ("record", |f| Value::text(f.record.map(|record| record.name.map_or("FILLER", |name| name.word)))),
    ("record_level", |f| Value::number(f.record.map(|record| record.level.into()))),
    ("record_length", |f| Value::Number(f.record_len as u64)),
    ("variable", |f| Value::Flag(f.variable)),
    ("shortest", |f| Value::Number(f.shortest)),
    ("longest", |f| Value::Number(f.longest)),
];

/// The fields of an entry.
const ENTRY: &[(&str, OfEntry)] = &[
    ("number", |_, r| Value::Number(r.entry.number as u64)),
    ("group", |_, r| Value::number(r.group)),
    ("depth", |_, r| Value::Number(r.entry.depth as u64)),
    ("level", |_, r| Value::Number(r.detail.level.into())),
    ("name", |_, r| Value::Text(r.name().into())),
    ("path", |_, r| Value::Text(r.path.clone())),
    ("first", |_, r| Value::Number(r.detail.first)),
    ("last", |_, r| r.last().map_or(Value::Absent, Value::Number)),
    ("offset", |_, r| Value::Number(r.entry.offset as u64)),
    ("width", |_, r| Value::Number(r.entry.width as u64)),
    ("kind", |_, r| Value::Text(r.entry.kind.word().into())),
    ("holds", |_, r| Value::Text(facts::holds(&r.entry.kind, r.number))),
    ("usage", |_, r| Value::text(facts::usage(r))),
    ("storage", |_, r| Value::text(facts::storage(&r.entry.kind))),
    ("endian", |_, r| Value::text(facts::endian(r))),
    ("digits", |_, r| Value::number(r.number.map(|n| n.digits))),
    ("after_point", |_, r| Value::number(r.number.map(|n| n.after_point))),
    ("signed", |_, r| r.number.map_or(Value::Absent, |n| Value::Flag(n.signed))),
    ("sign", |_, r| Value::text(facts::sign(&r.entry.kind, r.number).map(|s| s.map_or("none", |s| s.word())))),
    ("picture", |_, r| Value::text(r.detail.picture.as_deref())),
    ("occurs", |_, r| Value::number(r.entry.occurs)),
    ("least", |_, r| Value::number(r.least)),
    ("stride", |_, r| Value::number(r.entry.occurs.map(|_| r.entry.width))),
    ("depending_on", |_, r| Value::text(r.entry.depending_on)),
    ("redefines", |_, r| Value::text(r.detail.redefines.as_deref())),
    ("after", |f, r| Value::text(r.after.map(|table| f.rows[table].path.as_str()))),
    ("folded", |_, r| Value::Flag(r.detail.folded)),
    ("below", |_, r| Value::Number(r.detail.below as u64)),
    ("slack_before", |_, r| Value::Number(r.detail.slack as u64)),
    ("slack_at_end", |_, r| Value::Number(r.detail.slack_at_end as u64)),
    ("position", |_, r| Value::Number(r.detail.position as u64)),
    ("line", |_, r| Value::Number(r.line as u64)),
    ("column", |_, r| Value::Number(r.column as u64)),
];

/// The fields of a piece of a flat record.
const PIECE: &[(&str, OfPiece)] = &[
    ("name", |_, _, p| Value::Text(p.name.clone())),
    ("number", |f, _, p| of_entry("number", f, p)),
    ("path", |f, _, p| of_entry("path", f, p)),
    ("first", |_, _, p| Value::Number(p.first)),
    ("width", |f, _, p| of_entry("width", f, p)),
    ("kind", |f, _, p| of_entry("kind", f, p)),
    ("usage", |f, _, p| of_entry("usage", f, p)),
    ("storage", |f, _, p| of_entry("storage", f, p)),
    ("endian", |f, _, p| of_entry("endian", f, p)),
    ("digits", |f, _, p| of_entry("digits", f, p)),
    ("after_point", |f, _, p| of_entry("after_point", f, p)),
    ("signed", |f, _, p| of_entry("signed", f, p)),
    ("sign", |f, _, p| of_entry("sign", f, p)),
    ("picture", |f, _, p| of_entry("picture", f, p)),
    ("depending_on", |_, _, p| Value::text(p.depending_on)),
    ("after", |f, _, p| Value::text(p.after.map(|table| f.rows[table].path.as_str()))),
    ("shares", |_, all, p| Value::List(p.shares.iter().map(|&other| all[other].name.clone()).collect())),
];

/// What a piece has of its entry.
fn of_entry(field: &str, facts: &Facts, piece: &Piece) -> Value {
    let found = ENTRY.iter().find(|(name, _)| *name == field);
    found.map_or(Value::Absent, |(_, value)| value(facts, piece.row))
}

fn record_values<'a>(facts: &'a Facts) -> impl Iterator<Item = Value> + 'a {
    RECORD.iter().map(|(_, value)| value(facts))
}

/// What is printed of a layout: its entries, or the pieces of a flat record.
pub enum Rows<'f, 't> {
    Entries,
    Pieces(Vec<Piece<'f, 't>>),
}

impl Rows<'_, '_> {
    /// What a list of these is called, and the names of the fields of each.
    fn names(is_flat: bool) -> (&'static str, Vec<&'static str>) {
        match is_flat {
            false => ("entries", ENTRY.iter().map(|(name, _)| *name).collect()),
            true => ("rows", PIECE.iter().map(|(name, _)| *name).collect()),
        }
    }

    fn is_flat(&self) -> bool {
        matches!(self, Rows::Pieces(_))
    }

    /// The fields of each, one after the other.
    fn values<'a>(&'a self, facts: &'a Facts) -> Box<dyn Iterator<Item = Vec<Value>> + 'a> {
        match self {
            Rows::Entries => {
                Box::new(facts.rows.iter().map(|row| ENTRY.iter().map(|(_, value)| value(facts, row)).collect()))
            }
            Rows::Pieces(pieces) => {
                let values = |piece| PIECE.iter().map(|(_, value)| value(facts, pieces, piece)).collect();
                Box::new(pieces.iter().map(values))
            }
        }
    }
}

fn record_names() -> impl Iterator<Item = &'static str> {
    RECORD.iter().map(|(name, _)| *name)
}

/// The fields of a JSON object, without its brackets.
fn json_fields<'a>(names: impl IntoIterator<Item = &'a str>, values: impl IntoIterator<Item = Value>) -> String {
    let field = |(name, value): (&str, Value)| format!("{}: {}", json_string(name), value.json());
    names.into_iter().zip(values).map(field).collect::<Vec<String>>().join(", ")
}

/// The field of a file's name, where there are several, with what comes between it and the next.
fn json_file(file: Option<&str>) -> String {
    file.map_or(String::new(), |file| format!("\"file\": {}, ", json_string(file)))
}

/// One object: of one file with a line for each entry or piece, of several on one line.
pub fn json(facts: &Facts, rows: &Rows, file: Option<&str>, out: &mut dyn Write) -> io::Result<()> {
    let (list, names) = Rows::names(rows.is_flat());
    let record = json_fields(record_names(), record_values(facts));
    write!(out, "{{{}{record}, \"{list}\": [", json_file(file))?;
    let (first, next, last) = if file.is_none() { ("\n  ", ",\n  ", "\n") } else { ("", ", ", "") };
    let mut before = first;
    for values in rows.values(facts) {
        write!(out, "{before}{{{}}}", json_fields(names.iter().copied(), values))?;
        before = next;
    }
    let after = if before == first { "" } else { last };
    writeln!(out, "{after}]}}")
}

/// The names of the fields; that of the file comes first, where there are several.
pub fn csv_head(is_flat: bool, has_file: bool, out: &mut dyn Write) -> io::Result<()> {
    let file = has_file.then_some("file");
    let names: Vec<&str> = file.into_iter().chain(record_names()).chain(Rows::names(is_flat).1).collect();
    writeln!(out, "{}", names.join(","))
}

/// A line for each entry or piece, with the record's fields before its own.
pub fn csv(facts: &Facts, rows: &Rows, file: Option<&str>, out: &mut dyn Write) -> io::Result<()> {
    for values in rows.values(facts) {
        let file = file.map(|file| Value::Text(file.to_owned()));
        let values = file.into_iter().chain(record_values(facts)).chain(values);
        let line = values.map(|value| value.csv()).collect::<Vec<String>>().join(",");
        writeln!(out, "{}", files::for_output(&line))?;
    }
    Ok(())
}

/// One object that says why a copybook is refused.
pub fn json_refusal(refusal: &Refusal, source: &Source, file: Option<&str>, out: &mut dyn Write) -> io::Result<()> {
    let told = refusal.told(&source.text);
    let place = |n: usize| Value::number((refusal.line > 0).then_some(n));
    let fields = [
        ("number", Value::Number(refusal.number.into())),
        ("position", Value::Number(refusal.position as u64)),
        ("line", place(refusal.line)),
        ("column", place(refusal.column)),
        ("word", Value::text(told.word.as_deref())),
        ("message", Value::Text(told.sentence)),
        ("advice", Value::text(Some(told.advice))),
    ];
    let (names, values): (Vec<&str>, Vec<Value>) = fields.into_iter().unzip();
    let fields = json_fields(names, values);
    writeln!(out, "{{{}\"refused\": {{{fields}}}}}", json_file(file))
}

/// One object that says why there is no answer for a file, of several.
pub fn json_failed(file: &str, reason: &str, out: &mut dyn Write) -> io::Result<()> {
    writeln!(out, "{{{}\"failed\": {}}}", json_file(Some(file)), json_string(reason))
}

#[cfg(test)]
mod tests {
    use super::*;

    #[test]
    fn strings_are_escaped() {
        assert_eq!(json_string("TAG"), "\"TAG\"");
        assert_eq!(json_string("A\"B\\C\u{1}\u{7f}"), "\"A\\\"B\\\\C\\u0001\\u007f\"");
        assert_eq!(csv_cell("TAG"), "TAG");
        assert_eq!(csv_cell("A\"B"), "\"A\"\"B\"");
        assert_eq!(csv_cell("A,B"), "\"A,B\"");
        assert_eq!(csv_cell("packed, 3 digits"), "\"packed, 3 digits\"");
    }

    /// docs/FORMATS.md has a row for each field, and for no other, in this order.
    #[test]
    fn every_field_is_explained() {
        let paper = std::fs::read_to_string(concat!(env!("CARGO_MANIFEST_DIR"), "/../docs/FORMATS.md")).unwrap();
        let explained = |section: &str| {
            let (_, paper) = paper.split_once(section).expect("a section on these fields");
            let paper = paper.split("\n## ").next().unwrap();
            let rows = paper.lines().filter_map(|line| line.strip_prefix("| `")?.split_once('`'));
            rows.map(|(name, _)| name.to_owned()).collect::<Vec<_>>()
        };
        let entries = record_names().chain(Rows::names(false).1).collect::<Vec<_>>();
        assert_eq!(explained("\n## JSON and CSV\n"), entries);
        assert_eq!(explained("\n## Flat records\n"), Rows::names(true).1);
    }
}
