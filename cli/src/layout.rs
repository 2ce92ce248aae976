//! `copybook layout`: a table for people, the lines of the layout listing, or JSON or CSV for machines.

use crate::facts::Facts;
use crate::files::Source;
use crate::help::{Opt, ANY_BYTES, CARDS};
use crate::machines::Rows;
use crate::places::{self, Places};
use crate::table::{self, Style};
use crate::{files, flat, forms, machines, output, reasons, refusals, Arguments, Command, Failure, Status};
use copybook::{Details, Form, Layout, Reader, Refusal};
use std::ffi::OsStr;
use std::io::{self, IsTerminal, Write};

pub const COMMAND: Command = Command {
    name: "layout",
    summary: "where each column starts, how wide it is and what it holds",
    usage: "[--cards] [--any-bytes] [--table [--from-1] [--hex] [--why] [--width N] | --lines | --json [--flat] \
        | --csv [--flat]] [FILE...]",
    about: "\
Where each column of the copybook's record starts, how wide it is and what it holds: a table on a terminal, and the
listing's lines into a pipe or a file.
",
    options: &[
        CARDS,
        ANY_BYTES,
        Opt::flag("--table", "for people: places in the record, pictures, slack, and what each item holds in words"),
        Opt::flag(places::FROM_1, "the table's bytes count from 1, as mainframe tools count, and not from 0"),
        Opt::flag(places::HEX, "the table's places are hexadecimal, as 0x1a"),
        Opt::flag(WHY, "the table says why each item stands where it does, as copybook reasons does"),
        Opt::valued(
            WIDTH,
            "N",
            "the table's last column is broken at N characters; without it at the terminal's width, with 0 nowhere",
        ),
        Opt::flag("--lines", "for scripts: a line for the record and one for each entry"),
        Opt::flag("--json", "for programs: all the facts of the table and of the lines"),
        Opt::flag("--csv", "for programs: the same, separated by commas"),
        Opt::flag(
            FLAT,
            "with --json or --csv: a row for each occurrence of each elementary item, with a name of its own",
        ),
    ],
    notes: "\
Lines: the record has

    record LENGTH fixed|variable TOP-COUNT

and an entry has its depth, name, offset in its group, width of one occurrence, kind (text int bin dec edit group
float), OCCURS count, DEPENDING ON and REDEFINES, with a minus for what is absent. An item and those that redefine it
stand together in a group of the item's name.

A copybook that cannot be laid out gives `refused NUMBER POSITION` and exit status 1; standard error says why. With
--json the refusal is an object, and with --csv there is nothing in its place. Of several FILEs each answer has its
file's name, with --json each is an object on one line, and the exit status is that of the worst.
docs/FORMATS.md says what each format has, docs/REFUSALS.md what each number means.
",
    run,
};

/// How a layout is printed.
enum Format {
    Lines,
    Table { style: Style, why: bool },
    Json { flat: bool },
    Csv { flat: bool },
}

/// The options that choose a format, and those that are for the table alone.
const FORMATS: [&str; 4] = ["--table", "--lines", "--json", "--csv"];
const OF_TABLE: [&str; 4] = [places::FROM_1, places::HEX, WHY, WIDTH];
const WHY: &str = "--why";
const WIDTH: &str = "--width";
const FLAT: &str = "--flat";

/// The format that is asked for; else a table for people on a terminal, and lines for whatever else reads them.
fn format(arguments: &Arguments) -> Result<Format, Failure> {
    let chosen: Vec<&str> = FORMATS.into_iter().filter(|f| arguments.has(f)).collect();
    let of_table = OF_TABLE.into_iter().find(|option| arguments.has(option));
    let flat = arguments.has(FLAT);
    let style = Style { places: Places::asked(arguments), width: width(arguments)? };
    let table = Format::Table { style, why: arguments.has(WHY) };
    match (chosen.as_slice(), of_table) {
        ([_, _, ..], _) => Err(Failure::Misuse(format!("one of {} at a time", chosen.join(" and ")))),
        ([other @ ("--lines" | "--json" | "--csv")], Some(option)) => {
            Err(Failure::Misuse(format!("{option} is for the table alone, not for {other}")))
        }
        (["--json"], _) => Ok(Format::Json { flat }),
        (["--csv"], _) => Ok(Format::Csv { flat }),
        _ if flat => Err(Failure::Misuse(format!("{FLAT} is for --json and for --csv"))),
        (["--table"], _) | ([], Some(_)) => Ok(table),
        ([], None) if io::stdout().is_terminal() => Ok(table),
        _ => Ok(Format::Lines),
    }
}

/// How wide the table may be: what --width says, 0 for any; else the terminal's width.
fn width(arguments: &Arguments) -> Result<Option<usize>, Failure> {
    match arguments.value(WIDTH) {
        None => Ok(output::terminal_width()),
        Some(word) => match word.parse() {
            Ok(0) => Ok(None),
            Ok(width) => Ok(Some(width)),
            Err(_) => Err(Failure::Misuse(format!("{WIDTH} {word} is no number of characters"))),
        },
    }
}

/// The lines of the small program, the crate `copybook_layout`.
fn lines<'t>(layout: &Layout<'t, '_>, out: &mut dyn Write) -> io::Result<()> {
    let fixed = if layout.variable() { "variable" } else { "fixed" };
    writeln!(out, "record {} {fixed} {}", layout.record_len(), layout.top_len())?;
    for e in layout.entries() {
        let occurs = e.occurs.map_or("-".into(), |n| n.to_string());
        let shown = |word: Option<&'t str>, none| files::for_output(word.unwrap_or(none));
        let (depending_on, redefines) = (shown(e.depending_on, "-"), shown(e.redefines, "-"));
        let (name, kind) = (shown(e.name, "FILLER"), e.kind.word());
        writeln!(out, "{} {name} {} {} {kind} {occurs} {depending_on} {redefines}", e.depth, e.offset, e.width)?;
    }
    Ok(())
}

fn too_many(count: u64) -> String {
    format!("it has {count} occurrences of items, and --flat, with a row for each, is for at most {}", flat::MOST)
}

/// Why each entry stands where it does.
fn whys(form: Form, text: &[u8], layout: &Layout, telling: &reasons::Telling) -> Vec<String> {
    let mut reader = Reader::of(form);
    let line = |entry| reasons::line(&mut reader, text, &entry, telling).expect("an entry of the layout has reasons");
    layout.entries().map(line).collect()
}

/// A layout, and its details where they are asked for.
type Read<'t, 'r> = (Layout<'t, 'r>, Option<Details<'t, 'r>>);

/// What is asked of each file.
struct Asked<'a> {
    arguments: &'a Arguments,
    form: Form,
    format: Format,
    /// Whether there are several files, so that each answer has its name.
    several: bool,
}

impl Asked<'_> {
    /// Answers for one file.
    fn answer(&self, file: Option<&OsStr>, reader: &mut Reader) -> Result<Status, Failure> {
        let source = match files::read(file, self.arguments) {
            Err(Failure::Unreadable { name, reason }) if self.several => return self.failed(&name, &reason),
            read => read?,
        };
        let (layout, details) = match self.read(&source.text, reader) {
            Ok(answer) => answer,
            Err(refusal) => return self.refused(&refusal, &source),
        };
        let status = refusals::doubts(&layout, &source, self.form, matches!(self.format, Format::Table { .. }));
        let Some(details) = details else {
            files::write(|out| self.head(&source.name, out).and_then(|()| lines(&layout, out)))?;
            return Ok(status);
        };
        let facts = Facts::new(self.form, &source.text, &layout, &details);
        let rows = match self.rows(&facts) {
            Ok(rows) => rows,
            Err(count) => return self.failed(&source.name, &too_many(count)),
        };
        let whys = match &self.format {
            Format::Table { style, why: true } => {
                let telling = reasons::Telling::new(&layout, &details, style.places);
                whys(self.form, &source.text, &layout, &telling)
            }
            _ => Vec::new(),
        };
        files::write(|out| self.write(&source.name, &facts, &rows, &whys, out))?;
        Ok(status)
    }

    /// The layout and, of which the lines take nothing, the details.
    fn read<'t, 'r>(&self, text: &'t [u8], reader: &'r mut Reader) -> Result<Read<'t, 'r>, Refusal> {
        match self.format {
            Format::Lines => reader.layout(text).map(|layout| (layout, None)),
            _ => reader.layout_and_details(text).map(|(layout, details)| (layout, Some(details))),
        }
    }

    /// What JSON and CSV have of a layout; or how many pieces it has, if these are too many.
    fn rows<'f, 't>(&self, facts: &'f Facts<'t>) -> Result<Rows<'f, 't>, u64> {
        match self.format {
            Format::Json { flat: true } | Format::Csv { flat: true } => flat::pieces(facts).map(Rows::Pieces),
            _ => Ok(Rows::Entries),
        }
    }

    fn write(&self, name: &str, facts: &Facts, rows: &Rows, whys: &[String], out: &mut dyn Write) -> io::Result<()> {
        let file = self.several.then_some(name);
        self.head(name, out)?;
        match &self.format {
            Format::Lines => Ok(()),
            Format::Table { style, .. } => table::write(facts, style, whys, out),
            Format::Json { .. } => machines::json(facts, rows, file, out),
            Format::Csv { flat } => {
                if !self.several {
                    machines::csv_head(*flat, false, out)?;
                }
                machines::csv(facts, rows, file, out)
            }
        }
    }

    /// In the formats of lines, the name of one of several files stands above its answer.
    fn head(&self, name: &str, out: &mut dyn Write) -> io::Result<()> {
        match self.format {
            Format::Lines if self.several => writeln!(out, "file {}", files::for_output(name)),
            Format::Table { .. } if self.several => writeln!(out, "{}:", copybook::escaped(name)),
            _ => Ok(()),
        }
    }

    fn refused(&self, refusal: &Refusal, source: &Source) -> Result<Status, Failure> {
        forms::hint(source, self.form, Err(refusal));
        let name = self.several.then_some(source.name.as_str());
        files::write(|out| {
            self.head(&source.name, out)?;
            match self.format {
                Format::Json { .. } => machines::json_refusal(refusal, source, name, out),
                Format::Csv { .. } => Ok(()),
                Format::Lines | Format::Table { .. } => refusals::line(refusal, out),
            }
        })?;
        Ok(refusals::say(refusal, source))
    }

    /// Of several files, one without an answer does not keep the others from theirs.
    fn failed(&self, name: &str, reason: &str) -> Result<Status, Failure> {
        if let (Format::Json { .. }, true) = (&self.format, self.several) {
            files::write(|out| machines::json_failed(name, reason, out))?;
        }
        say!("copybook: {name}: {reason}");
        Ok(Status::Failed)
    }
}

fn run(arguments: &Arguments) -> Result<Status, Failure> {
    let form = forms::asked(arguments);
    let several = arguments.operands.len() > 1;
    let asked = Asked { arguments, form, format: format(arguments)?, several };
    let mut reader = Reader::of(form);
    if arguments.operands.is_empty() {
        return asked.answer(None, &mut reader);
    }
    if let (Format::Csv { flat }, true) = (&asked.format, several) {
        files::write(|out| machines::csv_head(*flat, true, out))?;
    }
    let mut worst = Status::Answered;
    for (number, file) in arguments.operands.iter().enumerate() {
        if let (Format::Table { .. }, 1..) = (&asked.format, number) {
            files::write(|out| writeln!(out))?;
        }
        worst = worst.max(asked.answer(Some(file), &mut reader)?);
    }
    Ok(worst)
}
