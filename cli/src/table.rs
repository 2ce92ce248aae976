//! A layout as a table for people: a line for each entry and for each run of slack, in the record's order.

use crate::facts::{self, Facts, Row};
use crate::places::Places;
use copybook::escaped;
use std::fmt::Write as _;
use std::io::{self, Write};

/// The cells of a line; the last one is empty unless it is asked for.
type Line = [String; 9];

/// The names of the columns. That of usages is there where something has one.
const HEADS: [&str; 9] = ["line", "first", "last", "width", "item", "picture", USAGE, "holds", WHY];
const USAGE: &str = "usage";
const WHY: &str = "why";

/// The columns of numbers stand to the right.
const NUMBERS: usize = 4;

/// Each group's members stand this much further in.
const INDENT: usize = 2;

/// No more of a word is shown.
const WIDEST: usize = 60;

/// No last column is narrower, whatever width is asked for.
const NARROWEST: usize = 20;

/// A word of the copybook as it is shown: control characters by their numbers, and cut where it is very long.
fn shown(word: &str) -> String {
    let cut: String = word.chars().take(WIDEST).collect();
    escaped(&cut) + if cut.len() < word.len() { "..." } else { "" }
}

/// OCCURS, DEPENDING ON and REDEFINES, each with what comes before it.
fn notes(row: &Row) -> String {
    let mut notes = String::new();
    if let Some(count) = row.entry.occurs {
        let most = if row.entry.depending_on.is_some() { "up to " } else { "" };
        let width = row.entry.width;
        let _ = write!(notes, "; OCCURS {most}{count}, every {width} byte{}", if width == 1 { "" } else { "s" });
    }
    if let Some(name) = row.entry.depending_on {
        let _ = write!(notes, ", DEPENDING ON {}", shown(name));
    }
    if let Some(name) = row.detail.redefines {
        let _ = write!(notes, "; REDEFINES {}", shown(&name));
    }
    notes
}

fn item(row: &Row, places: Places, why: Option<&String>) -> Line {
    let indent = " ".repeat(INDENT * row.entry.depth);
    let name = shown(row.name());
    let (line, item, holds) = if row.detail.folded {
        (String::new(), format!("{indent}{name}"), format!("folded group: {name} and what redefines it"))
    } else {
        let holds = facts::holds(&row.entry.kind, row.number) + &notes(row);
        (row.line.to_string(), format!("{indent}{:02} {name}", row.detail.level), holds)
    };
    let last = row.last().map_or("-".into(), |last| places.shown(last));
    let picture = row.detail.picture.map_or(String::new(), |p| shown(&p));
    let usage = facts::usage(row).map_or(String::new(), shown);
    let why = why.cloned().unwrap_or_default();
    [line, places.shown(row.detail.first), last, row.entry.width.to_string(), item, picture, usage, holds, why]
}

/// Slack, from a place on, at the depth where it is shown.
fn slack(first: u64, bytes: usize, depth: usize, holds: String, places: Places) -> Line {
    let item = format!("{}(slack)", " ".repeat(INDENT * depth));
    let (first, last) = (places.shown(first), places.shown(first + bytes as u64 - 1));
    let none = String::new;
    [none(), first, last, bytes.to_string(), item, none(), none(), holds, none()]
}

/// The slack before an entry.
fn slack_before(row: &Row, depth: usize, places: Places) -> Line {
    let bytes = row.detail.slack;
    slack(row.detail.first - bytes as u64, bytes, depth, format!("aligns {}", shown(row.name())), places)
}

/// The slack at the end of the first occurrence of a group, as further in as its members.
fn slack_at_end(row: &Row, places: Places) -> Line {
    let bytes = row.detail.slack_at_end;
    let first = row.detail.first + (row.entry.width - bytes) as u64;
    slack(first, bytes, row.entry.depth + 1, format!("at the end of {}", shown(row.name())), places)
}

/// Whether the slack of an entry stands before the folded group that begins with it.
fn before_group(rows: &[Row], number: usize) -> bool {
    match rows.get(number + 1) {
        Some(base) => {
            let group = &rows[number];
            group.detail.folded
                && base.group == Some(number)
                && base.detail.slack > 0
                && base.detail.first == group.detail.first
        }
        None => false,
    }
}

fn lines(facts: &Facts, places: Places, whys: &[String]) -> Vec<Line> {
    let rows = &facts.rows;
    let mut lines = Vec::new();
    // the groups around the next entry with slack at their ends, the outermost first, each with the entry behind it
    let mut open: Vec<(usize, &Row)> = Vec::new();
    for (number, row) in rows.iter().enumerate() {
        if before_group(rows, number) {
            lines.push(slack_before(&rows[number + 1], row.entry.depth, places));
        } else if row.detail.slack > 0 && !(number > 0 && before_group(rows, number - 1)) {
            lines.push(slack_before(row, row.entry.depth, places));
        }
        lines.push(item(row, places, whys.get(number)));
        if row.detail.slack_at_end > 0 {
            open.push((number + 1 + row.detail.below, row));
        }
        while let Some((_, group)) = open.pop_if(|(after, _)| *after == number + 1) {
            lines.push(slack_at_end(group, places));
        }
    }
    lines
}

/// Words in lines of at most so many characters, broken at blanks; a longer word has a line of its own.
fn wrapped(words: &str, width: usize) -> Vec<String> {
    let mut lines = vec![String::new()];
    // the characters of the last line, which are not counted again for each word
    let mut filled = 0;
    for word in words.split(' ') {
        let line = lines.last_mut().expect("there is a line");
        let count = word.chars().count();
        if line.is_empty() {
            line.push_str(word);
            filled = count;
        } else if filled + 1 + count <= width {
            line.push(' ');
            line.push_str(word);
            filled += 1 + count;
        } else {
            lines.push(word.to_owned());
            filled = count;
        }
    }
    lines
}

/// Writes a line; the last column that is not empty everywhere is wrapped at the width of the whole.
fn write_line(line: [&str; 9], widths: &[usize; 9], most: Option<usize>, out: &mut dyn Write) -> io::Result<()> {
    let last = widths.iter().rposition(|&width| width > 0).unwrap_or(0);
    let mut written = String::new();
    for (i, (cell, &width)) in line.iter().zip(widths).take(last).enumerate().filter(|(_, (_, &width))| width > 0) {
        let _ = if i < NUMBERS { write!(written, "{cell:>width$}  ") } else { write!(written, "{cell:width$}  ") };
    }
    let before = written.chars().count();
    let room = most.map_or(usize::MAX, |most| most.saturating_sub(before).max(NARROWEST));
    for part in wrapped(line[last], room) {
        writeln!(out, "{}", (written + &part).trim_end())?;
        written = " ".repeat(before);
    }
    Ok(())
}

/// What has to be known to read the table, where something in it asks for it.
fn remarks(facts: &Facts) -> Vec<&'static str> {
    let mut remarks = Vec::new();
    if facts.rows.iter().any(|r| r.entry.occurs.is_some() && r.detail.below > 0) {
        remarks.push("Inside a table the bytes are those of its first occurrence.");
    }
    if facts.variable {
        remarks.push(
            "A table DEPENDING ON an item takes no bytes here: what follows it stands as if the table were empty.",
        );
    }
    remarks
}

/// How a table is written.
pub struct Style {
    pub places: Places,
    /// No line is longer, if the last column has some room yet.
    pub width: Option<usize>,
}

/// Writes the table. Without `whys`, which says why each entry stands where it does, that is left out.
pub fn write(facts: &Facts, style: &Style, whys: &[String], out: &mut dyn Write) -> io::Result<()> {
    let bytes = if facts.record_len == 1 { "byte" } else { "bytes" };
    let more = if facts.variable { " or more" } else { "" };
    let record = facts.record.map_or(String::new(), |record| {
        format!("{:02} {}, ", record.level, shown(record.name.map_or("FILLER", |name| name.word)))
    });
    writeln!(out, "{record}record of {} {bytes}{more}; {}", facts.record_len, style.places.told())?;
    let lines = lines(facts, style.places, whys);
    if lines.is_empty() {
        return Ok(());
    }
    let no_usage = facts.rows.iter().all(|row| row.detail.usage.is_none());
    let left_out = |head| head == WHY && whys.is_empty() || head == USAGE && no_usage;
    let heads = HEADS.map(|head| if left_out(head) { "" } else { head });
    let mut widths = heads.map(str::len);
    for line in &lines {
        for (width, cell) in widths.iter_mut().zip(line) {
            *width = (*width).max(cell.chars().count());
        }
    }
    writeln!(out)?;
    write_line(heads, &widths, style.width, out)?;
    for line in &lines {
        write_line(line.each_ref().map(String::as_str), &widths, style.width, out)?;
    }
    let remarks = remarks(facts);
    if !remarks.is_empty() {
        writeln!(out, "\n{}", remarks.join("\n"))?;
    }
    Ok(())
}
