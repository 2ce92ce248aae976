//! What is said of a record and of each entry of its layout, from the listing and the details alone; but for the least
//! count of a varying table, for which its statement is read again.

use copybook::{Detail, Details, Entry, FieldKind, Form, Layout, NumRepr, Record, SignClause};
use std::collections::HashMap;
use std::ops::Range;

/// A layout as it is shown.
pub struct Facts<'t> {
    /// The statement of the record itself, if the copybook has one.
    pub record: Option<Record<'t>>,
    pub record_len: usize,
    pub variable: bool,
    /// The lengths of the record with every varying table at its least count, and at its most.
    pub shortest: u64,
    pub longest: u64,
    pub rows: Vec<Row<'t>>,
}

/// One entry.
pub struct Row<'t> {
    pub entry: Entry<'t>,
    pub detail: Detail<'t>,
    /// The number of the group around it.
    pub group: Option<usize>,
    /// The names of the groups around it and its own, joined by periods.
    pub path: String,
    /// The number of the table DEPENDING ON an item that it stands behind, if it does: its place varies. A redefiner
    /// stands where its target does, whatever else it redefines.
    pub after: Option<usize>,
    /// The least count of a table DEPENDING ON an item.
    pub least: Option<usize>,
    /// What its digits are, if it holds a number; a float has none.
    pub number: Option<Number>,
    /// Line and column of its statement, from 1.
    pub line: usize,
    pub column: usize,
}

/// The digits of a number.
#[derive(Debug, Clone, Copy, PartialEq, Eq)]
pub struct Number {
    pub digits: usize,
    /// How many of them stand after the point.
    pub after_point: usize,
    pub signed: bool,
    /// What SIGN says.
    pub clause: Option<SignClause>,
}

impl<'t> Facts<'t> {
    pub fn new(form: Form, text: &'t [u8], layout: &Layout<'t, '_>, details: &Details<'t, '_>) -> Facts<'t> {
        let mut rows: Vec<Row> = Vec::new();
        let mut around: Vec<usize> = Vec::new();
        let varies = layout.entries().any(|entry| entry.depending_on.is_some());
        let words = varies.then(|| form.words(text).expect("a text that is laid out has words"));
        let least_counts = words.map_or(HashMap::new(), |words| words.least_counts());
        for (entry, detail) in layout.entries().zip(details.iter()) {
            around.truncate(entry.depth);
            let group = around.last().copied();
            let name = entry.name.unwrap_or("FILLER");
            let path = group.map_or(name.to_owned(), |g| format!("{}.{name}", rows[g].path));
            let (line, column) = copybook::line_and_column(text, detail.position);
            let number = number(&entry.kind, &detail);
            around.push(entry.number);
            // a table without TO has 1 at least, as compilers take it
            let least = entry.depending_on.and(entry.occurs);
            let least = least.map(|most| least_counts.get(&detail.position).copied().unwrap_or(1).min(most));
            rows.push(Row { entry, detail, group, path, after: None, least, number, line, column });
        }
        find_after(&mut rows);
        let (shortest, longest) = match layout.variable() {
            true => (length(&rows, |row| row.least), length(&rows, |row| row.entry.occurs)),
            false => (layout.record_len() as u64, layout.record_len() as u64),
        };
        let (record_len, variable) = (layout.record_len(), layout.variable());
        Facts { record: details.record(), record_len, variable, shortest, longest, rows }
    }
}

/// The length of the record whose varying tables have these counts: what stands behind one is moved by its bytes.
fn length(rows: &[Row], count: fn(&Row) -> Option<usize>) -> u64 {
    let none = || vec![0; rows.len()];
    Lengths { rows, count, moved: none(), grown: none() }.end(0..rows.len())
}

/// Of each entry how far it is moved, and by how much it is longer than in the layout.
struct Lengths<'r, 't> {
    rows: &'r [Row<'t>],
    count: fn(&Row) -> Option<usize>,
    moved: Vec<u64>,
    grown: Vec<u64>,
}

impl Lengths<'_, '_> {
    /// Where a list ends, which these entries and those below them are.
    fn end(&mut self, list: Range<usize>) -> u64 {
        let (mut end, mut next, mut number) = (0u64, 0u64, list.start);
        while number < list.end {
            let row = &self.rows[number];
            let after = number + 1 + row.detail.below;
            let inside = self.end(number + 1..after).saturating_add(row.detail.slack_at_end as u64);
            let width = inside.max(row.entry.width as u64);
            let times = if row.entry.depending_on.is_some() { (self.count)(row) } else { row.entry.occurs };
            let bytes = width.saturating_mul(times.unwrap_or(1) as u64);
            self.moved[number] = target(self.rows, number).map_or(next, |target| self.moved[target]);
            self.grown[number] = bytes - row.entry.reserved_width() as u64;
            end = end.max(self.moved[number].saturating_add(row.entry.offset as u64).saturating_add(bytes));
            if !is_laid_over(self.rows, number) {
                // of what is folded together the base alone moves what comes next
                let base = if row.detail.folded { number + 1 } else { number };
                next = next.saturating_add(self.grown[base]);
            }
            number = after;
        }
        end
    }
}

/// Whether an entry moves nothing behind it in its list: it redefines another, or stands in one place with others that
/// are folded with it.
fn is_laid_over(rows: &[Row], number: usize) -> bool {
    rows[number].detail.redefines.is_some() || rows[number].group.is_some_and(|group| rows[group].detail.folded)
}

/// Finds the varying tables that entries stand behind. `behind` has the latest one for each list that is being read,
/// the outermost first.
fn find_after(rows: &mut [Row]) {
    let mut behind: Vec<Option<usize>> = Vec::new();
    for number in 0..rows.len() {
        let depth = rows[number].entry.depth;
        behind.truncate(depth + 1);
        if behind.len() == depth {
            behind.push(rows[number].group.and_then(|group| rows[group].after));
        }
        rows[number].after = target(rows, number).map_or(behind[depth], |target| rows[target].after);
        if rows[number].entry.depending_on.is_none() {
            continue;
        }
        // what redefines moves nothing, in whatever list around it
        let around = std::iter::successors(Some(number), |&at| rows[at].group);
        for at in around.take_while(|&at| rows[at].detail.redefines.is_none()) {
            if !is_laid_over(rows, at) {
                behind[rows[at].entry.depth] = Some(number);
            }
        }
    }
}

/// What an entry redefines, if that is not folded with it: the latest of that name before it in its list.
fn target(rows: &[Row], number: usize) -> Option<usize> {
    let (row, name) = (&rows[number], rows[number].entry.redefines?);
    (0..number).rev().find(|&at| rows[at].group == row.group && rows[at].name().eq_ignore_ascii_case(name))
}

impl Row<'_> {
    pub fn name(&self) -> &str {
        self.entry.name.unwrap_or("FILLER")
    }

    pub fn is_group(&self) -> bool {
        matches!(self.entry.kind, FieldKind::Group { .. })
    }

    /// Its last byte in the record, with all its occurrences; none if it takes no bytes, or as many as an item says.
    pub fn last(&self) -> Option<u64> {
        let bytes = self.entry.reserved_width() as u64;
        (bytes > 0).then(|| self.detail.first + bytes - 1)
    }
}

/// The digits of an entry, if it holds a number.
fn number(kind: &FieldKind, detail: &Detail) -> Option<Number> {
    storage(kind).filter(|_| !matches!(kind, FieldKind::Float { .. }))?;
    let (digits, after_point) = (detail.digits.into(), detail.after_point.into());
    Some(Number { digits, after_point, signed: detail.signed, clause: detail.sign })
}

/// How a number is stored, in a word.
pub fn storage(kind: &FieldKind) -> Option<&'static str> {
    match kind {
        FieldKind::Text | FieldKind::Group { .. } => None,
        FieldKind::Int { .. } => Some(NumRepr::Display.word()),
        FieldKind::Binary { .. } => Some("binary"),
        FieldKind::Decimal { repr, .. } => Some(repr.word()),
        FieldKind::Edited { .. } => Some("edited"),
        FieldKind::Float { .. } => Some("float"),
    }
}

/// Where a number whose digits are characters has its sign: as SIGN says, and else after the digits. None where it has
/// no sign.
pub fn sign(kind: &FieldKind, number: Option<Number>) -> Option<Option<SignClause>> {
    let Number { signed, clause, .. } = number?;
    let in_digits = matches!(kind, FieldKind::Int { .. } | FieldKind::Decimal { .. });
    let is_packed = matches!(kind, FieldKind::Decimal { repr: NumRepr::Comp3, .. });
    (in_digits && !is_packed).then_some(signed.then_some(clause.unwrap_or(SignClause::Trailing)))
}

/// The word that names the usage of an entry.
pub fn usage<'r>(row: &'r Row) -> Option<&'r str> {
    row.detail.usage.as_deref()
}

/// The order of the bytes of a binary: the machine's own under COMP-5.
pub fn endian(row: &Row) -> Option<&'static str> {
    const NATIVE: [&str; 2] = ["COMP-5", "COMPUTATIONAL-5"];
    let is_native = || usage(row).is_some_and(|word| NATIVE.iter().any(|native| word.eq_ignore_ascii_case(native)));
    matches!(row.entry.kind, FieldKind::Binary { .. }).then(|| if is_native() { "native" } else { "big" })
}

/// What a kind holds, in words: `packed, 7 digits, 2 after the point, signed`.
pub fn holds(kind: &FieldKind, number: Option<Number>) -> String {
    if let FieldKind::Float { bits } = kind {
        return format!("float, {bits} bits");
    }
    let Some(storage) = storage(kind) else {
        return kind.word().into();
    };
    let mut words = storage.to_owned();
    let Some(Number { digits, after_point, signed, .. }) = number else {
        return words;
    };
    words += &format!(", {digits} digit{}", if digits == 1 { "" } else { "s" });
    if after_point > 0 {
        words += &format!(", {after_point} after the point");
    }
    words += match sign(kind, number).flatten() {
        Some(SignClause::SeparateLeading) => ", sign leading, separate",
        Some(SignClause::SeparateTrailing) => ", sign trailing, separate",
        Some(SignClause::Leading) => ", sign leading",
        _ if signed => ", signed",
        _ => "",
    };
    words
}
