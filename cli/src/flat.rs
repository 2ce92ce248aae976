//! A record as one row for each occurrence of each elementary item, as a program needs it that knows no tables and no
//! groups: a name of its own, a place, and which other rows have bytes of it.

use crate::facts::{Facts, Row};
use std::collections::HashSet;
use std::ops::Range;

/// One occurrence of an elementary item.
pub struct Piece<'f, 't> {
    pub row: &'f Row<'t>,
    /// Unique in the record, letter case aside: `WT(1)`, `CELL(2,3)`, `FILLER#2`.
    pub name: String,
    /// Its first byte in the record; behind a varying table, as if that were empty.
    pub first: u64,
    /// The number of the table DEPENDING ON an item that it stands behind, if it does: its place varies.
    pub after: Option<usize>,
    /// The name after the DEPENDING ON of the innermost such table that it is in.
    pub depending_on: Option<&'t str>,
    /// The numbers of the other pieces that have bytes of it.
    pub shares: Vec<usize>,
}

impl Piece<'_, '_> {
    /// The byte after its last one.
    fn end(&self) -> u64 {
        self.first + self.row.entry.width as u64
    }
}

/// No record is written that has more pieces.
pub const MOST: u64 = 100_000;

/// The pieces of a record, in the order of the listing; or how many there are, if these are too many.
pub fn pieces<'f, 't>(facts: &'f Facts<'t>) -> Result<Vec<Piece<'f, 't>>, u64> {
    let counts = counts(&facts.rows);
    let total = top(&facts.rows).fold(0u64, |sum, number| sum.saturating_add(counts[number]));
    if total > MOST {
        return Err(total);
    }
    let mut maker = Maker { facts, counts, names: names(&facts.rows), pieces: Vec::new() };
    maker.list(0..facts.rows.len(), &Around { start: 0, occurrences: Vec::new(), depending_on: None, after: None });
    let mut pieces = maker.pieces;
    share(&mut pieces);
    Ok(pieces)
}

/// The numbers of the entries at the top.
fn top<'a>(rows: &'a [Row]) -> impl Iterator<Item = usize> + 'a {
    rows.iter().enumerate().filter(|(_, row)| row.group.is_none()).map(|(number, _)| number)
}

/// How many pieces each entry has, with all occurrences of its own.
fn counts(rows: &[Row]) -> Vec<u64> {
    let mut counts = vec![0u64; rows.len()];
    for (number, row) in rows.iter().enumerate().rev() {
        let one = if row.is_group() { counts[number] } else { 1 };
        counts[number] = one.saturating_mul(row.entry.occurs.unwrap_or(1) as u64);
        if let Some(group) = row.group {
            counts[group] = counts[group].saturating_add(counts[number]);
        }
    }
    counts
}

/// A name for each elementary entry, unique letter case aside: a later one of a name has its number there. A bracket
/// begins the numbers of occurrences, so that what stands behind one in a copybook's name counts for nothing.
fn names(rows: &[Row]) -> Vec<String> {
    let mut taken = HashSet::new();
    let mut name = |row: &Row| {
        let plain = row.name().to_owned();
        let key = plain.split('(').next().unwrap_or_default().to_owned();
        let others = (2..).map(|number| (format!("{key}#{number}"), format!("{key}#{number}")));
        let mut all = std::iter::once((plain, key.clone())).chain(others);
        let free = all.find(|(_, key)| taken.insert(key.to_ascii_uppercase()));
        free.map_or(String::new(), |(name, _)| name)
    };
    rows.iter().map(|row| if row.is_group() { String::new() } else { name(row) }).collect()
}

/// What is known of a list of entries from the groups around it.
struct Around<'t> {
    /// Its first byte in the record.
    start: u64,
    /// Which occurrences it is in, from 1, the outermost first.
    occurrences: Vec<usize>,
    depending_on: Option<&'t str>,
    /// A varying table in an earlier occurrence of a group around it.
    after: Option<usize>,
}

struct Maker<'f, 't> {
    facts: &'f Facts<'t>,
    counts: Vec<u64>,
    names: Vec<String>,
    pieces: Vec<Piece<'f, 't>>,
}

impl<'f, 't> Maker<'f, 't> {
    /// The pieces of a list, which these entries and those below them are.
    fn list(&mut self, entries: Range<usize>, around: &Around<'t>) {
        let mut number = entries.start;
        while number < entries.end {
            let row = &self.facts.rows[number];
            let after = number + 1 + row.detail.below;
            // of nothing there may be very many occurrences
            let count = if self.counts[number] == 0 { 0 } else { row.entry.occurs.unwrap_or(1) };
            for occurrence in 0..count {
                let start = around.start + row.entry.offset as u64 + (occurrence * row.entry.width) as u64;
                let mut occurrences = around.occurrences.clone();
                occurrences.extend(row.entry.occurs.map(|_| occurrence + 1));
                let depending_on = row.entry.depending_on.or(around.depending_on);
                let later = if occurrence > 0 { self.varying(number + 1..after) } else { None };
                let inside = Around { start, occurrences, depending_on, after: around.after.max(later) };
                match row.is_group() {
                    true => self.list(number + 1..after, &inside),
                    false => self.piece(number, &inside),
                }
            }
            number = after;
        }
    }

    /// The last table DEPENDING ON an item among these entries.
    fn varying(&self, mut entries: Range<usize>) -> Option<usize> {
        entries.rfind(|&number| self.facts.rows[number].entry.depending_on.is_some())
    }

    fn piece(&mut self, number: usize, inside: &Around<'t>) {
        let row = &self.facts.rows[number];
        let mut name = self.names[number].clone();
        if !inside.occurrences.is_empty() {
            let numbers: Vec<String> = inside.occurrences.iter().map(usize::to_string).collect();
            name += &format!("({})", numbers.join(","));
        }
        self.pieces.push(Piece {
            row,
            name,
            first: inside.start,
            after: row.after.max(inside.after),
            depending_on: inside.depending_on,
            shares: Vec::new(),
        });
    }
}

/// Finds the pieces that have bytes in common. Places behind different varying tables are not held against each other.
fn share(pieces: &mut [Piece]) {
    let mut order: Vec<usize> = (0..pieces.len()).filter(|&i| pieces[i].row.entry.width > 0).collect();
    order.sort_by_key(|&i| (pieces[i].after, pieces[i].first));
    let mut open: Vec<usize> = Vec::new();
    for &i in &order {
        let (after, first) = (pieces[i].after, pieces[i].first);
        open.retain(|&j| pieces[j].after == after && pieces[j].end() > first);
        for &j in &open {
            pieces[j].shares.push(i);
            pieces[i].shares.push(j);
        }
        open.push(i);
    }
    for piece in pieces {
        piece.shares.sort_unstable();
    }
}
