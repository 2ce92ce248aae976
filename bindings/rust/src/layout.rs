//! A layout, and its entries read from the bytes of the listing (include/copybook.h has their format).

use crate::bytes::Bytes;
use crate::{check_record_len, FieldKind, Refusal};
use std::borrow::Cow;

/// The layout of a copybook: its listing, and the text that the listing's names stand in.
#[derive(Debug, Clone, PartialEq, Eq)]
pub struct Layout<'t, 'l> {
    text: &'t [u8],
    listing: Cow<'l, [u8]>,
}

impl<'t, 'l> Layout<'t, 'l> {
    /// The listing must be one that the library wrote for the text.
    pub(crate) fn new(text: &'t [u8], listing: Cow<'l, [u8]>) -> Layout<'t, 'l> {
        Layout { text, listing }
    }

    /// The bytes of the listing.
    pub fn listing(&self) -> &[u8] {
        &self.listing
    }

    /// The record's length in bytes; the least one if the record is variable.
    pub fn record_len(&self) -> usize {
        self.head().0
    }

    /// Whether a table DEPENDING ON an item makes the record's length vary.
    pub fn variable(&self) -> bool {
        self.head().1
    }

    /// The number of entries at the top, depth 0.
    pub fn top_len(&self) -> usize {
        self.head().2
    }

    /// Whether a record of `len` bytes is long enough: refusal 42 if it is shorter and the layout is not variable.
    pub fn check_record_len(&self, len: usize) -> Result<(), Refusal> {
        check_record_len(self.record_len(), self.variable(), len)
    }

    /// The entries, a group before its members.
    pub fn entries(&self) -> Entries<'t, '_> {
        let bytes = Bytes { text: self.text, rest: &self.listing[HEAD..] };
        Entries { bytes, number: 0, left: vec![self.top_len()] }
    }

    /// Record length, variable mark, and number of top-level entries.
    fn head(&self) -> (usize, bool, usize) {
        let mut b = Bytes { text: self.text, rest: &self.listing[1..HEAD] };
        (b.four(), b.flag(), b.four())
    }
}

/// The bytes of the head: kind 0, record length, variable mark, number of top-level entries.
const HEAD: usize = 10;

/// One entry of a layout: a column, a group of columns, or a group that the folding of REDEFINES made. What the listing
/// does not say of it, its place in the record and which of these it is, its [`crate::Detail`] says.
#[derive(Debug, Clone, Copy, PartialEq, Eq)]
pub struct Entry<'t> {
    /// Its number in the listing, from 0: the one that an [`crate::Owner`] names.
    pub number: usize,
    /// 0 at the top, one more in each group.
    pub depth: usize,
    /// Its name, as the text has it; none means FILLER.
    pub name: Option<&'t str>,
    /// From the start of the list that it stands in: the record, or one occurrence of the group around it.
    pub offset: usize,
    /// Bytes of one occurrence.
    pub width: usize,
    pub kind: FieldKind<'t>,
    /// The count of OCCURS, for a table DEPENDING ON an item its largest.
    pub occurs: Option<usize>,
    /// The name after DEPENDING ON.
    pub depending_on: Option<&'t str>,
    /// The name after REDEFINES, of a redefiner that is folded under no base: one that redefines a redefiner.
    pub redefines: Option<&'t str>,
}

impl Entry<'_> {
    /// The bytes that it takes in its list: none if it is a table DEPENDING ON an item, else width times count.
    pub fn reserved_width(&self) -> usize {
        match self.depending_on {
            Some(_) => 0,
            None => self.width * self.occurs.unwrap_or(1),
        }
    }
}

/// The entries of a layout, a group before its members.
#[derive(Debug, Clone)]
pub struct Entries<'t, 'l> {
    bytes: Bytes<'t, 'l>,
    number: usize,
    /// How many entries are left of each list that is being read, the outermost first.
    left: Vec<usize>,
}

impl<'t> Iterator for Entries<'t, '_> {
    type Item = Entry<'t>;

    fn next(&mut self) -> Option<Entry<'t>> {
        while *self.left.last()? == 0 {
            self.left.pop();
        }
        *self.left.last_mut()? -= 1;
        let entry = entry(&mut self.bytes, self.number, self.left.len() - 1);
        if let FieldKind::Group { members } = entry.kind {
            self.left.push(members);
        }
        self.number += 1;
        Some(entry)
    }
}

fn entry<'t>(b: &mut Bytes<'t, '_>, number: usize, depth: usize) -> Entry<'t> {
    let kind = b.one();
    let name = b.word();
    let (offset, width) = (b.four(), b.four());
    let (mark, count) = (b.flag(), b.four());
    let (depending_on, redefines) = (b.word(), b.word());
    Entry {
        number,
        depth,
        name: name.map(|w| w.word),
        offset,
        width,
        kind: FieldKind::read(kind.into(), b),
        occurs: mark.then_some(count),
        depending_on: depending_on.map(|w| w.word),
        redefines: redefines.map(|w| w.word),
    }
}
