//! The details of a layout's entries, read from the bytes of `copybook_details` (include/copybook.h has their format).

use crate::bytes::{Bytes, Word};
use crate::SignClause;
use std::borrow::Cow;

/// The details of a copybook's entries: one for each entry of its listing, in the same order. And of its record.
#[derive(Debug, Clone, PartialEq, Eq)]
pub struct Details<'t, 'l> {
    text: &'t [u8],
    bytes: Cow<'l, [u8]>,
}

/// The bytes of the head: the dropped root's position, level and name, and the number of entries.
pub(crate) const HEAD: usize = 17;

/// The bytes of one entry's details.
pub(crate) const DETAIL: usize = 63;

/// The statement of the record itself: a root with members, the only one of its copybook. It is no entry of the listing.
#[derive(Debug, Clone, Copy, PartialEq, Eq)]
pub struct Record<'t> {
    /// The first byte of its statement's first word, in bytes of the text from 0.
    pub position: usize,
    /// Its statement's level.
    pub level: u8,
    /// Its name, as the text has it; none means FILLER.
    pub name: Option<Word<'t>>,
}

/// What the listing does not say of an entry.
#[derive(Debug, Clone, Copy, PartialEq, Eq)]
pub struct Detail<'t> {
    /// The first byte of its statement's first word, in bytes of the text from 0.
    pub position: usize,
    /// Its statement's level.
    pub level: u8,
    /// 0 at the top, one more in each group.
    pub depth: usize,
    /// Whether it is a group that the copybook does not have: the folding of REDEFINES made it, around a base and its
    /// redefiners. Position and level are those of the base.
    pub folded: bool,
    /// How many entries follow that are below it, at any depth.
    pub below: usize,
    /// Its first byte in the record, in the first occurrence of each group around it. After a table DEPENDING ON an
    /// item, as if the table had no element. Behind OCCURS 0 or DEPENDING ON it may pass 32 bits.
    pub first: u64,
    /// The slack bytes directly before it, which align it.
    pub slack: usize,
    /// Its picture, as the statement has it.
    pub picture: Option<Word<'t>>,
    /// The name after its REDEFINES, also of a redefiner that is folded under its base.
    pub redefines: Option<Word<'t>>,
    /// The name after its DEPENDING ON.
    pub depending_on: Option<Word<'t>>,
    /// The slack bytes at the end of each of its occurrences, which its width counts.
    pub slack_at_end: usize,
    /// How many digits a number has, P included; 0 for text, groups and floats, as the next two are.
    pub digits: u8,
    /// How many of them stand after the point.
    pub after_point: u8,
    /// Whether its picture has a sign.
    pub signed: bool,
    /// The word that names its usage: its own last one, or that of the nearest group above it that names one, a record's
    /// own included. So COMP-5 can be told from COMP.
    pub usage: Option<Word<'t>>,
    /// What its own SIGN clause says.
    pub sign: Option<SignClause>,
}

impl<'t, 'l> Details<'t, 'l> {
    /// The bytes must be those that the library wrote for the text.
    pub(crate) fn new(text: &'t [u8], bytes: Cow<'l, [u8]>) -> Details<'t, 'l> {
        Details { text, bytes }
    }

    /// The bytes as the library wrote them.
    pub fn bytes(&self) -> &[u8] {
        &self.bytes
    }

    /// The record's own statement, if the copybook has one: none where it has several roots, or one without members; and
    /// none for a root of level 0 that has no name and begins the text.
    pub fn record(&self) -> Option<Record<'t>> {
        let mut b = Bytes { text: self.text, rest: &self.bytes[..HEAD] };
        let record = Record { position: b.four(), level: b.one(), name: b.word() };
        (record != Record { position: 0, level: 0, name: None }).then_some(record)
    }

    /// How many entries the listing has.
    pub fn len(&self) -> usize {
        self.rows().len()
    }

    /// Whether the listing has no entries.
    pub fn is_empty(&self) -> bool {
        self.len() == 0
    }

    /// The details of the entry of that number, if the listing has it.
    pub fn get(&self, number: usize) -> Option<Detail<'t>> {
        self.rows().nth(number).map(|row| detail(self.text, row))
    }

    /// The details of every entry, in the order of the listing.
    pub fn iter(&self) -> impl ExactSizeIterator<Item = Detail<'t>> + '_ {
        self.rows().map(|row| detail(self.text, row))
    }

    /// The bytes of each.
    fn rows(&self) -> std::slice::ChunksExact<'_, u8> {
        self.bytes[HEAD..].chunks_exact(DETAIL)
    }
}

fn detail<'t>(text: &'t [u8], row: &[u8]) -> Detail<'t> {
    let mut b = Bytes { text, rest: row };
    Detail {
        position: b.four(),
        level: b.one(),
        depth: b.one().into(),
        folded: b.flag(),
        below: b.four(),
        first: b.eight(),
        slack: b.four(),
        picture: b.word(),
        redefines: b.word(),
        depending_on: b.word(),
        slack_at_end: b.four(),
        digits: b.one(),
        after_point: b.one(),
        signed: b.flag(),
        usage: b.word(),
        sign: SignClause::of_number(b.one().into()),
    }
}
