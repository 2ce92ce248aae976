//! The reasons of an entry's place, read from the bytes of `copybook_reasons` (include/copybook.h has their format).

use crate::bytes::{Bytes, Word};
use std::borrow::Cow;

/// The reasons of an entry's place, in the order of the answer: what placed the item, its slack if it has any, then for
/// each group outward that it is inside of it, and the group's own reasons. A group made by folding has its base's.
#[derive(Debug, Clone, PartialEq, Eq)]
pub struct Reasons<'t, 'l> {
    text: &'t [u8],
    bytes: Cow<'l, [u8]>,
}

/// The bytes of one reason.
pub(crate) const REASON: usize = 13;

/// One reason. Where it names an item, the item may be without a name: FILLER.
#[derive(Debug, Clone, Copy, PartialEq, Eq)]
pub enum Reason<'t> {
    /// First in its list.
    First,
    /// Directly after a sibling, the latest earlier one without REDEFINES, which ends there.
    After { name: Option<Word<'t>>, end: usize },
    /// So many slack bytes for alignment.
    Slack { bytes: usize },
    /// Laid over the item that it redefines, which has that offset.
    Over { name: Option<Word<'t>>, offset: usize },
    /// Inside a group.
    Inside { name: Option<Word<'t>> },
}

impl Reason<'_> {
    /// The bytes that it adds to the item's place.
    pub fn adds(&self) -> usize {
        match *self {
            Reason::First | Reason::Inside { .. } => 0,
            Reason::After { end, .. } => end,
            Reason::Slack { bytes } => bytes,
            Reason::Over { offset, .. } => offset,
        }
    }
}

impl<'t, 'l> Reasons<'t, 'l> {
    /// The bytes must be those that the library wrote for the text.
    pub(crate) fn new(text: &'t [u8], bytes: Cow<'l, [u8]>) -> Reasons<'t, 'l> {
        Reasons { text, bytes }
    }

    /// The bytes as the library wrote them.
    pub fn bytes(&self) -> &[u8] {
        &self.bytes
    }

    /// The reasons one after the other.
    pub fn iter(&self) -> impl ExactSizeIterator<Item = Reason<'t>> + '_ {
        self.bytes.chunks_exact(REASON).map(|row| reason(self.text, row))
    }

    /// The bytes that they add up to: the entry's first byte in the record, as the details have it. Behind OCCURS 0 or
    /// DEPENDING ON it may pass 32 bits, though no reason does.
    pub fn sum(&self) -> u64 {
        self.iter().map(|reason| reason.adds() as u64).sum()
    }
}

fn reason<'t>(text: &'t [u8], row: &[u8]) -> Reason<'t> {
    let mut b = Bytes { text, rest: row };
    let (kind, name, adds) = (b.one(), b.word(), b.four());
    match kind {
        1 => Reason::First,
        2 => Reason::After { name, end: adds },
        3 => Reason::Slack { bytes: adds },
        4 => Reason::Over { name, offset: adds },
        5 => Reason::Inside { name },
        _ => unreachable!("a kind of the library"),
    }
}
