//! The bytes of an answer read one number after the other.

use crate::{Facts, NumRepr, SignKind};
use std::fmt;
use std::ops::{Deref, Range};

/// A word of the copybook's text, with its place there.
#[derive(Debug, Clone, Copy, PartialEq, Eq)]
pub struct Word<'t> {
    /// Its first byte, from 0.
    pub start: usize,
    /// What stands there.
    pub word: &'t str,
}

impl Word<'_> {
    /// The bytes of the text that it fills.
    pub fn range(&self) -> Range<usize> {
        self.start..self.start + self.word.len()
    }
}

impl Deref for Word<'_> {
    type Target = str;

    fn deref(&self) -> &str {
        self.word
    }
}

impl fmt::Display for Word<'_> {
    fn fmt(&self, f: &mut fmt::Formatter<'_>) -> fmt::Result {
        f.pad(self.word)
    }
}

/// The bytes of an answer from some place on, and the text that starts point into.
#[derive(Debug, Clone)]
pub(crate) struct Bytes<'t, 'l> {
    pub text: &'t [u8],
    pub rest: &'l [u8],
}

impl<'t> Bytes<'t, '_> {
    fn take<const N: usize>(&mut self) -> [u8; N] {
        let (taken, rest) = self.rest.split_first_chunk().expect("an answer of the library is whole");
        self.rest = rest;
        *taken
    }

    pub fn one(&mut self) -> u8 {
        self.take::<1>()[0]
    }

    pub fn flag(&mut self) -> bool {
        self.one() != 0
    }

    pub fn four(&mut self) -> usize {
        u32::from_le_bytes(self.take()) as usize
    }

    pub fn eight(&mut self) -> u64 {
        u64::from_le_bytes(self.take())
    }

    /// A start and a length.
    pub fn span(&mut self) -> (usize, usize) {
        (self.four(), self.four())
    }

    /// The word of a span; none if its length is 0.
    pub fn word(&mut self) -> Option<Word<'t>> {
        let (start, len) = self.span();
        let bytes = &self.text[start..start + len];
        (len > 0).then(|| Word { start, word: std::str::from_utf8(bytes).expect("an accepted text is ASCII") })
    }
}

/// What follows the 38 bytes that every entry of a listing has.
impl<'t> Facts<'t> for Bytes<'t, '_> {
    fn signed(&mut self) -> bool {
        self.flag()
    }

    fn sign(&mut self) -> SignKind {
        SignKind::of_number(self.one().into()).expect("a sign of the library")
    }

    fn precision(&mut self) -> u8 {
        self.one()
    }

    fn scale(&mut self) -> u8 {
        self.one()
    }

    fn repr(&mut self) -> NumRepr {
        NumRepr::of_number(self.one().into()).expect("a storage of the library")
    }

    fn picture(&mut self) -> &'t str {
        self.word().map_or("", |w| w.word)
    }

    fn members(&mut self) -> usize {
        self.four()
    }

    fn bits(&mut self) -> u8 {
        self.one()
    }
}
