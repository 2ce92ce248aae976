//! One key for a family of records: the column of one name that each copybook of a set has in the same place.

use crate::{calls, lent, Refusal, WORK};
use std::fmt;

/// Where the key stands, in the records of every copybook of the set.
#[derive(Debug, Clone, Copy, PartialEq, Eq)]
pub struct Key {
    pub offset: usize,
    pub width: usize,
}

/// Why a set of copybooks has no key.
#[derive(Debug, Clone, Copy, PartialEq, Eq)]
pub struct NoKey {
    pub refusal: Refusal,
    /// The copybook that is refused, from 0, in which the refusal has its place; none for 56 and 57.
    pub copybook: Option<usize>,
}

impl fmt::Display for NoKey {
    fn fmt(&self, f: &mut fmt::Formatter<'_>) -> fmt::Result {
        match self.copybook {
            Some(number) => write!(f, "copybook {number}: {}", self.refusal),
            None => self.refusal.fmt(f),
        }
    }
}

impl std::error::Error for NoKey {}

/// The refusal of the first copybook that the reader refuses, if there is one. With no output lent, 31 is what an
/// accepted copybook is answered with.
fn first_refused(texts: &[u8], lengths: &[u64], work: &mut [u32]) -> Option<NoKey> {
    let mut rest = texts;
    for (number, &length) in lengths.iter().enumerate() {
        let (text, later) = rest.split_at(length as usize);
        rest = later;
        match lent::layout(text, work, &mut []) {
            Err(refusal) if refusal.number != OUT_TOO_SHORT => {
                return Some(NoKey { refusal, copybook: Some(number) });
            }
            _ => {}
        }
    }
    None
}

const OUT_TOO_SHORT: u32 = 31;
const NO_SET: u32 = 56;

/// See [`crate::lent::key`].
pub(crate) fn key_of(texts: &[u8], lengths: &[u64], name: &[u8], work: &mut [u32]) -> Result<Key, NoKey> {
    calls::key(texts, lengths, name, work).map_err(|number| {
        let found = if number == NO_SET { None } else { first_refused(texts, lengths, work) };
        found.unwrap_or_else(|| NoKey { refusal: Refusal::without_place(number, 0), copybook: None })
    })
}

/// See [`crate::key()`].
pub(crate) fn key_in(name: &[u8], copybooks: &[&[u8]]) -> Result<Key, NoKey> {
    let lengths: Vec<u64> = copybooks.iter().map(|text| text.len() as u64).collect();
    let answer = key_of(&copybooks.concat(), &lengths, name, &mut vec![0; WORK]);
    // the lengths are right, so it is the count that 56 is about
    answer.map_err(|no_key| match no_key.refusal.number {
        NO_SET => NoKey { refusal: no_key.refusal.with_first_cause(), ..no_key },
        _ => no_key,
    })
}
