//! How places in the record are shown: from 0 or from 1, in decimal or in hexadecimal. Counts of bytes are decimal.

use crate::Arguments;
use std::ffi::OsStr;

/// The option that has places count from 1, and the one that has them in hexadecimal.
pub const FROM_1: &str = "--from-1";
pub const HEX: &str = "--hex";

/// How places are shown.
#[derive(Debug, Clone, Copy, PartialEq, Eq)]
pub struct Places {
    /// What the first byte counts as.
    pub from: u64,
    hex: bool,
}

impl Places {
    pub fn asked(arguments: &Arguments) -> Places {
        Places { from: u64::from(arguments.has(FROM_1)), hex: arguments.has(HEX) }
    }

    /// A place that counts from 0, as it is shown.
    pub fn shown(self, place: u64) -> String {
        let place = place.saturating_add(self.from);
        if self.hex {
            format!("{place:#x}")
        } else {
            place.to_string()
        }
    }

    /// Whether a word is a place: digits, or hexadecimal ones after 0x.
    pub fn is_written(word: &OsStr) -> bool {
        word.to_str().and_then(number).is_some()
    }

    /// The place, from 0, that a word stands for; none where places count from 1 and this is 0.
    pub fn read(self, word: &str) -> Option<usize> {
        let place = number(word)?.checked_sub(self.from)?;
        Some(place.try_into().unwrap_or(usize::MAX))
    }

    /// What is said of the places of a table.
    pub fn told(self) -> String {
        format!("bytes count from {}{}", self.from, if self.hex { ", in hexadecimal" } else { "" })
    }
}

/// The number of a word of digits, or of hexadecimal ones after 0x. One of more digits than a number has is behind
/// every record.
fn number(word: &str) -> Option<u64> {
    let (digits, radix) = word.strip_prefix("0x").map_or((word, 10), |digits| (digits, 16));
    let is_number = !digits.is_empty() && digits.chars().all(|c| c.is_digit(radix));
    is_number.then(|| u64::from_str_radix(digits, radix).unwrap_or(u64::MAX))
}
