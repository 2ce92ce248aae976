//! A drop-in for the Rust module that this library replaces, `fixedformat-core`: its functions, types and errors for
//! copybooks, under its names. A program written for that module changes one line,
//!
//! ```
//! use copybook::fixedformat as fixedformat_core;
//!
//! let layout = fixedformat_core::copybook::parse("05 A PIC X(3). 05 B PIC S9(5)V99 COMP-3.")?;
//! assert_eq!((layout.record_len, layout.fields[1].name.as_str(), layout.fields[1].offset), (7, "B", 3));
//! # Ok::<(), fixedformat_core::Error>(())
//! ```
//!
//! and gets the same layouts from the proved library, but for what docs/DIFFERENCES.md tells of the original: P holds
//! no byte, a group's usage holds for its members, and COMP-1 and COMP-2 are floats. The values are those that the
//! original's `parse` gives: text is left-justified, trimmed and padded with blanks, binary is big-endian, and so are
//! floats. What reads other specifications than copybooks is not here; the kinds that only those have are, so that a
//! `match` over all kinds still compiles. The module `copybook` is a file that stands in the original's own crate too,
//! in the place of its own: see drop-in/copybook.rs.

use crate::Refusal;
pub use crate::{NumRepr, SignKind};
pub use copybook::{parse, parse_pic, Usage};
use std::fmt;

#[path = "../drop-in/copybook.rs"]
pub mod copybook;

/// The original's module of that name.
pub mod layout {
    pub use super::{DateTimeKind, Endian, Field, FieldKind, Justify, Layout, NumRepr, SignKind, MAX_NESTING_DEPTH};
}

/// Groups nest no deeper.
pub const MAX_NESTING_DEPTH: usize = 64;

/// The layout of a record.
#[derive(Debug, Clone, PartialEq)]
pub struct Layout {
    /// The record's length in bytes; the least one if the record is variable.
    pub record_len: usize,
    pub fields: Vec<Field>,
    /// Whether a table DEPENDING ON an item, at any depth, makes the record's length vary.
    pub variable: bool,
}

/// A column, or a group of columns.
#[derive(Debug, Clone, PartialEq)]
pub struct Field {
    pub name: String,
    /// From the start of the list that it stands in: the record, or one occurrence of the group around it.
    pub offset: usize,
    /// Bytes of one occurrence.
    pub width: usize,
    pub kind: FieldKind,
    /// The count of OCCURS, for a table DEPENDING ON an item its largest.
    pub occurs: Option<usize>,
    /// The name after DEPENDING ON.
    pub depending_on: Option<String>,
    /// The name after REDEFINES, of a redefiner that is folded under no base.
    pub redefines: Option<String>,
}

/// What a field holds. A copybook has text, int, binary, decimal, edited and group.
#[derive(Debug, Clone, PartialEq)]
pub enum FieldKind {
    Text { justify: Justify, trim: bool, pad: u8 },
    Int { signed: bool, sign: SignKind },
    Binary { endian: Endian, signed: bool },
    Float { bits: u8, endian: Endian },
    Hex { order: Endian },
    Bool,
    Pad { pad: u8 },
    Decimal { precision: u8, scale: u8, repr: NumRepr, sign: SignKind },
    Edited { precision: u8, scale: u8, signed: bool, mask: String },
    Group(Vec<Field>),
    DateTime { kind: DateTimeKind, format: String },
}

/// What a [`FieldKind::DateTime`] is.
#[derive(Debug, Clone, Copy, PartialEq, Eq)]
pub enum DateTimeKind {
    Date,
    Time,
    Timestamp,
}

/// The side that text stands on.
#[derive(Debug, Clone, Copy, PartialEq, Eq)]
pub enum Justify {
    Left,
    Right,
}

/// The order of bytes.
#[derive(Debug, Clone, Copy, PartialEq, Eq)]
pub enum Endian {
    Big,
    Little,
}

/// Why something was turned down, in words: what the original said, where it refused too; then in brackets the refusal,
/// with its number, line and column, and a sentence that names the item. [`Layout::read`] gives the [`Refusal`] itself.
#[derive(Debug, Clone, PartialEq, Eq)]
pub struct Error(pub String);

impl fmt::Display for Error {
    fn fmt(&self, f: &mut fmt::Formatter<'_>) -> fmt::Result {
        f.write_str(&self.0)
    }
}

impl std::error::Error for Error {}

pub type Result<T> = std::result::Result<T, Error>;

impl Layout {
    /// The layout of these fields: as long as the one that ends last, and variable if a table among them, at any depth,
    /// is DEPENDING ON an item. Of what [`parse`] gives it makes the same layout again.
    pub fn from_fields(fields: Vec<Field>) -> Result<Layout> {
        let record_len = fields.iter().map(|field| field.offset + field.reserved_width()).max().unwrap_or(0);
        let variable = fields.iter().any(Field::is_variable);
        Ok(Layout { record_len, fields, variable })
    }

    /// As [`parse`], with the refusal itself.
    pub fn read(src: &str) -> std::result::Result<Layout, Refusal> {
        copybook::read(src)
    }

    /// Whether a record of so many bytes is long enough for this layout; always so if it is variable.
    pub fn check_record_len(&self, len: usize) -> Result<()> {
        crate::check_record_len(self.record_len, self.variable, len).map_err(|refusal| {
            let original = format!("record too short: need {} bytes, got {len}", self.record_len);
            Error(format!("{original} (refused {}: {})", refusal.number, refusal.found()))
        })
    }
}

impl Field {
    /// The bytes that it takes in its list: none if it is a table DEPENDING ON an item.
    pub fn reserved_width(&self) -> usize {
        match self.depending_on {
            Some(_) => 0,
            None => self.total_width(),
        }
    }

    /// The bytes of all occurrences, for a table DEPENDING ON an item of the most.
    pub fn total_width(&self) -> usize {
        self.width * self.occurs.unwrap_or(1)
    }

    /// Whether it is a table DEPENDING ON an item, or has one below it.
    fn is_variable(&self) -> bool {
        let below = match &self.kind {
            FieldKind::Group(members) => members.as_slice(),
            _ => &[],
        };
        self.depending_on.is_some() || below.iter().any(Field::is_variable)
    }
}

// ---------------------------------------------------------------- errors

/// What an [`Error`] says of a refusal of this text.
pub fn said(refusal: Refusal, text: &str) -> String {
    let mut place = format!("refused {}", refusal.number);
    if refusal.line > 0 {
        place += &format!(", line {} column {}", refusal.line, refusal.column);
    }
    let sentence = refusal.told(text.as_bytes()).sentence;
    match original(refusal, text) {
        Some(original) => format!("{original} ({place}: {sentence})"),
        None => format!("{sentence} ({place})"),
    }
}

/// What the original says where it refuses too.
fn original(refusal: Refusal, text: &str) -> Option<String> {
    let seen = refusal.seen(text.as_bytes());
    let around = refusal.around(text.as_bytes(), &seen);
    let (statement, word) = (&around.statement, around.about.map_or("", |word| word.word));
    let item = statement.item();
    let picture = statement.picture.map_or(String::new(), |picture| picture.to_ascii_uppercase());
    let repeat = word.strip_prefix('(').and_then(|rest| rest.strip_suffix(')')).unwrap_or("").to_ascii_uppercase();
    Some(match refusal.number {
        10 => format!("invalid level number {word:?}"),
        11 => "OCCURS requires a count".into(),
        12 => "OCCURS … TO requires an upper bound".into(),
        13 => "DEPENDING ON requires a field name".into(),
        20 => format!("copybook nesting exceeds the maximum depth of {MAX_NESTING_DEPTH}"),
        21 => format!("elementary item {item:?} has no PIC clause"),
        22 => format!("unbalanced parentheses in PIC {picture:?}"),
        23 => format!("invalid PIC repeat count {repeat:?}"),
        25 => format!("unsupported PIC symbol {:?} in {picture:?}", word.chars().next()?.to_ascii_uppercase()),
        26 => format!("mixed text/numeric PIC not supported: {picture:?}"),
        28 => format!("REDEFINES target {word:?} not found before {item:?}"),
        _ => return None,
    })
}
