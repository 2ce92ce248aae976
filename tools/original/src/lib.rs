//! The original Rust module, for the tools that compare with it. Its files are built unchanged (build.rs); here stands
//! what they take from the root of their crate, what their errors mean, and the numbers of what they say (`numbers`).
//! The crate ../exchanged is this one with another copybook.rs.

include!(concat!(env!("OUT_DIR"), "/modules.rs"));
pub mod numbers;

pub use layout::{DateTimeKind, Endian, Field, FieldKind, Justify, Layout, NumRepr, SignKind};

#[derive(Debug, Clone, PartialEq, Eq)]
pub struct Error(pub String);

impl std::fmt::Display for Error {
    fn fmt(&self, f: &mut std::fmt::Formatter<'_>) -> std::fmt::Result {
        f.write_str(&self.0)
    }
}

impl std::error::Error for Error {}

/// The errors by how their messages begin, with the numbers of the refusals that they mean.
const REFUSALS: [(&str, u32); 12] = [
    ("invalid level number", 10),
    ("OCCURS requires a count", 11),
    ("OCCURS … TO requires", 12),
    ("DEPENDING ON requires", 13),
    ("copybook nesting exceeds", 20),
    ("elementary item", 21),
    ("unbalanced parentheses", 22),
    ("invalid PIC repeat count", 23),
    ("unsupported PIC symbol", 25),
    ("mixed text/numeric PIC", 26),
    ("REDEFINES target", 28),
    ("record too short", 42),
];

impl Error {
    /// The number of the refusal, or 0 for an error that is none of the table's.
    pub fn number(&self) -> u32 {
        REFUSALS.iter().find(|(begin, _)| self.0.starts_with(begin)).map_or(0, |&(_, n)| n)
    }
}

pub type Result<T> = std::result::Result<T, Error>;

/// `layout.rs` names this reader; nothing here reaches it.
pub mod jsonspec {
    pub fn parse(_: &str) -> crate::Result<crate::layout::Layout> {
        Err(crate::Error("no JSON here".into()))
    }
}
