//! The limits, as the definition has them; in brackets stands the refusal of what is past them.

// made by tools/papers --write: limits
/// The most bytes of a text (1).
pub const MOST_BYTES: usize = 65_535;

/// The fewest numbers of 32 bits that work memory has (3).
pub const WORK: usize = 16_384;

/// The most statements that are kept (14).
pub const MOST_STATEMENTS: usize = 800;

/// The depth of the deepest list; the record's fields are at 0 (20).
pub const DEEPEST: usize = 64;

/// The most symbols of a picture (24).
pub const MOST_SYMBOLS: usize = 65_535;

/// The most digits of a number, P included (27).
pub const MOST_DIGITS: usize = 31;

/// The most bytes of a mask (27).
pub const LONGEST_MASK: usize = 255;

/// The largest count of OCCURS, aligned cursor, size or end (29).
pub const LARGEST: usize = 2_147_483_647;

/// The most top-level items that an extract is chosen from (58).
pub const MOST_ITEMS: usize = 16;

/// The smallest weight of an item (59).
pub const LEAST_WEIGHT: usize = 1;

/// The largest weight of an item (59).
pub const MOST_WEIGHT: usize = 1_000;

/// The fewest copybooks of a set (56).
pub const FEWEST_IN_SET: usize = 2;

/// The most copybooks of a set (56).
pub const MOST_IN_SET: usize = 16;
// end of limits
