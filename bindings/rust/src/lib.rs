//! What the columns of a COBOL copybook are. These are safe functions over the static library of `copybook_c`, whose
//! code is proved equal to its definition; this crate is not proved: it lends the buffers as include/copybook.h asks,
//! and reads the answers.
//!
//! ```
//! let text = b"01 FISH. 05 TAG PIC X(5). 05 SIRE PIC 9(4) COMP SYNC. 05 WT OCCURS 3 PIC 9(3)V9.";
//! let (layout, details) = copybook::layout_and_details(text)?;
//! assert_eq!(layout.record_len(), 20);
//! let sire = layout.entries().nth(1).unwrap();
//! assert_eq!((sire.name, sire.offset, sire.width), (Some("SIRE"), 6, 2));
//! let sire = details.get(1).unwrap();
//! assert_eq!((sire.first, sire.slack, sire.picture.unwrap().word), (6, 1, "9(4)"));
//! assert_eq!(copybook::owner(text, 5)?, copybook::Owner::Slack { entry: 1 });
//! # Ok::<(), copybook::Refusal>(())
//! ```
//!
//! [`layout`], [`details`], [`owner`], [`reasons`], [`words`], [`extract`], [`key`], [`picture`], [`mask`] and
//! [`check_record_len`] are the calls. The first six take a copybook in free text; [`layout_cards`],
//! [`details_cards`], [`owner_cards`], [`reasons_cards`] and [`words_cards`] take one on cards with columns, and a
//! [`Form`] has them for either. A [`Reader`] keeps the buffers from call to call; with the functions of [`lent`] they
//! are the caller's own. A [`Refusal`] has a number and a place; [`Refusal::told`] says it in words, with the [`Cause`]
//! that the text shows:
//!
//! ```
//! let text = b"01 R.\n    05 TAG  PIC X(5).\n    05 YEAR REDEFINES TAGS PIC 9(4).\n";
//! let told = copybook::layout(text).unwrap_err().told(text).of_file("fish.cpy");
//! assert_eq!(told, "\
//! fish.cpy:3:5: no earlier item of this list is called TAGS
//!         05 YEAR REDEFINES TAGS PIC 9(4).
//!         ^                 ~~~~
//!     the target must stand before it, under the same group
//! ");
//! ```
//!
//! A copybook in another code page than ASCII is refused; [`any_bytes`] makes one of it that is not.
//!
//! Each call names its refusals in the order in which they are looked for. What several have:
//!
//! <!-- made by tools/papers --write: sets of refusals -->
//! - the reader's refusals: 1 to 3; on cards 51; 50; 10 to 14; 20 to 30, with 52 in the place of 21
//! - a picture's refusals: 1, 2; 22 to 27
//! <!-- end of sets of refusals -->
//!
//! Of these the functions of [`lent`] alone have 3, since all others lend what is needed; so it is with 31.

// drop-in/copybook.rs, which is a module here too, calls this crate by that name
extern crate self as wifthorn;

mod bytes;
mod calls;
mod cause;
mod declared;
mod details;
pub mod fixedformat;
mod form;
mod key;
mod kinds;
mod layout;
pub mod lent;
pub mod limits;
mod reasons;
mod refusal;
mod statement;
mod texts;
mod told;
mod words;

pub use bytes::Word;
pub use cause::Cause;
pub use details::{Detail, Details, Record};
pub use form::{any_bytes, Form};
pub use key::{Key, NoKey};
use kinds::Facts;
pub use kinds::{FieldKind, NumRepr, SignClause, SignKind, Usage};
pub use layout::{Entries, Entry, Layout};
use limits::{DEEPEST, MOST_BYTES, MOST_STATEMENTS};
pub use limits::{LONGEST_MASK, MOST_ITEMS, WORK};
pub use reasons::{Reason, Reasons};
pub use refusal::{line_and_column, Refusal, Row};
pub use texts::REFUSALS;
pub use told::{escaped, Told};
pub use words::{Sentence, Words};

/// The longest listing: a head, and at most 2 entries of at most 49 bytes for each statement.
pub const LONGEST_LISTING: usize = 10 + MOST_STATEMENTS * 2 * 49;

/// The longest details: a head, and 63 bytes for each entry. A group made by folding has two statements for itself: its
/// base, and that one's first redefiner.
pub const LONGEST_DETAILS: usize = details::HEAD + (MOST_STATEMENTS + MOST_STATEMENTS / 2) * details::DETAIL;

/// The longest reasons: 13 bytes for each. An item has at most a placing reason and slack, and each group around it,
/// of which there are at most as many as the deepest list is deep, two reasons.
pub const LONGEST_REASONS: usize = (2 + DEEPEST * 2) * reasons::REASON;

/// The longest words of a text of that length: a word and a period have 8 bytes each and at least one in the text, and
/// a last statement may lack its period.
pub const fn longest_words(len: usize) -> usize {
    (len + 1) * 8
}

/// The subsets of the most items of which an extract is chosen.
pub const ALL_SUBSETS: u64 = 1 << MOST_ITEMS;

/// Kind and width of one picture.
#[derive(Debug, Clone, Copy, PartialEq, Eq)]
pub struct Picture<'t> {
    pub kind: FieldKind<'t>,
    pub width: usize,
}

/// Whose a byte of the record is.
#[derive(Debug, Clone, Copy, PartialEq, Eq)]
pub enum Owner {
    /// One occurrence of an elementary item: the number of its entry, its first byte in the record, and the byte's
    /// place in it.
    Piece { entry: usize, first: usize, place: usize },
    /// Alignment before the item of that entry, or at the end of that group.
    Slack { entry: usize },
}

/// A choice of the top-level items that fits a limit.
#[derive(Debug, Clone, Copy, PartialEq, Eq)]
pub struct Extract {
    /// The number of the subset, in binary: the first item is the lowest bit.
    pub subset: u64,
    /// What the chosen items weigh.
    pub weight: u64,
    /// How many subsets were looked at.
    pub examined: u64,
    /// By how much the best choice there is may outweigh this one at most: 0 if all subsets were looked at.
    pub off: u64,
}

impl Extract {
    /// Whether the top-level item of that number, from 0, is chosen.
    pub fn has(&self, item: usize) -> bool {
        item < MOST_ITEMS && self.subset >> item & 1 == 1
    }
}

/// The layout of the copybook in `text`. Refusals: the reader's.
pub fn layout(text: &[u8]) -> Result<Layout<'_, 'static>, Refusal> {
    Form::Free.layout(text)
}

/// The layout of a copybook on cards. Refusals: the reader's, 51 with them. Places and positions are those in `cards`.
pub fn layout_cards(cards: &[u8]) -> Result<Layout<'_, 'static>, Refusal> {
    Form::Cards.layout(cards)
}

/// What the layout does not say of its entries: their places in the record, slack, levels, pictures, REDEFINES. The
/// details of an entry have its number in the layout. Refusals: the reader's.
pub fn details(text: &[u8]) -> Result<Details<'_, 'static>, Refusal> {
    Form::Free.details(text)
}

/// The details of a copybook on cards. Refusals as for [`layout_cards`].
pub fn details_cards(cards: &[u8]) -> Result<Details<'_, 'static>, Refusal> {
    Form::Cards.details(cards)
}

/// [`layout`] and [`details`], as many of these as that has entries.
pub fn layout_and_details(text: &[u8]) -> Result<(Layout<'_, 'static>, Details<'_, 'static>), Refusal> {
    Form::Free.layout_and_details(text)
}

/// Whose the byte at `position` of the record is. Refusals: the reader's, then 40, 41.
pub fn owner(text: &[u8], position: usize) -> Result<Owner, Refusal> {
    Form::Free.owner(text, position)
}

/// Whose the byte at `position` of the record that cards describe is. Refusals as for [`owner()`], 51 with them.
pub fn owner_cards(cards: &[u8], position: usize) -> Result<Owner, Refusal> {
    Form::Cards.owner(cards, position)
}

/// Why the entry of that number in the layout, from 0, stands where it does: see [`Reasons`]. Refusals: the reader's,
/// then 53.
pub fn reasons(text: &[u8], entry: usize) -> Result<Reasons<'_, 'static>, Refusal> {
    Form::Free.reasons(text, entry)
}

/// The reasons of an entry of a copybook on cards. Refusals as for [`reasons()`], 51 with them.
pub fn reasons_cards(cards: &[u8], entry: usize) -> Result<Reasons<'_, 'static>, Refusal> {
    Form::Cards.reasons(cards, entry)
}

/// The words of the copybook in `text` as the reader has them, statement by statement, also where what they say is
/// refused. Refusals: 1, 2; 50.
///
/// ```
/// let text = b"05 TAG PIC Q. 88 OLD VALUE 'a. b'";
/// let words = copybook::words(text)?;
/// let said: Vec<String> = words.iter().map(|s| format!("{} words to {}", s.words.len(), s.end)).collect();
/// assert_eq!(said, ["4 words to 12", "5 words to 33"]);
/// assert_eq!(words.iter().next().unwrap().words[3].word, "Q");
/// # Ok::<(), copybook::Refusal>(())
/// ```
pub fn words(text: &[u8]) -> Result<Words<'_, 'static>, Refusal> {
    Form::Free.words(text)
}

/// The words of a copybook on cards. Refusals as for [`words()`], 51 with them.
pub fn words_cards(cards: &[u8]) -> Result<Words<'_, 'static>, Refusal> {
    Form::Cards.words(cards)
}

/// Of the top-level items, each with a weight from 1 to 1,000 in their order, the heaviest choice whose reserved widths
/// sum to at most `limit` bytes, among the first `budget` subsets. Refusals: the reader's, then 40, 58, 59, 60.
///
/// ```
/// let text = b"01 FISH. 05 TAG PIC X(5). 05 SIRE PIC 9(4) COMP SYNC. 05 WT OCCURS 3 PIC 9(3)V9.";
/// let chosen = copybook::extract(text, &[5, 3, 9], 14, copybook::ALL_SUBSETS)?;
/// assert_eq!((chosen.has(0), chosen.has(1), chosen.has(2)), (false, true, true));
/// assert_eq!((chosen.weight, chosen.examined, chosen.off), (12, 8, 0));
/// # Ok::<(), copybook::Refusal>(())
/// ```
pub fn extract(text: &[u8], weights: &[u32], limit: u64, budget: u64) -> Result<Extract, Refusal> {
    lent::extract(text, weights, limit, budget, &mut vec![0; WORK])
}

/// Where the key of that name stands in the records of a set of 2 to 16 copybooks in free text: each has exactly one
/// entry of the name at the top of its layout, letter case aside, which is no group, has neither OCCURS nor REDEFINES,
/// and stands behind no DEPENDING ON, and all agree in offset, width, kind and kind details, an edited one in its mask.
/// Refusals: 56; the reader's of the first copybook that is refused; 57.
pub fn key(name: &[u8], copybooks: &[&[u8]]) -> Result<Key, NoKey> {
    key::key_in(name, copybooks)
}

/// Kind and width of a picture, under a usage and with the sign that a SIGN clause gives, if there is one. Refusals: a
/// picture's.
pub fn picture(picture: &[u8], usage: Usage, sign: Option<SignKind>) -> Result<Picture<'_>, Refusal> {
    calls::picture(picture, usage, sign)
}

/// The upper-case mask of a picture that is edited under the usage; no bytes for any other. It keeps P, which holds no
/// byte of the item: without P it is as long as the item is wide. Refusals: a picture's.
pub fn mask(picture: &[u8], usage: Usage) -> Result<String, Refusal> {
    lent::mask(picture, usage, &mut [0; LONGEST_MASK]).map(str::to_owned)
}

/// Whether a record of `len` bytes is long enough for a layout of `record_len` bytes: refusal 42 if it is shorter and
/// not variable.
pub fn check_record_len(record_len: usize, variable: bool, len: usize) -> Result<(), Refusal> {
    calls::check_record_len(record_len, variable, len)
}

/// Work memory and outputs that are kept from call to call, for copybooks of one form.
#[derive(Debug, Clone)]
pub struct Reader {
    form: Form,
    work: Vec<u32>,
    listing: Vec<u8>,
    details: Vec<u8>,
    reasons: Vec<u8>,
    words: Vec<u8>,
}

impl Reader {
    /// Buffers that are long enough for every copybook in free text.
    pub fn new() -> Reader {
        Reader::of(Form::Free)
    }

    /// The same for copybooks of this form.
    pub fn of(form: Form) -> Reader {
        Reader {
            form,
            work: vec![0; WORK],
            listing: vec![0; LONGEST_LISTING],
            details: vec![0; LONGEST_DETAILS],
            reasons: vec![0; LONGEST_REASONS],
            words: Vec::new(),
        }
    }

    /// As [`layout()`]; the layout stands in the reader until the next call.
    pub fn layout<'t>(&mut self, text: &'t [u8]) -> Result<Layout<'t, '_>, Refusal> {
        lent::layout_of(self.form, text, &mut self.work, &mut self.listing)
    }

    /// As [`details()`]; they stand in the reader until the next call.
    pub fn details<'t>(&mut self, text: &'t [u8]) -> Result<Details<'t, '_>, Refusal> {
        lent::details_of(self.form, text, &mut self.work, &mut self.details)
    }

    /// As [`layout_and_details()`]; they stand in the reader until the next call.
    pub fn layout_and_details<'t>(&mut self, text: &'t [u8]) -> Result<(Layout<'t, '_>, Details<'t, '_>), Refusal> {
        let layout = lent::layout_of(self.form, text, &mut self.work, &mut self.listing)?;
        Ok((layout, lent::details_of(self.form, text, &mut self.work, &mut self.details)?))
    }

    /// As [`reasons()`]; they stand in the reader until the next call.
    pub fn reasons<'t>(&mut self, text: &'t [u8], entry: usize) -> Result<Reasons<'t, '_>, Refusal> {
        lent::reasons_of(self.form, text, entry, &mut self.work, &mut self.reasons)
    }

    /// As [`words()`]; they stand in the reader until the next call.
    pub fn words<'t>(&mut self, text: &'t [u8]) -> Result<Words<'t, '_>, Refusal> {
        let needed = longest_words(text.len().min(MOST_BYTES));
        self.words.resize(needed.max(self.words.len()), 0);
        lent::words_of(self.form, text, &mut self.work, &mut self.words)
    }

    /// As [`owner()`].
    pub fn owner(&mut self, text: &[u8], position: usize) -> Result<Owner, Refusal> {
        calls::owner(self.form, text, position, &mut self.work)
    }
}

impl Default for Reader {
    fn default() -> Reader {
        Reader::new()
    }
}
