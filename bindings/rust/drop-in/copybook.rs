//! COBOL copybooks as layouts, by a library that is proved equal to its definition. A drop-in for the file
//! `copybook.rs` of `fixedformat-core`: the same `parse`, `parse_pic` and `Usage`, and the same layouts, in the types
//! of the `layout.rs` beside it. Put in that file's place it wants one line more in the crate's Cargo.toml, with the
//! path to the binding,
//!
//! ```toml
//! wifthorn = { package = "copybook", path = "../wifthorn/bindings/rust" }
//! ```
//!
//! where the name is one that does not clash with this module's. docs/DIFFERENCES.md there has what is laid out or
//! refused otherwise. An error says what the original's says, where it refuses too, and then in brackets the refusal's
//! number, its line and column, and a sentence that names the item.

use super::layout::{Endian, Field, FieldKind, Justify, Layout, NumRepr, SignKind};
use super::{Error, Result};
use std::cell::RefCell;
use wifthorn::{fixedformat, Entries, Entry, Reader, Refusal};

/// USAGE of an elementary item.
pub use wifthorn::Usage;

thread_local! {
    /// The buffers of a thread's calls.
    static READER: RefCell<Reader> = RefCell::new(Reader::new());
}

/// The layout of a copybook.
pub fn parse(src: &str) -> Result<Layout> {
    read(src).map_err(|refusal| Error(fixedformat::said(refusal, src)))
}

/// As [`parse`], with the refusal itself.
pub(super) fn read(src: &str) -> std::result::Result<Layout, Refusal> {
    READER.with_borrow_mut(|reader| {
        let layout = reader.layout(src.as_bytes())?;
        let fields = fields(&mut layout.entries(), layout.top_len());
        Ok(Layout { record_len: layout.record_len(), fields, variable: layout.variable() })
    })
}

/// Kind and width of a picture.
pub fn parse_pic(pic: &str, usage: Usage, sign: Option<SignKind>) -> Result<(FieldKind, usize)> {
    let found = wifthorn::picture(pic.as_bytes(), usage, sign.map(asked_sign));
    let found = found.map_err(|refusal| Error(fixedformat::said(refusal, pic)))?;
    Ok((elementary(found.kind, found.width), found.width))
}

/// The next so many fields, with what is below them.
fn fields(entries: &mut Entries, count: usize) -> Vec<Field> {
    let mut fields = Vec::with_capacity(count);
    while let Some(entry) = (fields.len() < count).then(|| entries.next()).flatten() {
        fields.push(field(entry, entries));
    }
    fields
}

/// The field of an entry; what is below it are the next entries.
fn field(entry: Entry, later: &mut Entries) -> Field {
    Field {
        name: entry.name.unwrap_or("FILLER").into(),
        offset: entry.offset,
        width: entry.width,
        kind: match entry.kind {
            wifthorn::FieldKind::Group { members } => FieldKind::Group(fields(later, members)),
            kind => elementary(kind, entry.width),
        },
        occurs: entry.occurs,
        depending_on: entry.depending_on.map(str::to_owned),
        redefines: entry.redefines.map(str::to_owned),
    }
}

/// The kind of an elementary item of that width; a group has its members elsewhere.
fn elementary(kind: wifthorn::FieldKind, width: usize) -> FieldKind {
    use wifthorn::FieldKind as Kind;
    match kind {
        Kind::Text => FieldKind::Text { justify: Justify::Left, trim: true, pad: b' ' },
        Kind::Int { signed, sign } => FieldKind::Int { signed, sign: sign_kind(sign) },
        Kind::Binary { signed } => FieldKind::Binary { endian: Endian::Big, signed },
        Kind::Decimal { precision, scale, repr, sign } => {
            FieldKind::Decimal { precision, scale, repr: num_repr(repr), sign: sign_kind(sign) }
        }
        Kind::Edited { precision, scale, signed, picture } => {
            FieldKind::Edited { precision, scale, signed, mask: mask(picture, width) }
        }
        Kind::Group { .. } => FieldKind::Group(Vec::new()),
        Kind::Float { bits } => FieldKind::Float { bits, endian: Endian::Big },
    }
}

/// The mask of an edited picture of that width: as the original's it has no P, so that the width is its length. A
/// picture without repeat counts that is as long has no symbol that takes no place, and is its own mask: asking for it
/// would take longer than the rest.
fn mask(picture: &str, width: usize) -> String {
    if picture.len() == width && !picture.contains('(') {
        return picture.to_ascii_uppercase();
    }
    wifthorn::mask(picture.as_bytes(), Usage::Display).expect("the picture of an edited item").replace('P', "")
}

fn sign_kind(sign: wifthorn::SignKind) -> SignKind {
    match sign {
        wifthorn::SignKind::Unsigned => SignKind::Unsigned,
        wifthorn::SignKind::Embedded => SignKind::Embedded,
        wifthorn::SignKind::LeadingSeparate => SignKind::LeadingSeparate,
        wifthorn::SignKind::TrailingSeparate => SignKind::TrailingSeparate,
    }
}

fn asked_sign(sign: SignKind) -> wifthorn::SignKind {
    match sign {
        SignKind::Unsigned => wifthorn::SignKind::Unsigned,
        SignKind::Embedded => wifthorn::SignKind::Embedded,
        SignKind::LeadingSeparate => wifthorn::SignKind::LeadingSeparate,
        SignKind::TrailingSeparate => wifthorn::SignKind::TrailingSeparate,
    }
}

fn num_repr(repr: wifthorn::NumRepr) -> NumRepr {
    match repr {
        wifthorn::NumRepr::Display => NumRepr::Display,
        wifthorn::NumRepr::Comp3 => NumRepr::Comp3,
        wifthorn::NumRepr::Zoned => NumRepr::Zoned,
    }
}
