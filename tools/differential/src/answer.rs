//! What the product should answer, from the Rust's own answer: the bytes of the listing and of the details by their
//! formats, the numbers of a picture, or the number of the refusal that the Rust's error means. Places, positions,
//! levels and slack are those of `reading`.

use crate::reading::{self, Reading, Refused, Shape, Sign, Span, Statement};
use fixedformat_core::numbers::{self, SIGNS, USAGES};
use fixedformat_core::{copybook, Error, Field, FieldKind, Layout};
use std::panic;

/// What the Rust did: it answered, it panicked (it is built with overflow checks), or it was not asked.
pub enum Original<T> {
    Gave(Result<T, Error>),
    Panicked,
    NotAsked,
}

/// The Rust writes every symbol of a picture out: it is not asked where a picture has more than this.
const MOST_SYMBOLS: u128 = 1_000_000;

fn affordable(picture: &[u8]) -> bool {
    reading::runs(picture, Some(MOST_SYMBOLS)) != Err(24)
}

fn asked<T>(text: &[u8], ask: impl FnOnce(&str) -> Result<T, Error>) -> Original<T> {
    let Ok(text) = std::str::from_utf8(text) else {
        return Original::NotAsked;
    };
    match panic::catch_unwind(panic::AssertUnwindSafe(|| ask(text))) {
        Ok(answer) => Original::Gave(answer),
        Err(_) => Original::Panicked,
    }
}

// ---------------------------------------------------------------- the listing

struct Writer<'a> {
    text: &'a [u8],
    statements: &'a [Statement],
    out: Vec<u8>,
    details: Vec<u8>,
    /// The edited pictures with the masks that the Rust has for them.
    masks: Vec<(Span, String)>,
}

/// A number of 4 bytes.
fn four(n: usize) -> [u8; 4] {
    u32::try_from(n).expect("numbers above 2^31 are refused before").to_le_bytes()
}

/// A start and a length.
fn eight(span: Span) -> Vec<u8> {
    [four(span.start), four(span.len)].concat()
}

impl Writer<'_> {
    /// A place, which must spell what the Rust has.
    fn place(&mut self, span: Span, spelled: Option<&str>, missing: &str) -> Result<(), String> {
        let found = if span.len == 0 { missing.as_bytes() } else { span.of(self.text) };
        if found != spelled.unwrap_or("").as_bytes() {
            let found = String::from_utf8_lossy(found);
            return Err(format!("the reading has {found:?} where the Rust has {spelled:?}"));
        }
        self.out.extend(eight(span));
        Ok(())
    }

    /// An entry in a list at that depth, which starts there in the record; with what is below it.
    fn entry(&mut self, field: &Field, shape: &Shape, depth: u8, start: u64) -> Result<(), String> {
        let s = &self.statements[shape.statement];
        let facts = numbers::kind(&field.kind).ok_or("the Rust has a kind that copybooks do not have")?;
        self.out.push(facts[0]);
        self.place(s.name, Some(&field.name), "FILLER")?;
        self.out.extend([four(field.offset), four(field.width)].concat());
        self.out.push(u8::from(field.occurs.is_some()));
        self.out.extend(four(field.occurs.unwrap_or(0)));
        let depending = if shape.union { Span::default() } else { s.depending };
        self.place(depending, field.depending_on.as_deref(), "")?;
        let redefines = if shape.redefines { s.redefines } else { Span::default() };
        self.place(redefines, field.redefines.as_deref(), "")?;
        self.out.extend(&facts[1..]);
        let first = start + field.offset as u64;
        let row = self.details.len();
        self.detail(s, shape, depth, first);
        match &field.kind {
            FieldKind::Edited { mask, .. } => {
                self.out.extend(eight(s.picture));
                self.masks.push((s.picture, mask.clone()));
            }
            FieldKind::Group(members) => {
                self.out.extend(four(members.len()));
                self.entries(members, &shape.members, depth + 1, first)?;
                let below = self.details[row..].len() / DETAIL - 1;
                self.details[row + BELOW..][..4].copy_from_slice(&four(below));
                return Ok(());
            }
            _ => {}
        }
        if shape.members.is_empty() {
            Ok(())
        } else {
            Err("the reading has a group where the Rust has an elementary item".into())
        }
    }

    /// The details of an entry with none below it.
    fn detail(&mut self, s: &Statement, shape: &Shape, depth: u8, first: u64) {
        self.details.extend(four(s.at));
        self.details.extend([s.level as u8, depth, u8::from(shape.union)]);
        self.details.extend(four(0));
        self.details.extend(first.to_le_bytes());
        self.details.extend(four(shape.slack));
        let own = |span| eight(if shape.union { Span::default() } else { span });
        for span in [s.picture, s.redefines, s.depending] {
            self.details.extend(own(span));
        }
        self.details.extend(four(shape.slack_at_end));
        self.details.extend(if shape.union { [0; 3] } else { shape.digits });
        self.details.extend(own(s.word));
        self.details.push(if shape.union { 0 } else { s.clause });
    }

    /// What stands before the details of entries: the dropped root, and how many entries there are.
    fn head(&self, reading: &Reading) -> Vec<u8> {
        let root = reading.dropped.then(|| &self.statements[0]);
        let root = root.map(|s| [&four(s.at)[..], &[s.level as u8], &eight(s.name)].concat());
        [root.unwrap_or(vec![0; 13]), four(self.details.len() / DETAIL).to_vec()].concat()
    }

    fn entries(&mut self, fields: &[Field], shapes: &[Shape], depth: u8, start: u64) -> Result<(), String> {
        if fields.len() != shapes.len() {
            return Err(format!("the reading has {} entries where the Rust has {}", shapes.len(), fields.len()));
        }
        fields.iter().zip(shapes).try_for_each(|(f, s)| self.entry(f, s, depth, start))
    }
}

/// The bytes of an entry's details, and the place in them of the number of entries below.
const DETAIL: usize = 63;
const BELOW: usize = 7;

/// What the product should write of an accepted copybook, and the Rust's layout.
pub struct Listing {
    pub bytes: Vec<u8>,
    pub details: Vec<u8>,
    pub masks: Vec<(Span, String)>,
    pub layout: Layout,
}

fn listing(text: &[u8], reading: &Reading, shapes: &[Shape], layout: Layout) -> Result<Listing, String> {
    let statements = &reading.statements;
    let mut w = Writer { text, statements, out: vec![0], details: Vec::new(), masks: Vec::new() };
    w.out.extend(four(layout.record_len));
    w.out.push(u8::from(layout.variable));
    w.out.extend(four(layout.fields.len()));
    w.entries(&layout.fields, shapes, 0, 0)?;
    let details = [w.head(reading), w.details].concat();
    Ok(Listing { bytes: w.out, details, masks: w.masks, layout })
}

/// What the product should say of a copybook: a listing; or a refusal, with what the Rust says; or one that is added,
/// where the Rust has none such, with how the Rust did; or it accepts, where literals, usages or a P leave the Rust
/// without an answer.
pub enum Expected {
    Listing(Listing),
    Refused(Refused, Error),
    Added(Refused, &'static str),
    Accepted(&'static str),
}

/// 29 for a top-level end.
fn long_end(reading: &Reading, shapes: &[Shape], layout: &Layout) -> Option<Refused> {
    let ends = layout.fields.iter().map(|f| f.offset as u128 + f.reserved_width() as u128);
    let k = ends.zip(shapes).find(|(end, _)| *end > reading::LARGEST)?.1.statement;
    Some(Refused(29, reading.statements[k].at))
}

/// Whether the Rust can be asked: it expands the pictures of elementary items alone, and none where a statement is
/// refused. After 14 the later statements are not known here, so every word is taken for a picture.
fn affordable_to_ask(text: &[u8], reading: &Reading) -> bool {
    match reading.top {
        Err(Refused(10..=13, _)) => true,
        Err(Refused(1 | 2 | 14, _)) => text.split(|&b| reading::white(b)).all(affordable),
        _ => reading.statements.iter().filter(|s| s.below.is_empty()).all(|s| affordable(s.picture.of(text))),
    }
}

pub fn copybook(text: &[u8], reading: &Reading) -> Result<Expected, String> {
    if let Some(how) = reading.no_answer(text) {
        return Ok(reading.top.as_ref().map_or_else(|r| Expected::Added(*r, how), |_| Expected::Accepted(how)));
    }
    let original = if affordable_to_ask(text, reading) { asked(text, copybook::parse) } else { Original::NotAsked };
    let added = |r: Refused| matches!(r.0, 1 | 2 | 14 | 24 | 27 | 29 | 30);
    match (&reading.top, original) {
        (Err(r), Original::Gave(Ok(_))) if added(*r) => Ok(Expected::Added(*r, "accepts")),
        (Err(r), Original::Gave(Err(_))) if added(*r) => Ok(Expected::Added(*r, "refuses something later")),
        (Err(r), Original::Panicked) if added(*r) => Ok(Expected::Added(*r, "panics")),
        (Err(r), Original::NotAsked) if added(*r) => Ok(Expected::Added(*r, "was not asked")),
        (Err(r), Original::Gave(Err(e))) if r.0 == e.number() => Ok(Expected::Refused(*r, e)),
        (Err(r), Original::Gave(Err(e))) => Err(format!("the reading has {r:?} where the Rust has {e}")),
        (Err(r), Original::Gave(Ok(_))) => Err(format!("the reading has {r:?} where the Rust accepts")),
        (Ok(shapes), Original::Gave(Ok(layout))) => match long_end(reading, shapes, &layout) {
            Some(r) => Ok(Expected::Added(r, "accepts")),
            None => listing(text, reading, shapes, layout).map(Expected::Listing),
        },
        (Ok(_), Original::Gave(Err(e))) => Err(format!("the reading accepts where the Rust has {e}")),
        (top, Original::Panicked) => Err(format!("the Rust panics where the reading has {:?}", top.as_ref().err())),
        (Err(r), Original::NotAsked) => Ok(Expected::Added(*r, "was not asked")),
        (Ok(_), Original::NotAsked) => Err("the reading accepts what the Rust could not be asked".into()),
    }
}

// ---------------------------------------------------------------- pictures

const READ_USAGES: [reading::Usage; 3] = [reading::Usage::Display, reading::Usage::Comp3, reading::Usage::Comp];
const READ_SIGNS: [Option<Sign>; 5] =
    [None, Some(Sign::Unsigned), Some(Sign::Embedded), Some(Sign::Leading), Some(Sign::Trailing)];

/// What the product should say of a picture: its seven numbers, with the kind that the Rust has; or a refusal, with
/// what the Rust says; or one that is added; or its width alone, where a P leaves the Rust no answer.
pub enum Pictured {
    Numbers([u64; 7], FieldKind),
    Refused(Refused, Error),
    Added(Refused),
    Width(u64),
}

pub fn picture(text: &[u8], usage: usize, sign: usize) -> Result<Pictured, String> {
    let read = match reading::text_checks(text) {
        Err(r) => Err(r),
        Ok(()) => reading::picture(text, READ_USAGES[usage], READ_SIGNS[sign]).map_err(|n| Refused(n, 0)),
    };
    if let Err(r) = read {
        if matches!(r.0, 1 | 2 | 24 | 27) {
            return Ok(Pictured::Added(r));
        }
    }
    if reading::has_scale(text) {
        return Ok(read.map_or_else(Pictured::Added, |item| Pictured::Width(item.width as u64)));
    }
    match (read, asked(text, |t| copybook::parse_pic(t, USAGES[usage], SIGNS[sign]))) {
        (Err(r), Original::Gave(Err(e))) if r.0 == e.number() => Ok(Pictured::Refused(r, e)),
        (Ok(item), Original::Gave(Ok((kind, w)))) if item.width == w as u128 => {
            let numbers = numbers::picture(&kind, w).ok_or("the Rust has a kind that pictures do not have")?;
            Ok(Pictured::Numbers(numbers, kind))
        }
        (read, Original::Gave(gave)) => {
            let read = read.map(|item| item.width);
            Err(format!("the reading has {read:?} where the Rust has {gave:?}"))
        }
        (_, _) => Err("the Rust panics".into()),
    }
}

/// What `check_record_len` of the Rust says.
pub fn record_check(record_len: usize, variable: bool, len: usize) -> Result<(), Error> {
    Layout { record_len, fields: Vec::new(), variable }.check_record_len(len)
}
