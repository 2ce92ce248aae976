//! The drop-ins of bindings/rust beside the original, the module `fixedformat` and the file that stands in the place of
//! the original's copybook.rs (`exchanged`): the same layouts and kinds, and errors that say at least what the
//! original's say; and the words of a copybook that its refusal names.

use crate::reading::{Reading, Refused, Span};
use exchanged::numbers::{SIGNS, USAGES};
use fixedformat_core::{Error, FieldKind, Layout};
use product::fixedformat;
use std::fmt::Debug;

type Found = Result<(), String>;

/// An answer of a drop-in, shown, or its error. A derived Debug names every field, each on a line of its own, so
/// nothing is left out.
type Answer = Result<String, String>;

fn shown(answer: Result<impl Debug, String>) -> Answer {
    answer.map(|found| format!("{found:#?}\n"))
}

/// What each drop-in answers for a copybook.
fn parsed(text: &str) -> [(&'static str, Answer); 2] {
    let module = fixedformat::parse(text).map_err(|e| e.0);
    let file = exchanged::copybook::parse(text).map_err(|e| e.0);
    [("fixedformat", shown(module)), ("exchanged", shown(file))]
}

/// What each drop-in answers for a picture, under usage and sign by their numbers.
fn asked(text: &str, usage: usize, sign: usize) -> [(&'static str, Answer); 2] {
    let of_module = (sign > 0).then(|| product::SignKind::ALL[sign - 1]);
    let module = fixedformat::parse_pic(text, product::Usage::ALL[usage], of_module).map_err(|e| e.0);
    let file = exchanged::copybook::parse_pic(text, USAGES[usage], SIGNS[sign]).map_err(|e| e.0);
    [("fixedformat", shown(module)), ("exchanged", shown(file))]
}

/// Both texts are the same.
fn same(name: &str, got: Answer, want: &str) -> Found {
    let got = got.map_err(|e| format!("{name}: {e}"))?;
    if got == want {
        return Ok(());
    }
    let lines = got.lines().zip(want.lines()).enumerate().find(|(_, (got, want))| got != want);
    Err(match lines {
        Some((n, (got, want))) => format!("{name}: line {n}: {:?} where {:?} is due", got.trim(), want.trim()),
        None => format!("{name}: {} lines where {} are due", got.lines().count(), want.lines().count()),
    })
}

/// The error says at least what the original's says, and names the refusal.
fn said(name: &str, got: Answer, want: &Error) -> Found {
    match got {
        Err(e) if e.starts_with(&want.0) && e.contains(&format!(" (refused {}", want.number())) => Ok(()),
        got => Err(format!("{name}: {got:?} where {:?} is due", want.0)),
    }
}

pub fn layout(text: &str, want: &Layout) -> Found {
    let want = format!("{want:#?}\n");
    parsed(text).into_iter().try_for_each(|(name, got)| same(name, got, &want))?;
    let found = fixedformat::parse(text).map_err(|e| e.0)?;
    let again = fixedformat::Layout::from_fields(found.fields.clone()).map_err(|e| e.0);
    same("from_fields", shown(again), &want)
}

pub fn refused(text: &str, want: &Error) -> Found {
    parsed(text).into_iter().try_for_each(|(name, got)| said(name, got, want))
}

/// Both drop-ins answer the same, where the original has no answer.
pub fn alike(text: &str) -> Found {
    let [(_, module), (name, file)] = parsed(text);
    if module == file {
        return Ok(());
    }
    Err(format!("{name}: {file:?} where {module:?} is due"))
}

/// A refusal that the original does not have.
pub fn added(text: &str, want: Refused) -> Found {
    match fixedformat::Layout::read(text) {
        Err(r) if (r.number, r.position) == (want.0, want.1) => Ok(()),
        got => Err(format!("fixedformat: {got:?} where {want:?} is due")),
    }
}

/// The number of the refusal that a copybook gets, or 0.
pub fn number(text: &[u8]) -> u32 {
    product::layout(text).map_or_else(|r| r.number, |_| 0)
}

pub fn picture(text: &str, usage: usize, sign: usize, want: &(FieldKind, usize)) -> Found {
    let want = format!("{want:#?}\n");
    asked(text, usage, sign).into_iter().try_for_each(|(name, got)| same(name, got, &want))
}

pub fn picture_refused(text: &str, usage: usize, sign: usize, want: &Error) -> Found {
    asked(text, usage, sign).into_iter().try_for_each(|(name, got)| said(name, got, want))
}

pub fn record_check(record_len: usize, variable: bool, len: usize, want: &Result<(), Error>) -> Found {
    let layout = fixedformat::Layout { record_len, fields: Vec::new(), variable };
    match (layout.check_record_len(len), want) {
        (Ok(()), Ok(())) => Ok(()),
        (got, Err(want)) => said("fixedformat", shown(got.map_err(|e| e.0)), want),
        (got, want) => Err(format!("fixedformat: {got:?} where {want:?} is due")),
    }
}

/// The word that a refusal of a kept statement names is the one that the reading has.
pub fn told(text: &[u8], reading: &Reading, want: Refused) -> Found {
    let Some(s) = reading.statements.iter().find(|s| s.at == want.1) else {
        return Ok(());
    };
    let (due, inside) = match want.0 {
        22 | 24 | 26 | 27 => (s.picture, false),
        23 | 25 => (s.picture, true),
        28 | 30 => (s.redefines, false),
        _ => return Ok(()),
    };
    let refusal = product::layout(text).err().ok_or("told: a copybook that is accepted")?;
    let word = refusal.told(text).word.ok_or("told: no word")?;
    let got = Span { start: word.start, len: word.len() };
    let within = got.start >= due.start && got.start + got.len <= due.start + due.len;
    if within && (inside || got == due) {
        return Ok(());
    }
    Err(format!("told: {got:?} where {due:?} is due"))
}
