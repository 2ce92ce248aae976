//! The calls over buffers that the caller lends. A refused call changes no byte of `out`, an accepted one none past
//! what it wrote; `work` is zero after every call, whatever it held.

use crate::key::key_of;
use crate::{calls, Details, Extract, Form, Key, Layout, NoKey, Owner, Reasons, Refusal, Usage, Words};
use std::borrow::Cow;

/// As [`crate::layout()`], with the listing in `out`. Refusals: the reader's, then 31; `work` needs [`crate::WORK`]
/// numbers, and an `out` of [`crate::LONGEST_LISTING`] bytes is never too short.
pub fn layout<'t, 'o>(text: &'t [u8], work: &mut [u32], out: &'o mut [u8]) -> Result<Layout<'t, 'o>, Refusal> {
    layout_of(Form::Free, text, work, out)
}

/// The same for a copybook of this form.
pub fn layout_of<'t, 'o>(
    form: Form,
    text: &'t [u8],
    work: &mut [u32],
    out: &'o mut [u8],
) -> Result<Layout<'t, 'o>, Refusal> {
    let written = calls::layout(form, text, work, out)?;
    Ok(Layout::new(text, Cow::Borrowed(&out[..written])))
}

/// As [`crate::details()`], with their bytes in `out`. Refusals and `work` as for [`layout`]; an `out` of
/// [`crate::LONGEST_DETAILS`] bytes is never too short.
pub fn details<'t, 'o>(text: &'t [u8], work: &mut [u32], out: &'o mut [u8]) -> Result<Details<'t, 'o>, Refusal> {
    details_of(Form::Free, text, work, out)
}

/// The same for a copybook of this form.
pub fn details_of<'t, 'o>(
    form: Form,
    text: &'t [u8],
    work: &mut [u32],
    out: &'o mut [u8],
) -> Result<Details<'t, 'o>, Refusal> {
    let written = calls::details(form, text, work, out)?;
    Ok(Details::new(text, Cow::Borrowed(&out[..written])))
}

/// As [`crate::reasons()`], with their bytes in `out`. Refusals: the reader's, then 53, 31; an `out` of
/// [`crate::LONGEST_REASONS`] bytes is never too short.
pub fn reasons<'t, 'o>(
    text: &'t [u8],
    entry: usize,
    work: &mut [u32],
    out: &'o mut [u8],
) -> Result<Reasons<'t, 'o>, Refusal> {
    reasons_of(Form::Free, text, entry, work, out)
}

/// The same for a copybook of this form.
pub fn reasons_of<'t, 'o>(
    form: Form,
    text: &'t [u8],
    entry: usize,
    work: &mut [u32],
    out: &'o mut [u8],
) -> Result<Reasons<'t, 'o>, Refusal> {
    let written = calls::reasons(form, text, entry, work, out)?;
    Ok(Reasons::new(text, Cow::Borrowed(&out[..written])))
}

/// As [`crate::words()`], with their bytes in `out`. Refusals: 1 to 3; on cards 51; 50; 31; an `out` of
/// [`crate::longest_words`] bytes is never too short.
pub fn words<'t, 'o>(text: &'t [u8], work: &mut [u32], out: &'o mut [u8]) -> Result<Words<'t, 'o>, Refusal> {
    words_of(Form::Free, text, work, out)
}

/// The same for a copybook of this form.
pub fn words_of<'t, 'o>(
    form: Form,
    text: &'t [u8],
    work: &mut [u32],
    out: &'o mut [u8],
) -> Result<Words<'t, 'o>, Refusal> {
    let written = calls::words(form, text, work, out)?;
    Ok(Words::new(text, Cow::Borrowed(&out[..written])))
}

/// As [`crate::owner()`]. Refusals: the reader's, then 40, 41.
pub fn owner(text: &[u8], position: usize, work: &mut [u32]) -> Result<Owner, Refusal> {
    owner_of(Form::Free, text, position, work)
}

/// The same for a copybook of this form.
pub fn owner_of(form: Form, text: &[u8], position: usize, work: &mut [u32]) -> Result<Owner, Refusal> {
    calls::owner(form, text, position, work)
}

/// As [`crate::extract()`]. Refusals: the reader's, then 40, 58, 59, 60.
pub fn extract(text: &[u8], weights: &[u32], limit: u64, budget: u64, work: &mut [u32]) -> Result<Extract, Refusal> {
    calls::extract(text, weights, limit, budget, work)
}

/// As [`crate::key()`], of copybooks that stand one after the other in `texts`; `lengths` says how many bytes each has.
/// Refusals: 56, where they do not add up to `texts` too; the reader's of the first copybook that is refused; 57.
pub fn key(texts: &[u8], lengths: &[u64], name: &[u8], work: &mut [u32]) -> Result<Key, NoKey> {
    key_of(texts, lengths, name, work)
}

/// As [`crate::mask()`], written to `out`. Refusals: a picture's, then 31; an `out` of [`crate::LONGEST_MASK`] bytes is
/// never too short.
pub fn mask<'o>(picture: &[u8], usage: Usage, out: &'o mut [u8]) -> Result<&'o str, Refusal> {
    let written = calls::mask(picture, usage, out)?;
    Ok(std::str::from_utf8(&out[..written]).expect("a mask is ASCII"))
}
