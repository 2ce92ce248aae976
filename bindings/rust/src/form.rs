//! How a copybook is written: as free text, or on cards with columns. The calls are the same for both.

use crate::limits::MOST_BYTES;
use crate::{calls, Details, Layout, Owner, Reasons, Refusal, Words};
use crate::{longest_words, LONGEST_DETAILS, LONGEST_LISTING, LONGEST_REASONS, WORK};
use std::borrow::Cow;

/// How a copybook is written.
#[derive(Debug, Clone, Copy, PartialEq, Eq, Default)]
pub enum Form {
    /// Free text: a statement may stand anywhere on its line.
    #[default]
    Free,
    /// Cards, COBOL's reference format: columns 1 to 6 and those after 72 are ignored, and column 7 is an indicator, a
    /// blank for code, `*` or `/` for a comment, `D` for a debugging line, which is dropped. Columns are bytes.
    Cards,
}

impl Form {
    /// Columns of a card before the indicator, and before the first that is ignored again.
    pub(crate) const BEFORE_INDICATOR: usize = 6;
    pub(crate) const BEFORE_IGNORED: usize = 72;

    /// The layout of the copybook in `text`. Refusals: the reader's.
    pub fn layout(self, text: &[u8]) -> Result<Layout<'_, 'static>, Refusal> {
        let (mut work, mut out) = (vec![0; WORK], vec![0; LONGEST_LISTING]);
        let written = calls::layout(self, text, &mut work, &mut out)?;
        out.truncate(written);
        Ok(Layout::new(text, Cow::Owned(out)))
    }

    /// What the layout does not say of its entries. Refusals as for [`Form::layout`].
    pub fn details(self, text: &[u8]) -> Result<Details<'_, 'static>, Refusal> {
        let (mut work, mut out) = (vec![0; WORK], vec![0; LONGEST_DETAILS]);
        let written = calls::details(self, text, &mut work, &mut out)?;
        out.truncate(written);
        Ok(Details::new(text, Cow::Owned(out)))
    }

    /// [`Form::layout`] and [`Form::details`], as many of these as that has entries.
    pub fn layout_and_details(self, text: &[u8]) -> Result<(Layout<'_, 'static>, Details<'_, 'static>), Refusal> {
        Ok((self.layout(text)?, self.details(text)?))
    }

    /// Why the entry of that number in the layout, from 0, stands where it does. Refusals: those of [`Form::layout`],
    /// 53.
    pub fn reasons(self, text: &[u8], entry: usize) -> Result<Reasons<'_, 'static>, Refusal> {
        let (mut work, mut out) = (vec![0; WORK], vec![0; LONGEST_REASONS]);
        let written = calls::reasons(self, text, entry, &mut work, &mut out)?;
        out.truncate(written);
        Ok(Reasons::new(text, Cow::Owned(out)))
    }

    /// Whose the byte at `position` of the record is. Refusals: those of [`Form::layout`], 40, 41.
    pub fn owner(self, text: &[u8], position: usize) -> Result<Owner, Refusal> {
        calls::owner(self, text, position, &mut vec![0; WORK])
    }

    /// The words of the copybook in `text`, also where what they say is refused. Refusals: 1, 2; on cards 51; 50.
    pub fn words(self, text: &[u8]) -> Result<Words<'_, 'static>, Refusal> {
        let (mut work, mut out) = (vec![0; WORK], vec![0; longest_words(text.len().min(MOST_BYTES))]);
        let written = calls::words(self, text, &mut work, &mut out)?;
        out.truncate(written);
        Ok(Words::new(text, Cow::Owned(out)))
    }

    /// What a reader sees of the text: of cards the code in its columns, with a blank for every byte that is ignored,
    /// so that a place in the one is a place in the other. No call goes by it: the library sees cards by itself.
    pub fn view(self, text: &[u8]) -> Cow<'_, [u8]> {
        match self {
            Form::Free => Cow::Borrowed(text),
            Form::Cards => Cow::Owned(text.split_inclusive(|&b| b == b'\n').flat_map(card).collect()),
        }
    }
}

/// What a reader sees of one card.
fn card(line: &[u8]) -> impl Iterator<Item = u8> + '_ {
    let code = line.get(Form::BEFORE_INDICATOR) == Some(&b' ');
    let read = move |i: usize| code && (Form::BEFORE_INDICATOR + 1..Form::BEFORE_IGNORED).contains(&i);
    line.iter().enumerate().map(move |(i, &b)| if b == b'\n' || read(i) { b } else { b' ' })
}

/// The text with a `?` for every byte over 127, one for one, so that a place in the one is a place in the other. It is
/// for copybooks in another code page than ASCII, which are refused (2), where names need not be told apart.
pub fn any_bytes(text: &[u8]) -> Cow<'_, [u8]> {
    match text.is_ascii() {
        true => Cow::Borrowed(text),
        false => Cow::Owned(text.iter().map(|&b| if b.is_ascii() { b } else { b'?' }).collect()),
    }
}
