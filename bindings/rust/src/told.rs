//! A refusal told to people: a sentence that names what was found, the source line with a mark under the place, and
//! what to do.

use crate::cause::{self, When};
use crate::refusal::About;
use crate::{Refusal, Word};
use std::fmt;
use std::ops::Range;

/// A refusal in the words of its text, made by [`Refusal::told`]. Shown, it is the sentence, the source line with marks
/// and the advice, each on lines of their own; [`Told::of_file`] puts file, line and column before that.
#[derive(Debug, Clone, PartialEq, Eq)]
pub struct Told<'t> {
    /// Number, line and column.
    pub refusal: Refusal,
    /// What was found, naming it: one sentence without its period.
    pub sentence: String,
    /// The word that the sentence names, where the text has one.
    pub word: Option<Word<'t>>,
    /// What to do.
    pub advice: &'static str,
    text: &'t [u8],
}

/// No more bytes of a source line are shown, nor of a word in a sentence.
const WIDEST: usize = 100;

/// Stands where a longer line or word is cut.
const CUT: &str = "...";

/// Before a source line and its marks, and before the advice.
const INDENT: &str = "    ";

impl Refusal {
    /// The refusal in the words of the text that was refused: the copybook, or the picture that was asked for alone.
    pub fn told<'t>(&self, text: &'t [u8]) -> Told<'t> {
        let seen = self.seen(text);
        let statement = self.around(text, &seen).statement;
        let word = self.word(text);
        let byte = *text.get(self.position).unwrap_or(&0);
        let named = match self.row().about {
            About::Indicator if byte.is_ascii_graphic() => char::from(byte).into(),
            About::Indicator => format!("the byte {byte:#04x}"),
            About::Byte => cause::character(text, self.position),
            _ => word.map_or("nothing".into(), |word| shown(word.as_bytes())),
        };
        let item = statement.level.map(|_| statement.name.map_or(&b"FILLER"[..], |name| &text[name.range()]));
        let sentence = match self.cause.map_or(self.row().sentence, |cause| cause.sentence) {
            "" => self.found().into(),
            sentence => filled(sentence, &named, item),
        };
        Told { refusal: *self, sentence, word, advice: self.advice(), text }
    }
}

/// A sentence with its word and its item; without an item, what says whose the word is falls away.
fn filled(sentence: &str, word: &str, item: Option<&[u8]>) -> String {
    let sentence = if item.is_none() { sentence.replace(" of {item}", "") } else { sentence.into() };
    let item = shown(item.unwrap_or(b"the item"));
    let parts = sentence.split(['{', '}']).map(|part| match part {
        "word" => word,
        "item" => &item,
        plain => plain,
    });
    parts.collect()
}

/// Bytes for people: control characters by their numbers, and not too many.
fn shown(bytes: &[u8]) -> String {
    let cut = if bytes.len() > WIDEST { CUT } else { "" };
    let shown = String::from_utf8_lossy(&bytes[..bytes.len().min(WIDEST)]);
    escaped(&shown) + cut
}

/// Words with control characters by their numbers, as `\x1b`, so that none has a terminal do something.
pub fn escaped(words: &str) -> String {
    let mut escaped = String::new();
    for c in words.chars() {
        match c.is_control() {
            true => escaped += &format!("\\x{:02x}", u32::from(c)),
            false => escaped.push(c),
        }
    }
    escaped
}

impl Told<'_> {
    /// The source line of the place with `^` under it and `~` under the word, where that stands on another line that
    /// one too; nothing for a refusal that is about no part of the text.
    pub fn excerpt(&self) -> String {
        let place = match self.refusal.cause {
            // of a text that is no ASCII there is nothing to be shown
            Some(cause) if cause.when == When::Text => None,
            _ if self.refusal.line > 0 => Some(self.refusal.position),
            _ => self.word.map(|word| word.start),
        };
        let Some(place) = place else {
            return String::new();
        };
        let word = self.word.map_or(place..place + 1, |word| word.range());
        let line = line_around(self.text, place);
        let mut excerpt = marked(self.text, &line, place..place + 1, &word);
        if !line.contains(&word.start) && word.start < self.text.len() {
            excerpt += &marked(self.text, &line_around(self.text, word.start), 0..0, &word);
        }
        excerpt
    }

    /// What can be mailed to whoever sent the file: `FILE:LINE:COLUMN: ` and all that the refusal says.
    pub fn of_file(&self, file: &str) -> String {
        match self.refusal.line {
            0 => format!("{file}: {self}"),
            line => format!("{file}:{line}:{}: {self}", self.refusal.column),
        }
    }
}

impl fmt::Display for Told<'_> {
    fn fmt(&self, f: &mut fmt::Formatter<'_>) -> fmt::Result {
        writeln!(f, "{}", self.sentence)?;
        f.write_str(&self.excerpt())?;
        writeln!(f, "{INDENT}{}", self.advice)
    }
}

/// The line that a place stands on, without what ends it.
fn line_around(text: &[u8], place: usize) -> Range<usize> {
    let place = place.min(text.len());
    let start = text[..place].iter().rposition(|&b| b == b'\n').map_or(0, |i| i + 1);
    let end = text[place..].iter().position(|&b| b == b'\n').map_or(text.len(), |i| place + i);
    start..end
}

/// A line, or the part of it around the place or else the word, and below it `^` under the place and `~` under the
/// word.
fn marked(text: &[u8], line: &Range<usize>, place: Range<usize>, word: &Range<usize>) -> String {
    let at = if place.is_empty() { word.start } else { place.start };
    let from = if line.len() > WIDEST { line.start.max(at.saturating_sub(WIDEST / 3)) } else { line.start };
    let part = from..line.end.min(from + WIDEST);
    let source: String = String::from_utf8_lossy(&text[part.clone()]).trim_end().chars().map(visible).collect();
    let mark = |i: usize| match text[i] {
        _ if place.contains(&i) => '^',
        _ if word.contains(&i) => '~',
        b'\t' => '\t',
        _ => ' ',
    };
    // a character of several bytes has one mark
    let is_text = std::str::from_utf8(&text[part.clone()]).is_ok();
    let marks: String = part.clone().filter(|&i| !is_text || text[i] & 0xc0 != 0x80).map(mark).collect();
    let before = if from > line.start { CUT } else { "" };
    let after = if part.end < line.end { CUT } else { "" };
    let blank = " ".repeat(before.len());
    format!("{INDENT}{before}{source}{after}\n{INDENT}{blank}{}\n", marks.trim_end())
}

/// A character of a source line for people: of the control characters the tab alone stays.
fn visible(c: char) -> char {
    if c.is_control() && c != '\t' {
        '?'
    } else {
        c
    }
}
