//! What the words of a statement say, as far as the sentence that tells a refusal to people names it.

use crate::{line_and_column, Form, Word};
use std::ops::Range;

/// Bytes 9 to 13 and 32.
fn white(b: u8) -> bool {
    b == b' ' || (9..=13).contains(&b)
}

/// A word of the text; what is no UTF-8 is left out.
pub(crate) fn word(text: &[u8], range: Range<usize>) -> Word<'_> {
    let start = range.start;
    Word { start, word: text.get(range).and_then(|bytes| std::str::from_utf8(bytes).ok()).unwrap_or("") }
}

/// The text as a word, without the white space around it.
pub(crate) fn trimmed(text: &[u8]) -> Word<'_> {
    let start = text.iter().take_while(|&&b| white(b)).count();
    let end = text.iter().rposition(|&b| !white(b)).map_or(start, |last| last + 1);
    word(text, start..end)
}

/// What stands from this place to the end of its line, on a card to the columns that are ignored, without the white
/// space there.
pub(crate) fn line_from(form: Form, text: &[u8], start: usize) -> Word<'_> {
    let start = start.min(text.len());
    let line = text[start..].split(|&b| b == b'\n').next().unwrap_or(b"");
    let read = match form {
        Form::Free => line.len(),
        Form::Cards => (Form::BEFORE_IGNORED + 1).saturating_sub(line_and_column(text, start).1).min(line.len()),
    };
    let end = line[..read].iter().rposition(|&b| !white(b)).map_or(0, |last| last + 1);
    word(text, start..start + end)
}

/// The mark of the open literal after a byte of a word that comes after VALUE: a quote or an apostrophe opens one, and
/// the same mark closes it.
fn literal_after(open: Option<u8>, b: u8) -> Option<u8> {
    match open {
        Some(mark) => (b != mark).then_some(mark),
        None => b"'\"".contains(&b).then_some(b),
    }
}

/// Whether a word begins what an item's value is.
pub(crate) fn is_value(word: &Word) -> bool {
    ["VALUE", "VALUES"].iter().any(|key| word.eq_ignore_ascii_case(key))
}

/// The words of a statement after VALUE that stand in none of its literals.
pub(crate) fn behind_value<'t>(words: &[Word<'t>]) -> Vec<Word<'t>> {
    let behind = words.iter().skip(2).skip_while(|word| !is_value(word));
    let mut literal = None;
    let mut outside = |word: &&Word| {
        let before = literal;
        literal = word.bytes().fold(literal, literal_after);
        before.is_none()
    };
    behind.filter(|word| outside(word)).copied().collect()
}

/// Whether a word is a count: digits, with a plus in front or none, below 2^64.
fn is_count(word: Option<&Word>) -> bool {
    word.is_some_and(|w| w.parse::<u64>().is_ok())
}

/// What a statement says, as far as a sentence needs it.
#[derive(Debug, Default)]
pub(crate) struct Statement<'t> {
    pub level: Option<Word<'t>>,
    pub name: Option<Word<'t>>,
    pub picture: Option<Word<'t>>,
    pub redefines: Option<Word<'t>>,
    /// What stands where a count is due, after OCCURS or TO.
    pub no_count: Option<Word<'t>>,
    /// The count before TO, after OCCURS.
    pub least: Option<usize>,
}

impl<'t> Statement<'t> {
    /// The statement of these words.
    pub fn of(words: &[Word<'t>]) -> Statement<'t> {
        let word = |i: usize| words.get(i).copied();
        let is = |i: usize, key: &str| usize::from(words.get(i).is_some_and(|w| w.eq_ignore_ascii_case(key)));
        let mut s = Statement { level: word(0), name: word(1), ..Statement::default() };
        let mut i = 2;
        while let Some(key) = word(i) {
            i += 1;
            match key.to_ascii_uppercase().as_str() {
                "PIC" | "PICTURE" => {
                    i += is(i, "IS");
                    s.picture = word(i);
                    i += 1;
                }
                "REDEFINES" => {
                    s.redefines = word(i);
                    i += 1;
                }
                "OCCURS" => {
                    let bound = if is(i + 1, "TO") > 0 && is_count(words.get(i)) { i + 2 } else { i };
                    if !is_count(words.get(bound)) {
                        s.no_count = word(bound);
                        break;
                    }
                    s.least = if bound > i { words[i].parse().ok() } else { None };
                    i = bound + 1;
                    i += is(i, "TIMES");
                    if is(i, "DEPENDING") > 0 {
                        i += 2 + is(i + 1, "ON");
                    }
                }
                "SIGN" => i += 1 + is(i, "IS"),
                _ if is_value(&key) => break,
                _ => {}
            }
        }
        s
    }

    /// The item's name; FILLER if it has none.
    pub fn item(&self) -> &'t str {
        self.name.map_or("FILLER", |name| name.word)
    }
}

// ---------------------------------------------------------------- pictures

/// A symbol of a picture with its place there, and its repeat count: the place of the brackets, and the number in them.
struct Run {
    symbol: u8,
    place: usize,
    repeat: Option<(Range<usize>, Option<usize>)>,
}

/// The runs of a picture, up to a bracket that does not close.
fn runs(picture: &str) -> Vec<Run> {
    let bytes = picture.as_bytes();
    let mut runs = Vec::new();
    let mut i = 0;
    while i < bytes.len() {
        let (symbol, place) = (bytes[i].to_ascii_uppercase(), i);
        i += 1;
        let mut repeat = None;
        if bytes.get(i) == Some(&b'(') {
            let Some(inside) = bytes[i..].iter().position(|&b| b == b')') else {
                break;
            };
            let close = i + inside;
            repeat = Some((i..close + 1, picture[i + 1..close].trim().parse().ok()));
            i = close + 1;
        }
        runs.push(Run { symbol, place, repeat });
    }
    runs
}

/// The first bracket of a picture that holds no count, with its brackets.
pub(crate) fn bad_repeat(picture: Word<'_>) -> Option<Word<'_>> {
    let bad = runs(picture.word).into_iter().find_map(|run| run.repeat.filter(|(_, count)| count.is_none()));
    bad.map(|(range, _)| part(picture, range))
}

/// The first symbol that no picture has, as the picture is expanded.
pub(crate) fn bad_symbol(picture: Word<'_>) -> Option<Word<'_>> {
    const MOST_SYMBOLS: usize = 65_536;
    let symbols = runs(picture.word).into_iter().flat_map(|run| {
        let count = run.repeat.map_or(1, |(_, count)| count.unwrap_or(0));
        std::iter::repeat_n((run.symbol, run.place), count.min(MOST_SYMBOLS))
    });
    let mut symbols = symbols.take(MOST_SYMBOLS).peekable();
    while let Some((symbol, place)) = symbols.next() {
        let known = match symbol {
            b'C' => symbols.next_if(|&(next, _)| next == b'R').is_some(),
            b'D' => symbols.next_if(|&(next, _)| next == b'B').is_some(),
            _ => b"XA9SVPZ*,./B0$+-".contains(&symbol),
        };
        if !known {
            return Some(part(picture, place..place + 1));
        }
    }
    None
}

fn part(word: Word<'_>, range: Range<usize>) -> Word<'_> {
    Word { start: word.start + range.start, word: word.word.get(range).unwrap_or("") }
}
