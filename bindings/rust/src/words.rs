//! The words of a copybook, read from the bytes of `copybook_words` (include/copybook.h has their format).

use crate::bytes::{Bytes, Word};
use crate::limits::MOST_STATEMENTS;
use crate::statement::{self, is_value, Statement};
use crate::{any_bytes, lent, longest_words, Form, WORK};
use std::borrow::Cow;
use std::collections::HashMap;

/// The words of a copybook as the reader has them, statement by statement: of every statement that has words, level 88
/// and those that cannot be read among them.
#[derive(Debug, Clone, PartialEq, Eq)]
pub struct Words<'t, 'l> {
    text: &'t [u8],
    bytes: Cow<'l, [u8]>,
}

/// One statement: its words, of which it has at least one.
#[derive(Debug, Clone, PartialEq, Eq)]
pub struct Sentence<'t> {
    /// The words in their order. White space in a literal parts words too.
    pub words: Vec<Word<'t>>,
    /// The position of the period that ends it; the length of the text where none does.
    pub end: usize,
}

impl<'t, 'l> Words<'t, 'l> {
    /// The bytes must be those that the library wrote for the text.
    pub(crate) fn new(text: &'t [u8], bytes: Cow<'l, [u8]>) -> Words<'t, 'l> {
        Words { text, bytes }
    }

    /// The bytes as the library wrote them.
    pub fn bytes(&self) -> &[u8] {
        &self.bytes
    }

    /// The statements one after the other.
    pub fn iter(&self) -> impl Iterator<Item = Sentence<'t>> + '_ {
        let mut left = Bytes { text: self.text, rest: &self.bytes };
        std::iter::from_fn(move || (!left.rest.is_empty()).then(|| sentence(&mut left)))
    }

    /// The count before TO of the statement that starts at this place of the text, and says OCCURS: the least one of a
    /// table DEPENDING ON an item. None where it has no TO, and COBOL takes it to be 1.
    pub fn least_count(&self, position: usize) -> Option<usize> {
        let is_there = |sentence: &Sentence| sentence.words.first().is_some_and(|word| word.start == position);
        Statement::of(&self.iter().find(is_there)?.words).least
    }

    /// All counts that [`Words::least_count`] has, by the places where their statements start.
    pub fn least_counts(&self) -> HashMap<usize, usize> {
        let count = |s: Sentence| Some((s.words.first()?.start, Statement::of(&s.words).least?));
        self.iter().filter_map(count).collect()
    }

    /// What the statement has said that no period ends, as far as its literals go: [`SAID`] has that.
    fn said(&self) -> usize {
        match self.iter().last() {
            Some(last) if last.end == self.text.len() => match last.words.iter().skip(2).any(is_value) {
                true => 3,
                false => last.words.len().min(2),
            },
            _ => 0,
        }
    }
}

fn sentence<'t>(left: &mut Bytes<'t, '_>) -> Sentence<'t> {
    let (count, end) = (left.four(), left.four());
    let words = (0..count).map(|_| left.word().expect("no word of the library is empty")).collect();
    Sentence { words, end }
}

/// What a statement has said before a line, as far as its literals go, which only open behind VALUE as a third word or
/// a later one: lines that say just that. None is longer than those in whose place it stands.
const SAID: [&str; 4] = ["", "D\n", "D D\n", "D D VALUE\n"];

/// The same on cards.
const SAID_ON_CARDS: [&str; 4] = ["", "       D\n", "       D D\n", "       D D VALUE\n"];

/// So many bytes are asked for their words at a time, or one line that has more.
const AT_A_TIME: usize = 1_024;

/// The length of the first lines of a text that are asked at a time.
fn first_lines(text: &[u8]) -> usize {
    let ends = |b: &u8| *b == b'\n';
    let within = text[..text.len().min(AT_A_TIME)].iter().rposition(ends);
    within.or_else(|| text.iter().position(ends)).map_or(text.len(), |end| end + 1)
}

/// A text up to the end of the line on which a byte over 127 stands, as one that has words: with a `?` for each such
/// byte and a `D` for what else it is refused for, which leaves no literal open, and makes no code of a card. There are
/// no more of these than a copybook has statements. Since no literal goes on in the next line, a few lines are asked at
/// a time.
pub(crate) fn with_words(form: Form, text: &[u8], place: usize) -> Vec<u8> {
    let line = text.iter().skip(place).position(|&b| b == b'\n');
    let mut text = any_bytes(&text[..line.map_or(text.len(), |n| place + n)]).into_owned();
    let (mut work, mut out) = (vec![0; WORK], vec![0; longest_words(text.len())]);
    let said = if form == Form::Cards { SAID_ON_CARDS } else { SAID };
    let (mut start, mut before, mut turns) = (0, "", 0);
    while start < text.len() && turns < MOST_STATEMENTS {
        let end = start + first_lines(&text[start..]);
        let lines = [before.as_bytes(), &text[start..end]].concat();
        match lent::words_of(form, &lines, &mut work, &mut out) {
            Ok(words) => (start, before) = (end, said[words.said()]),
            Err(refusal) => {
                text[start + refusal.position - before.len()] = b'D';
                turns += 1;
            }
        }
    }
    text
}

/// The words of the statement that starts at a place, in a text that has words. No more is asked for them than what
/// stands there, in a few turns; a `D` for its first byte makes no comment of it where that is a star.
pub(crate) fn words_at(form: Form, text: &[u8], place: usize) -> Vec<Word<'_>> {
    let place = place.min(text.len());
    let line = text[..place].iter().rposition(|&b| b == b'\n').map_or(0, |end| end + 1);
    let mut end = place;
    while end < text.len() {
        end = text.len().min(place + AT_A_TIME.max(2 * (end - place)));
        let asked = [&b" ".repeat(place - line), &b"D"[..], &text[place + 1..end]].concat();
        // what is cut off may go on with the last word, and close a literal
        let read = form.words(&asked).ok();
        let first = read.iter().flat_map(|words| words.iter()).next();
        if let Some(first) = first.filter(|first| first.end + 1 < asked.len() || end == text.len()) {
            return first
                .words
                .iter()
                .map(|word| statement::word(text, line + word.start..line + word.range().end))
                .collect();
        }
    }
    Vec::new()
}

#[cfg(test)]
mod tests {
    use super::*;

    /// As [`with_words`], with the whole text asked each time.
    fn slowly(form: Form, text: &[u8], place: usize) -> Vec<u8> {
        let line = text.iter().skip(place).position(|&b| b == b'\n');
        let mut text = any_bytes(&text[..line.map_or(text.len(), |n| place + n)]).into_owned();
        for _ in 0..MOST_STATEMENTS {
            match form.words(&text) {
                Ok(_) => break,
                Err(refusal) => text[refusal.position] = b'D',
            }
        }
        text
    }

    /// The same text has words both ways, or none has; and how many bytes are a `D`.
    #[track_caller]
    fn changes(form: Form, text: &[u8]) -> usize {
        let place = text.iter().position(|b| !b.is_ascii()).expect("a byte over 127");
        let (found, due) = (with_words(form, text, place), slowly(form, text, place));
        assert_eq!(form.words(&found).is_ok(), form.words(&due).is_ok(), "{}", text.escape_ascii());
        assert!(found == due || form.words(&due).is_err(), "{}", text.escape_ascii());
        found.iter().zip(&*any_bytes(text)).filter(|(is, was)| is != was).count()
    }

    /// Texts of parts by chance, of lines of any length, with a byte over 127 on the last one.
    fn by_chance() -> impl Iterator<Item = (Form, String)> {
        const PARTS: [&str; 12] =
            [" A", " VALUE", " VALUES", " '", "'", " \"", "\" ", ". ", ".", " *>", " *", "'X. Y'"];
        const INDICATORS: [&str; 8] = [" ", " ", " ", " ", "*", "D", "-", "\r"];
        let mut seed = 1u64;
        let mut chance = move |below: usize| {
            seed = seed.wrapping_mul(6_364_136_223_846_793_005).wrapping_add(1_442_695_040_888_963_407);
            (seed >> 33) as usize % below
        };
        (0..60).map(move |number| {
            let longest = [4, 12, 400][number % 3];
            let mut text = String::new();
            while text.len() < 5_000 {
                text += ["", "000100"][number % 2];
                text += [" ", INDICATORS[chance(8)]][number % 2];
                (0..chance(longest)).for_each(|_| text += PARTS[chance(12)]);
                text.push('\n');
            }
            ([Form::Free, Form::Cards][number % 2], text + " '\u{c5}. B VALUE '")
        })
    }

    /// The lines that are asked at a time end anywhere in a statement.
    #[test]
    fn lines_at_a_time() {
        let changed: usize = by_chance().map(|(form, text)| changes(form, text.as_bytes())).sum();
        assert!(changed > 2_000, "{changed}");
    }

    /// Each statement alone has the words that it has among the others.
    #[test]
    fn statements_alone() {
        let lines = format!("       A. {}B. C\n", "B B B B B B B B B B\n       ".repeat(500));
        // cut off behind a period, a word may seem to end
        let periods = ["A.", ".A"].map(|part| (Form::Free, part.repeat(2_000)));
        let long = [(Form::Free, lines.clone()), (Form::Cards, lines)].into_iter().chain(periods);
        let (mut count, mut stars) = (0, 0);
        for (form, text) in by_chance().chain(long) {
            let text = with_words(form, text.as_bytes(), text.len());
            for statement in form.words(&text).expect("words").iter() {
                let start = statement.words[0].start;
                assert_eq!(words_at(form, &text, start), statement.words, "{}", text.escape_ascii());
                count += 1;
                stars += usize::from(text[start] == b'*');
            }
            assert_eq!(words_at(form, &text, text.len()), []);
        }
        assert!(count > 5_000 && stars > 50, "{count} {stars}");
    }

    /// A line alone that is as long as a text may be, behind the least that says VALUE; and too many open literals.
    #[test]
    fn lines_at_the_limits() {
        let long = |before: &str| format!("{before}{:1$}", "'\u{c5}", 65_534 - before.len());
        assert_eq!(changes(Form::Free, long("A B VALUE\n").as_bytes()), 1);
        assert_eq!(changes(Form::Cards, long("       A B VALUE\n       ").as_bytes()), 1);
        let open = |n: usize| "A B VALUE '\n.\n".repeat(n) + "\u{c5}";
        assert_eq!([799, 800, 801].map(|n| changes(Form::Free, open(n).as_bytes())), [799, 800, 800]);
    }
}
