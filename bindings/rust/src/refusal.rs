//! Refusals: their numbers and names, where in the text they are, and the words in which they are told to people, which
//! are those of the table [`REFUSALS`].

use crate::cause::{self, Around, Cause};
use crate::statement::{self, Statement};
use crate::words::{with_words, words_at};
use crate::{any_bytes, Form, Word, REFUSALS};
use std::borrow::Cow;
use std::fmt;

/// Why a call turned its input down. Nothing was written.
#[derive(Debug, Clone, Copy, PartialEq, Eq)]
pub struct Refusal {
    /// Its number, as docs/REFUSALS.md has it.
    pub number: u32,
    /// One word for the number, as include/copybook.h has it.
    pub name: &'static str,
    /// A place in the text, in bytes from 0; 0 where the refusal has none.
    pub position: usize,
    /// The line of that place, from 1; 0 where the refusal has no place. Lines end at byte 10.
    pub line: usize,
    /// The column of that place, in bytes from 1; 0 where the refusal has no place.
    pub column: usize,
    /// The length that the output must have, at 31; else 0.
    pub needed: usize,
    /// How the text was read.
    pub form: Form,
    /// What is behind it, where the text shows it.
    pub cause: Option<&'static Cause>,
    /// Start and length of the word that its sentence names, where there is one.
    pub(crate) span: Option<(usize, usize)>,
}

/// What of the text a refusal is about: the place that it carries, and the word that its sentence names.
#[derive(Debug, Clone, Copy, PartialEq, Eq)]
pub(crate) enum About {
    /// No place in the text.
    Nothing,
    /// One byte.
    Byte,
    /// One byte, in column 7 of a card.
    Indicator,
    /// The opening mark of a literal, and the literal as far as its line goes.
    Literal,
    /// A statement, and of it nothing more than its name.
    Item,
    /// A statement, and its first word.
    Level,
    /// A statement, and what stands where a count is due.
    Count,
    /// A statement, and the name after REDEFINES.
    Redefines,
    /// A statement, or a picture that is asked for alone; and the picture.
    Picture,
    /// The same, and of the picture a repeat count.
    Repeat,
    /// The same, and of the picture a symbol.
    Symbol,
}

/// A refusal's row of the table.
#[derive(Debug, Clone, Copy, PartialEq, Eq)]
pub struct Row {
    pub number: u32,
    /// One word, as include/copybook.h has it.
    pub name: &'static str,
    /// What was found, whatever the text is.
    pub found: &'static str,
    /// What to do.
    pub advice: &'static str,
    pub(crate) about: About,
    /// What was found in a text: `{word}` stands for the word that it is about, `{item}` for the item's name. Empty
    /// where nothing can be named.
    pub(crate) sentence: &'static str,
    /// What may be behind it; the first that the text shows is told.
    pub causes: &'static [Cause],
}

/// What is said of a number that the table does not have.
const UNKNOWN: Row = Row {
    number: 0,
    name: "unknown",
    about: About::Nothing,
    found: "a refusal of no known number",
    sentence: "",
    advice: "",
    causes: &[],
};

/// Line and column of a place, from 1, in bytes. Lines end at byte 10.
pub fn line_and_column(text: &[u8], position: usize) -> (usize, usize) {
    let before = &text[..position.min(text.len())];
    let line = 1 + before.iter().filter(|&&b| b == b'\n').count();
    let start = before.iter().rposition(|&b| b == b'\n').map_or(0, |i| i + 1);
    (line, before.len() - start + 1)
}

impl Refusal {
    /// Its row of the table.
    pub fn row(&self) -> &'static Row {
        REFUSALS.iter().find(|row| row.number == self.number).unwrap_or(&UNKNOWN)
    }

    /// A refusal that has no place in a text.
    pub(crate) fn without_place(number: u32, needed: usize) -> Refusal {
        let (position, line, column, form) = (0, 0, 0, Form::Free);
        let mut refusal = Refusal { number, name: "", position, line, column, needed, form, cause: None, span: None };
        refusal.name = refusal.row().name;
        refusal
    }

    /// A refusal of a copybook.
    pub(crate) fn of_copybook(form: Form, number: u32, position: usize, needed: usize, text: &[u8]) -> Refusal {
        let plain = Refusal { form, ..Refusal::without_place(number, needed) };
        if plain.row().about == About::Nothing {
            return plain;
        }
        let (line, column) = line_and_column(text, position);
        Refusal { position, line, column, ..plain }.with_cause(text)
    }

    /// A refusal of a picture: only a byte over 127 has a place.
    pub(crate) fn of_picture(number: u32, position: usize, needed: usize, picture: &[u8]) -> Refusal {
        let plain = Refusal::without_place(number, needed);
        if plain.row().about != About::Byte {
            return plain.with_cause(picture);
        }
        let (line, column) = line_and_column(picture, position);
        Refusal { position, line, column, ..plain }
    }

    /// The same with what is behind it, and the word that is named then.
    fn with_cause(self, text: &[u8]) -> Refusal {
        let seen = self.seen(text);
        let around = self.around(text, &seen);
        let found = around.cause(&self);
        let word = found.as_ref().map_or(around.about, |found| found.word);
        let span = word.map(|word| (word.start, word.len()));
        Refusal { cause: found.map(|found| found.cause), span, ..self }
    }

    /// The same with the first of its row's causes, which the caller knows to hold.
    pub(crate) fn with_first_cause(self) -> Refusal {
        Refusal { cause: self.row().causes.first(), ..self }
    }

    /// The text that the library is asked for its words: the one that was refused, unless that is so for a byte.
    pub(crate) fn seen<'t>(&self, text: &'t [u8]) -> Cow<'t, [u8]> {
        match self.row().about {
            About::Byte if self.line > 0 => Cow::Owned(with_words(self.form, text, self.position)),
            _ => any_bytes(text),
        }
    }

    /// The words of the statement that it is about, in the text that is asked for its words. A picture that is asked
    /// for alone stands in no statement, and a text that is refused for a literal or an indicator has no words.
    fn words<'t>(&self, seen: &'t [u8]) -> Vec<Word<'t>> {
        let (place, about) = (self.position, self.row().about);
        if self.line == 0 || matches!(about, About::Literal | About::Indicator) {
            return Vec::new();
        }
        if about != About::Byte {
            return words_at(self.form, seen, place);
        }
        let Ok(read) = self.form.words(seen) else {
            return Vec::new();
        };
        let is_about = |words: &Vec<Word>| words.iter().any(|word| word.range().contains(&place));
        let found = read.iter().map(|statement| statement.words).find(is_about);
        found.unwrap_or_default()
    }

    /// What stands around it in a text, of which [`Refusal::seen`] is this.
    pub(crate) fn around<'t>(&self, text: &'t [u8], seen: &'t [u8]) -> Around<'t> {
        let words = self.words(seen);
        let statement = match self.line {
            0 => Statement { picture: Some(statement::trimmed(seen)), ..Statement::default() },
            _ => Statement::of(&words),
        };
        let about = match self.row().about {
            About::Nothing | About::Indicator | About::Item => None,
            About::Byte => cause::utf_8(&text[self.position.min(text.len())..])
                .map(|c| statement::word(text, self.position..self.position + c.len_utf8())),
            About::Literal => Some(statement::line_from(self.form, text, self.position)),
            About::Level => statement.level,
            About::Count => statement.no_count,
            About::Redefines => statement.redefines,
            About::Picture => statement.picture,
            About::Repeat => statement.picture.and_then(statement::bad_repeat),
            About::Symbol => statement.picture.and_then(statement::bad_symbol),
        };
        Around { text, words, statement, about }
    }

    /// The word that its sentence names, in the text that was refused.
    pub fn word<'t>(&self, text: &'t [u8]) -> Option<Word<'t>> {
        self.span.map(|(start, len)| statement::word(text, start..start + len))
    }

    /// What was found, whatever the text is.
    pub fn found(&self) -> &'static str {
        self.row().found
    }

    /// What to do.
    pub fn advice(&self) -> &'static str {
        self.cause.map_or(self.row().advice, |cause| cause.advice)
    }
}

impl fmt::Display for Refusal {
    fn fmt(&self, f: &mut fmt::Formatter<'_>) -> fmt::Result {
        write!(f, "refused {} ({}): {}", self.number, self.name, self.found())?;
        if self.line > 0 {
            write!(f, ", line {} column {}", self.line, self.column)?;
        }
        if self.needed > 0 {
            write!(f, ", {} bytes are needed", self.needed)?;
        }
        match self.cause {
            Some(cause) => write!(f, " ({}: {})", cause.name, cause.advice),
            None => Ok(()),
        }
    }
}

impl std::error::Error for Refusal {}
