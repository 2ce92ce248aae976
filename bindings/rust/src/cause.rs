//! What is behind a refusal, where the text shows it: the causes of its row of the table, of which the first that holds
//! is told in the place of the row's own sentence and advice.

use crate::statement::{self, Statement};
use crate::{Form, Refusal, Usage, Word};

/// One cause, as texts.toml has it.
#[derive(Debug, Clone, Copy, PartialEq, Eq)]
pub struct Cause {
    /// A word or a few.
    pub name: &'static str,
    /// What to do.
    pub advice: &'static str,
    pub(crate) when: When,
    /// What is looked for.
    pub(crate) words: &'static [&'static str],
    /// What was found, as [`crate::Row`] has it.
    pub(crate) sentence: &'static str,
}

/// What of the text shows a cause. Words are those of the statement, and letter case is put aside.
#[derive(Debug, Clone, Copy, PartialEq, Eq)]
pub(crate) enum When {
    /// Its first word is one of the cause's.
    First,
    /// Its second word.
    Second,
    /// Its last word.
    Last,
    /// One of its words, from the third up to VALUE.
    Has,
    /// Likewise; or what stands after USAGE there.
    Usage,
    /// A word after VALUE, outside of its literals.
    BehindValue,
    /// Its level is one of these numbers.
    Level,
    /// The word that the refusal is about ends in one of these.
    EndsIn,
    /// Its picture does.
    PictureEndsIn,
    /// The byte or the word that the refusal is about has one of these.
    Holds,
    /// The byte stands in such a part of the text: `comment`, `literal`, `name` or `ignored`.
    Place,
    /// The whole text is so coded, see [`coding`].
    Text,
    /// What was asked shows it, and no text.
    Asked,
}

/// A cause that holds, and the word that shows it.
pub(crate) struct Found<'t> {
    pub cause: &'static Cause,
    pub word: Option<Word<'t>>,
}

/// What stands around a refusal.
pub(crate) struct Around<'t> {
    /// The whole text.
    pub text: &'t [u8],
    /// The words of the statement that it is about, or in which its byte stands; of a picture that was asked for alone
    /// there are none.
    pub words: Vec<Word<'t>>,
    /// What they say, or that picture.
    pub statement: Statement<'t>,
    /// The word that the refusal is about.
    pub about: Option<Word<'t>>,
}

impl<'t> Around<'t> {
    /// The first of the row's causes that holds.
    pub fn cause(&self, refusal: &Refusal) -> Option<Found<'t>> {
        refusal.row().causes.iter().find_map(|cause| self.shown(cause, refusal))
    }

    /// Whether a cause holds, and by which word.
    fn shown(&self, cause: &'static Cause, refusal: &Refusal) -> Option<Found<'t>> {
        let one_of = |word: &Word| cause.words.iter().any(|w| word.eq_ignore_ascii_case(w));
        let ends = |word: &Word| cause.words.iter().any(|end| word.ends_with(end));
        let by = |word: Option<Word<'t>>| word.map(|word| Found { cause, word: Some(word) });
        let if_so = |holds: bool| holds.then_some(Found { cause, word: self.about });
        let clauses = || self.words.iter().copied().skip(2).take_while(|word| !statement::is_value(word));
        match cause.when {
            When::First => by(self.words.first().copied().filter(one_of)),
            When::Second => by(self.words.get(1).copied().filter(one_of)),
            When::Last => by(self.words.last().copied().filter(one_of)),
            When::Has => by(clauses().find(one_of)),
            When::Usage => by(clauses().find(one_of).or_else(|| usage(&self.words))),
            When::BehindValue => by(statement::behind_value(&self.words).into_iter().find(one_of)),
            When::Level => {
                let level = self.statement.level.and_then(|word| word.parse().ok());
                if_so(level.is_some_and(|level: u8| cause.words.iter().any(|n| *n == level.to_string())))
            }
            When::EndsIn => by(self.about.filter(ends)),
            When::PictureEndsIn => by(self.statement.picture.filter(ends).filter(is_accepted_without_its_end)),
            When::Holds => {
                let holds = |word: &str| cause.words.iter().any(|byte| word.contains(byte));
                let byte = self.text.get(refusal.position..).and_then(|rest| rest.first());
                if_so(match self.about {
                    Some(word) => holds(&word),
                    None => byte.is_some_and(|&b| holds(char::from(b).encode_utf8(&mut [0; 4]))),
                })
            }
            When::Place => if_so(cause.words.contains(&self.place(refusal))),
            When::Text => if_so(coding(self.text).is_some_and(|name| cause.words.contains(&name))),
            When::Asked => None,
        }
    }

    /// The part of the text that a byte over 127 stands in; the words are those of its statement, if it stands in one.
    fn place(&self, refusal: &Refusal) -> &'static str {
        if refusal.form == Form::Cards && is_ignored(self.text, refusal.position) {
            return "ignored";
        }
        match self.words.iter().position(|word| word.range().contains(&refusal.position)) {
            None => "comment",
            Some(1) => "name",
            Some(at) if self.words[..at].iter().skip(2).any(statement::is_value) => "literal",
            Some(_) => "word",
        }
    }
}

/// Whether a picture is one without the commas and semicolons behind it.
fn is_accepted_without_its_end(picture: &Word) -> bool {
    let symbols = picture.trim_end_matches([',', ';']);
    crate::picture(symbols.as_bytes(), Usage::Display, None).is_ok()
}

/// What stands after USAGE or USAGE IS.
fn usage<'t>(words: &[Word<'t>]) -> Option<Word<'t>> {
    let at = words.iter().position(|word| word.eq_ignore_ascii_case("USAGE"))?;
    let mut behind = words[at + 1..].iter().copied();
    behind.find(|word| !word.eq_ignore_ascii_case("IS"))
}

// ---------------------------------------------------------------- the place of a byte

/// Whether a place on a card stands in columns that are ignored.
fn is_ignored(cards: &[u8], place: usize) -> bool {
    let column = crate::line_and_column(cards, place).1;
    !(Form::BEFORE_INDICATOR + 1..=Form::BEFORE_IGNORED).contains(&column)
}

/// A byte over 127 with the character that it begins: in UTF-8 where that can be, else in Latin-1 or Windows-1252.
pub(crate) fn character(text: &[u8], place: usize) -> String {
    // what these have in the places of 0x80 to 0x9f, with ? for none
    const WINDOWS: &str = "€?‚ƒ„…†‡ˆ‰Š‹Œ?Ž??‘’“”•–—˜™š›œ?žŸ";
    let rest = text.get(place..).unwrap_or_default();
    if let Some(c) = utf_8(rest) {
        let bytes: Vec<String> = rest[..c.len_utf8()].iter().map(|b| format!("{b:#04x}")).collect();
        // a blank, or what has no width, is told by its number
        let is_seen = !c.is_whitespace() && !matches!(c, '\u{ad}' | '\u{200b}'..='\u{200f}' | '\u{2060}' | '\u{feff}');
        let shown = if is_seen { c.to_string() } else { format!("U+{:04X}", u32::from(c)) };
        return format!("{shown} ({} in UTF-8)", bytes.join(" "));
    }
    let byte = rest.first().copied().unwrap_or(0);
    match WINDOWS.chars().nth(usize::from(byte.saturating_sub(0x80))) {
        Some('?') => format!("{byte:#04x}"),
        None if byte == 0xa0 => "a no-break space (0xa0 in Latin-1)".into(),
        Some(c) => format!("{c} ({byte:#04x} in Windows-1252)"),
        None => format!("{} ({byte:#04x} in Latin-1)", char::from(byte)),
    }
}

/// The character that bytes begin with in UTF-8, if it is none of ASCII.
pub(crate) fn utf_8(bytes: &[u8]) -> Option<char> {
    let whole = |n: usize| bytes.get(..n).and_then(|part| std::str::from_utf8(part).ok());
    (2..=4).find_map(whole)?.chars().next().filter(|c| !c.is_ascii() && !c.is_control())
}

// ---------------------------------------------------------------- how a text is coded

/// How a text is coded that is no ASCII, if it is one of those that are known.
fn coding(text: &[u8]) -> Option<&'static str> {
    const CARD: usize = 80;
    let share = |of: &[u8], is: fn(u8) -> bool| of.iter().filter(|&&b| is(b)).count();
    let every_other = |first: usize| text.iter().copied().skip(first).step_by(2).collect::<Vec<u8>>();
    if text.starts_with(b"\xef\xbb\xbf") {
        return Some("utf-8 mark");
    }
    if text.starts_with(b"\xff\xfe") || text.starts_with(b"\xfe\xff") {
        return Some("utf-16 mark");
    }
    // of ASCII in UTF-16 every other byte is 0
    let zeros = |first: usize| text.contains(&0) && share(&every_other(first), |b| b == 0) * 4 > text.len();
    match (zeros(0), zeros(1)) {
        (true, false) => return Some("utf-16be"),
        (false, true) => return Some("utf-16le"),
        _ => {}
    }
    // letters and digits of EBCDIC, and its blank, 0x40, of which there are more than of ours
    let letters = share(text, |b| matches!(b, 0x81..=0xa9 | 0xc1..=0xe9 | 0xf0..=0xf9));
    let blanks = share(text, |b| b == b'@');
    if letters + blanks > text.len() / 2 && blanks >= share(text, |b| b == b' ') {
        let lines = share(text, |b| matches!(b, 0x15 | 0x25));
        return Some(if lines == 0 && text.len().is_multiple_of(CARD) { "ebcdic cards" } else { "ebcdic" });
    }
    None
}
