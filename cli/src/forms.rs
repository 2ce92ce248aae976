//! How a copybook is written, which --cards says, and what is said where a text seems to be written otherwise.

use crate::files::Source;
use crate::Arguments;
use copybook::{Form, Layout, Refusal};

/// The option that says that a copybook is on cards.
pub const CARDS: &str = "--cards";

/// The form that the command line names.
pub fn asked(arguments: &Arguments) -> Form {
    if arguments.has(CARDS) {
        Form::Cards
    } else {
        Form::Free
    }
}

/// The columns before a card's indicator; the indicators that there are, and three that are met in their place: of a
/// line that continues another, of a debugging line, and a tab.
const BEFORE_INDICATOR: usize = 6;
const INDICATORS: &[u8] = b" */D-d\t";

/// Whether this may stand in columns 1 to 6: digits and blanks, or one word of letters and digits.
fn is_sequence(columns: &[u8]) -> bool {
    let is_number = columns.iter().all(|b| b.is_ascii_digit() || *b == b' ');
    is_number || columns.trim_ascii().iter().all(u8::is_ascii_alphanumeric)
}

/// Whether every line may be a card, by columns 1 to 6 and by column 7, which some line has.
fn like_cards(text: &[u8]) -> bool {
    let lines = || text.split(|&b| b == b'\n').map(|line| line.strip_suffix(b"\r").unwrap_or(line));
    let numbered = |line: &[u8]| is_sequence(&line[..line.len().min(BEFORE_INDICATOR)]);
    let marked = |line: &[u8]| line.get(BEFORE_INDICATOR).is_none_or(|b| INDICATORS.contains(b));
    lines().all(|line| numbered(line) && marked(line)) && lines().any(|line| line.len() > BEFORE_INDICATOR)
}

/// Whether a name is a number: a level, after a sequence number that was taken for one.
fn has_number_for_a_name(layout: &Layout) -> bool {
    layout.entries().any(|e| e.name.is_some_and(|name| name.bytes().all(|b| b.is_ascii_digit())))
}

/// Whether the text answers otherwise as cards.
fn other_as_cards(text: &[u8], read: Result<&Layout, &Refusal>) -> bool {
    match (read, Form::Cards.layout(text)) {
        (Ok(free), Ok(cards)) => free.listing() != cards.listing(),
        (Err(free), Err(cards)) => (free.number, free.position) != (cards.number, cards.position),
        _ => true,
    }
}

/// Says so where free text that was refused, or has a number for a name, looks like cards and would be read otherwise
/// as such, and whether it is so; and where lines end in carriage returns alone.
pub fn hint(source: &Source, form: Form, read: Result<&Layout, &Refusal>) -> bool {
    let (name, text) = (&source.name, &source.text);
    if !text.contains(&b'\n') && text.iter().rev().skip(1).any(|&b| b == b'\r') {
        say!("{name}: its lines end in carriage returns alone, and are read as one: end each with byte 10");
    }
    let doubtful = read.map_or(true, has_number_for_a_name);
    let is_cards = form == Form::Free && doubtful && like_cards(text) && other_as_cards(text, read);
    if is_cards {
        say!("{name}: its lines look like cards with columns: try {CARDS}");
    }
    is_cards
}
