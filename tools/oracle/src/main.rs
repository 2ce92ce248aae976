//! The original Rust as an oracle. Each line of standard input is a request, each line of standard output its answer:
//! decimal numbers with a blank between them. To build it, where FOLDER holds the Rust files:
//!
//!     ORACLE_SRC=FOLDER CARGO_TARGET_DIR=target/oracle \
//!         cargo build --release --offline --manifest-path tools/oracle/Cargo.toml
//!
//! Requests; HEX is the text, two digits a byte:
//! - `C HEX`: a copybook, read by `copybook::parse`.
//! - `P USAGE SIGN HEX`: a picture, read by `copybook::parse_pic`. USAGE: 0 DISPLAY, 1 COMP-3, 2 COMP.
//!   SIGN: 0 none, 1 unsigned, 2 embedded, 3 leading separate, 4 trailing separate.
//!
//! Answers:
//! - `0 N`: refused. N is the number that the rules give to the error, 0 if they know no such error.
//! - `1 RECORD-LENGTH VARIABLE TOP-COUNT` and the entries, a group before its members. An entry is: length and bytes of
//!   its name; offset; width; kind and details; occurs mark and count (`0 0` if none); length and bytes of its
//!   DEPENDING ON name, and of its REDEFINES name (0 if none).
//! - `1 WIDTH` and kind and details, for a picture.
//! - `2`: the Rust panicked. It is built with overflow checks.
//! - `3`: the Rust was not asked, see `asked`.
//!
//! Kinds and details: 1 text; 2 int: signed, sign; 3 binary: signed; 4 decimal: precision, scale, storage, sign;
//! 5 edited: precision, scale, signed, length and bytes of the mask; 6 group: number of members.
//! Sign: 0 unsigned, 1 embedded, 2 leading separate, 3 trailing separate. Storage: 0 display, 1 COMP-3, 2 zoned.

use std::io::{self, BufRead, Write};
use std::panic;

use fixedformat_core::copybook::{self, Usage};
use fixedformat_core::{numbers, Error, Field, FieldKind, SignKind};

type Numbers = Vec<u64>;

const PANICKED: u64 = 2;
const NOT_ASKED: u64 = 3;

/// A picture's repeat counts are taken up to this sum.
const MOST_SYMBOLS: u64 = 1_000_000;

fn refused(e: &Error) -> Numbers {
    vec![0, u64::from(e.number())]
}

/// Whether the word, as a picture, expands to at most MOST_SYMBOLS symbols, or is refused before it has more.
fn small(word: &str) -> bool {
    let mut rest = word;
    let mut symbols = 0u64;
    while let Some(symbol) = rest.chars().next() {
        rest = &rest[symbol.len_utf8()..];
        let mut count = 1;
        if let Some(after) = rest.strip_prefix('(') {
            let Some((number, behind)) = after.split_once(')') else {
                return true;
            };
            let Ok(n) = number.trim().parse::<u64>() else {
                return true;
            };
            count = n;
            rest = behind;
        }
        symbols = symbols.saturating_add(count);
        if symbols > MOST_SYMBOLS {
            return false;
        }
    }
    true
}

/// The Rust writes every symbol of a picture out, so a repeat count can ask for any amount of memory: a text with a
/// word that, as a picture, would expand to over MOST_SYMBOLS symbols is not handed to it, and gets the answer `3`. So
/// does a text that is no UTF-8, since the Rust takes a `&str`.
fn asked(bytes: &[u8], one_word: bool) -> Option<&str> {
    let text = std::str::from_utf8(bytes).ok()?;
    let fits = if one_word { small(text.trim()) } else { text.split_whitespace().all(small) };
    fits.then_some(text)
}

fn put_bytes(out: &mut Numbers, text: &str) {
    out.push(text.len() as u64);
    out.extend(text.bytes().map(u64::from));
}

fn put_kind(out: &mut Numbers, kind: &FieldKind) {
    // the copybook reader makes no kind without numbers
    out.extend(numbers::kind(kind).unwrap_or(vec![0]).into_iter().map(u64::from));
    match kind {
        FieldKind::Edited { mask, .. } => put_bytes(out, mask),
        FieldKind::Group(members) => out.push(members.len() as u64),
        _ => {}
    }
}

fn put_field(out: &mut Numbers, field: &Field) {
    put_bytes(out, &field.name);
    out.extend([field.offset as u64, field.width as u64]);
    put_kind(out, &field.kind);
    match field.occurs {
        Some(n) => out.extend([1, n as u64]),
        None => out.extend([0, 0]),
    }
    put_bytes(out, field.depending_on.as_deref().unwrap_or(""));
    put_bytes(out, field.redefines.as_deref().unwrap_or(""));
    if let FieldKind::Group(members) = &field.kind {
        for member in members {
            put_field(out, member);
        }
    }
}

fn copybook_answer(bytes: &[u8]) -> Numbers {
    let Some(text) = asked(bytes, false) else {
        return vec![NOT_ASKED];
    };
    match copybook::parse(text) {
        Err(e) => refused(&e),
        Ok(layout) => {
            let mut out = vec![1, layout.record_len as u64, layout.variable as u64, layout.fields.len() as u64];
            for field in &layout.fields {
                put_field(&mut out, field);
            }
            out
        }
    }
}

fn picture_answer(usage: Usage, sign: Option<SignKind>, bytes: &[u8]) -> Numbers {
    let Some(text) = asked(bytes, true) else {
        return vec![NOT_ASKED];
    };
    match copybook::parse_pic(text, usage, sign) {
        Err(e) => refused(&e),
        Ok((kind, width)) => {
            let mut out = vec![1, width as u64];
            put_kind(&mut out, &kind);
            out
        }
    }
}

fn bytes_of(hex: &str) -> Option<Vec<u8>> {
    if hex.len() % 2 != 0 || !hex.is_ascii() {
        return None;
    }
    (0..hex.len()).step_by(2).map(|i| u8::from_str_radix(&hex[i..i + 2], 16).ok()).collect()
}

fn usage_of(word: &str) -> Option<Usage> {
    numbers::USAGES.get(word.parse::<usize>().ok()?).copied()
}

fn sign_of(word: &str) -> Option<Option<SignKind>> {
    numbers::SIGNS.get(word.parse::<usize>().ok()?).copied()
}

/// The answer to a request, or nothing where the line is no request. An empty text may leave its HEX out.
fn answer(line: &str) -> Option<Numbers> {
    let words: Vec<&str> = line.split_whitespace().collect();
    let answered = match words[..] {
        ["C"] => panic::catch_unwind(|| copybook_answer(&[])),
        ["C", hex] => {
            let bytes = bytes_of(hex)?;
            panic::catch_unwind(|| copybook_answer(&bytes))
        }
        ["P", usage, sign, ref hex @ ..] if hex.len() <= 1 => {
            let (usage, sign) = (usage_of(usage)?, sign_of(sign)?);
            let bytes = bytes_of(hex.first().unwrap_or(&""))?;
            panic::catch_unwind(|| picture_answer(usage, sign, &bytes))
        }
        _ => return None,
    };
    Some(answered.unwrap_or_else(|_| vec![PANICKED]))
}

fn main() -> io::Result<()> {
    panic::set_hook(Box::new(|_| {}));
    let mut out = io::BufWriter::new(io::stdout().lock());
    for line in io::stdin().lock().lines() {
        let line = line?;
        let Some(numbers) = answer(&line) else {
            eprintln!("oracle: no request: {line}");
            std::process::exit(2);
        };
        let words: Vec<String> = numbers.iter().map(u64::to_string).collect();
        writeln!(out, "{}", words.join(" "))?;
    }
    out.flush()
}
