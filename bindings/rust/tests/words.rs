//! The words of a copybook: statement by statement, also of what other calls refuse, on cards, in lent buffers.

use copybook::{layout, lent, longest_words, words, words_cards, Form, Reader, Sentence, Words, WORK};
use std::collections::HashMap;

const FISH: &[u8] = b"01 FISH. 05 TAG PIC X(5). 05 SIRE PIC 9(4) COMP SYNC. 05 WT OCCURS 3 PIC 9(3)V9.";

/// The words of each statement, one blank apart, and where it ends.
fn said(words: &Words) -> Vec<(String, usize)> {
    let joined = |s: Sentence| s.words.iter().map(|w| w.word).collect::<Vec<_>>().join(" ");
    words.iter().map(|s| (joined(s.clone()), s.end)).collect()
}

fn of(text: &[u8]) -> Vec<(String, usize)> {
    said(&words(text).unwrap())
}

fn due(statements: &[(&str, usize)]) -> Vec<(String, usize)> {
    statements.iter().map(|&(words, end)| (words.to_owned(), end)).collect()
}

#[test]
fn worked_example() {
    let expected = [
        ("01 FISH", 7),
        ("05 TAG PIC X(5)", 24),
        ("05 SIRE PIC 9(4) COMP SYNC", 52),
        ("05 WT OCCURS 3 PIC 9(3)V9", 79),
    ];
    assert_eq!(of(FISH), due(&expected));
    let first = [2, 0, 0, 0, 7, 0, 0, 0, 0, 0, 0, 0, 2, 0, 0, 0, 3, 0, 0, 0, 4, 0, 0, 0];
    assert_eq!(words(FISH).unwrap().bytes()[..24], first);
}

/// A last statement ends with the text, an empty one is none, and a period may stand away from its words.
#[test]
fn ends() {
    assert_eq!(of(b""), []);
    assert_eq!(of(b". . "), []);
    assert_eq!(of(b"05 A PIC 9.9\n"), due(&[("05 A PIC 9.9", 13)]));
    assert_eq!(of(b"05 A\n* 05 B.\n . .05"), due(&[("05 A", 14), (".05", 19)]));
}

/// What is refused for what it says has its words, and so has level 88.
#[test]
fn refused() {
    let text = b"X. 88 Y VALUE 'a. b'. 05 A PIC Q.";
    assert_eq!(layout(text).unwrap_err().number, 10);
    assert_eq!(of(text), due(&[("X", 1), ("88 Y VALUE 'a. b'", 20), ("05 A PIC Q", 32)]));
    let many = "05 A PIC X.\n".repeat(801);
    assert_eq!(layout(many.as_bytes()).unwrap_err().number, 14);
    assert_eq!(words(many.as_bytes()).unwrap().iter().count(), 801);
}

#[test]
fn cards() {
    let text = format!("000100 05 A.\n000200* 05 B.\n{:<72}Y.\n", "000300     PIC X.");
    assert_eq!(said(&words_cards(text.as_bytes()).unwrap()), due(&[("05 A", 11), ("PIC X", 43)]));
    // a period in column 73 is not read
    let mut text = b"000100 05 A PIC X".to_vec();
    text.resize(72, b' ');
    text.push(b'.');
    assert_eq!(said(&words_cards(&text).unwrap()), due(&[("05 A PIC X", 73)]));
}

/// The least count of a table is the one before TO, on cards too.
#[test]
fn least_counts() {
    let text = b"01 R. 05 N PIC 9. 05 T OCCURS 2 TO 5 DEPENDING ON N PIC X. 05 U OCCURS 3 DEPENDING N PIC X.";
    let read = words(text).unwrap();
    assert_eq!([0, 18, 59, 21].map(|at| read.least_count(at)), [None, Some(2), None, None]);
    assert_eq!(read.least_counts(), HashMap::from([(18, 2)]));
    let cards = b"000100 05 T OCCURS\n000200 2 TO 5 DEPENDING ON N PIC X.";
    assert_eq!(words_cards(cards).unwrap().least_count(7), Some(2));
    assert_eq!(words_cards(cards).unwrap().least_counts(), HashMap::from([(7, 2)]));
}

/// All least counts are those of one statement after the other: level 88, what is refused and what a literal holds too.
#[test]
fn all_least_counts() {
    let statements = [
        "05 A OCCURS 2 TO 5 DEPENDING ON N.",
        "05 A OCCURS 0 TO 5.",
        "88 A OCCURS 3 TO 5 VALUE 'OCCURS 4 TO 5. '.",
        "05 A OCCURS 6 TO.",
        "OCCURS OCCURS OCCURS 7 TO 8.",
        "05 A OCCURS 9 TO 9 OCCURS 10.",
        "05 A OCCURS 11 TO 9",
    ];
    let cards = statements.map(|statement| format!("000100 {statement}\n"));
    for (form, text) in [(Form::Free, statements.join(" ")), (Form::Cards, cards.concat())] {
        let read = form.words(text.as_bytes()).unwrap();
        let each: HashMap<usize, usize> = (0..=text.len()).filter_map(|at| Some((at, read.least_count(at)?))).collect();
        assert_eq!((read.least_counts(), each.len()), (each, 5));
    }
}

/// Words stand in the reader until the next call, whatever the lengths of the texts.
#[test]
fn in_a_reader() {
    let mut reader = Reader::new();
    for text in [&b"05 A."[..], FISH, b"", FISH] {
        assert_eq!(said(&reader.words(text).unwrap()), of(text));
    }
}

#[test]
fn turned_down() {
    let refused = |form: Form, text: &[u8]| {
        let refusal = form.words(text).unwrap_err();
        (refusal.number, refusal.position)
    };
    assert_eq!(refused(Form::Free, &vec![b' '; 65_536]).0, 1);
    assert_eq!(refused(Form::Free, b"05 A VALUE 'a \xe4"), (2, 14));
    assert_eq!(refused(Form::Free, b"05 A VALUE 'a\n'."), (50, 11));
    assert_eq!(refused(Form::Cards, b"000100 05 A VALUE 'a\n000200-    'b'."), (51, 27));
}

/// In a lent output that is too short nothing is written; one as long as the longest words never is.
#[test]
fn in_lent_buffers() {
    let (mut work, mut out) = (vec![7; WORK], vec![9; longest_words(FISH.len())]);
    let written = lent::words(FISH, &mut work, &mut out).unwrap().bytes().len();
    assert_eq!(written, words(FISH).unwrap().bytes().len());
    assert_eq!((&work, &out[written..]), (&vec![0; WORK], &vec![9; out.len() - written][..]));
    out.fill(9);
    let refusal = lent::words(FISH, &mut work, &mut out[..written - 1]).unwrap_err();
    assert_eq!((refusal.number, refusal.needed), (31, written));
    assert_eq!(out, vec![9; out.len()]);
    assert_eq!(lent::words(FISH, &mut work[1..], &mut out).unwrap_err().number, 3);
    for text in ["A. ".repeat(21_845), "A ".repeat(32_767), format!("{}A", "A.\n".repeat(21_844))] {
        let text = text.as_bytes();
        assert!(words(text).unwrap().bytes().len() <= longest_words(text.len()));
    }
}
