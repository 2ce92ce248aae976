//! Copybooks on cards: which columns are read, what the indicators say, how lines end, and what a refusal tells.

use copybook::{
    details_cards, layout, layout_cards, lent, owner_cards, words_cards, Form, Owner, Reader, LONGEST_LISTING, WORK,
};
use std::fs;

/// A card with this indicator whose code ends in the column.
fn card(indicator: char, code: &str, column: usize) -> String {
    format!("000100{indicator}{code:>width$}", width = column - 7)
}

/// The names and widths of the entries.
fn columns(cards: &str) -> Vec<(String, usize)> {
    let found = layout_cards(cards.as_bytes()).unwrap_or_else(|r| panic!("{cards:?}: {r}"));
    found.entries().map(|e| (e.name.unwrap_or("FILLER").to_owned(), e.width)).collect()
}

fn refused(cards: &str) -> (u32, usize) {
    let refusal = layout_cards(cards.as_bytes()).expect_err(cards);
    (refusal.number, refusal.position)
}

/// Sequence numbers that free text takes for levels.
#[test]
fn sequence_numbers() {
    let text = b"000010 01 REC.\n000020    05 TAG PIC X(5).\n000030    05 AGE PIC 99.\n";
    let found = layout_cards(text).unwrap();
    let names: Vec<_> = found.entries().map(|e| (e.name.unwrap(), e.offset, e.width)).collect();
    assert_eq!(names, [("TAG", 0, 5), ("AGE", 5, 2)]);
    let misread = layout(text).unwrap();
    assert_eq!(misread.entries().next().unwrap().name, Some("05"));
}

/// Places and positions are those in the card text.
#[test]
fn places() {
    let text = b"000010 01 REC.\r\n000020*   no\r\n000030    05 TAG REDEFINES\r\n000040    NONE PIC X.\r\n";
    let refusal = layout_cards(text).unwrap_err();
    let at = text.windows(2).position(|w| w == b"05").unwrap();
    assert_eq!((refusal.number, refusal.position, refusal.line, refusal.column), (28, at, 3, 11));
    assert_eq!(refusal.form, Form::Cards);
    let told = refusal.told(text).of_file("pen.cpy");
    assert_eq!(
        told,
        "\
pen.cpy:3:11: no earlier item of this list is called NONE
    000030    05 TAG REDEFINES
              ^
    000040    NONE PIC X.
              ~~~~
    the target must stand before it, under the same group
"
    );
    let text = b"000010     05 TAG PIC\n000020 X(5).\n";
    let details = details_cards(text).unwrap();
    let detail = details.get(0).unwrap();
    assert_eq!((detail.position, detail.picture.unwrap().start, detail.picture.unwrap().word), (11, 29, "X(5)"));
}

/// Lines of 0, 6, 7, 8, 72, 73 and 80 columns at the text's end, each with and without carriage return and byte 10.
#[test]
fn last_lines() {
    let one = [("A".to_owned(), 1)];
    let two = [("A".to_owned(), 2)];
    let wide = card(' ', "05 A PIC XX", 72);
    let lines = [
        ("000100 05 A PIC X\n".to_owned(), &one),
        ("000100 05 A PIC X\n000200".to_owned(), &one),
        ("000100 05 A PIC X\n000200 ".to_owned(), &one),
        ("000100 05 A PIC\n000200 X".to_owned(), &one),
        (wide.clone(), &two),
        (format!("{wide}X"), &two),
        (format!("{wide}XXXXXXXX"), &two),
    ];
    let lengths: Vec<usize> = lines.iter().map(|(text, _)| text.split('\n').next_back().unwrap().len()).collect();
    assert_eq!(lengths, [0, 6, 7, 8, 72, 73, 80]);
    for (text, expected) in &lines {
        for end in ["", "\r", "\n", "\r\n"] {
            assert_eq!(columns(&format!("{text}{end}")), expected.as_slice(), "{text:?} {end:?}");
        }
    }
}

/// A word, a period, a `*>` and a literal that reach column 72, and what stands behind it.
#[test]
fn column_72() {
    let a = |width| vec![("A".to_owned(), width)];
    assert_eq!(columns(&format!("{}.", card(' ', "05 A PIC XX", 72))), a(2));
    let two = vec![("A".to_owned(), 1), ("B".to_owned(), 1)];
    assert_eq!(columns(&format!("{}X\n       05 B PIC X.", card(' ', "05 A PIC X.", 72))), two);
    assert_eq!(columns(&format!("{}.\n       05 B PIC XX.", card(' ', "05 A PIC X", 72))), a(2));
    assert_eq!(columns(&format!("{}X\n       .", card(' ', "05 A PIC X*>", 72))), a(1));
    assert_eq!(refused(&format!("{}>\n       .", card(' ', "05 A PIC X*", 72))), (26, 61));
    assert_eq!(columns(&format!("{}'\n       .", card(' ', "05 A PIC X VALUE '. '", 72))), a(1));
    assert_eq!(refused(&format!("{}'\n       .", card(' ', "05 A PIC X VALUE '. ", 72))), (50, 69));
}

/// Every byte that is no byte over 127, in column 7: at the text's end and before more.
#[test]
fn indicators() {
    for byte in 0..=127u8 {
        let text = format!("000100 05 A PIC X.\n000200{}", char::from(byte));
        match byte {
            b' ' | b'*' | b'/' | b'D' | b'\n' | b'\r' => assert_eq!(columns(&text).len(), 1, "{byte}"),
            _ => assert_eq!(refused(&text), (51, 25), "{byte}"),
        }
        let text = format!("{text}           05 B PIC X.");
        match byte {
            b' ' | b'\n' => assert_eq!(columns(&text).len(), 2, "{byte}"),
            b'*' | b'/' | b'D' => assert_eq!(columns(&text).len(), 1, "{byte}"),
            _ => assert_eq!(refused(&text), (51, 25), "{byte}"),
        }
    }
    assert_eq!(refused("000100\r\r\n"), (51, 6));
}

/// 1, 2 and 3 look at the whole text, ignored columns too; then 51, then 50, then 10.
#[test]
fn order() {
    let both = "000100 X 05 A PIC X VALUE 'a\n000200- b'.\n";
    assert_eq!(refused(both), (51, 35));
    assert_eq!(refused(&both.replace('-', " ")), (50, 26));
    assert_eq!(refused("000100-\u{e5}"), (2, 7));
    assert_eq!(refused(&format!("{}\u{e5}", card('*', "", 72))), (2, 72));
    let mut out = vec![7; LONGEST_LISTING];
    let refusal = lent::layout_of(Form::Cards, b"000100-", &mut [1; WORK - 1], &mut out).unwrap_err();
    assert_eq!(refusal.number, 3);
    let mut work = vec![1; WORK];
    let refusal = lent::layout_of(Form::Cards, b"000100-", &mut work, &mut out).unwrap_err();
    assert_eq!((refusal.number, refusal.position), (51, 6));
    assert!(out.iter().all(|&b| b == 7) && work.iter().all(|&n| n == 0));
    let long = vec![b'-'; 65_536];
    assert_eq!(layout_cards(&long).unwrap_err().number, 1);
    assert_eq!(refused(&"-".repeat(65_535)), (51, 6));
}

#[test]
fn what_51_tells() {
    let told = |text: &'static [u8]| layout_cards(text).unwrap_err().told(text).of_file("x");
    assert_eq!(
        told(b"000100 05 A\n000200d PIC X."),
        "\
x:2:7: d in column 7 is none of the four indicators
    000200d PIC X.
          ^
    a blank marks code, * or / a comment, D a debugging line; a continued line (-) must be written as one
"
    );
    assert!(told(b"000100\x0105 A PIC X.").starts_with("x:1:7: the byte 0x01 in column 7 is none"));
    assert!(told(b"000100\t05 A PIC X.").starts_with("x:1:7: a tab stands in column 7, where it is one column"));
    assert!(told(b"000100-05 A PIC X.").starts_with("x:1:7: a hyphen in column 7 continues the line before"));
}

/// Every call, at the deepest nesting and with the most statements, with as much stack as the header says.
#[test]
fn stack() {
    let header = include_str!("../../../include/copybook.h");
    let stack = header.split("#define COPYBOOK_STACK ").nth(1).and_then(|rest| rest.lines().next()).unwrap();
    let deepest = |form: Form| {
        let before = if form == Form::Cards { "000100 " } else { "" };
        let groups: String = (1..66).map(|level| format!("{before}{level} G.\n")).collect();
        groups + &format!("{before}66 E PIC X.\n").repeat(735)
    };
    let calls = move || {
        let (mut work, mut out) = (vec![0; WORK], vec![0; LONGEST_LISTING]);
        for form in [Form::Free, Form::Cards] {
            let text = deepest(form);
            lent::layout_of(form, text.as_bytes(), &mut work, &mut out).unwrap();
            lent::details_of(form, text.as_bytes(), &mut work, &mut out).unwrap();
            lent::owner_of(form, text.as_bytes(), 0, &mut work).unwrap();
            lent::words_of(form, text.as_bytes(), &mut work, &mut out).unwrap();
        }
    };
    std::thread::Builder::new().stack_size(stack.parse().unwrap()).spawn(calls).unwrap().join().unwrap();
}

/// What a reader sees of a text, and that the library sees the same of it.
#[test]
fn view() {
    let text = b"000100*x\r\n\n0002\n000300 05\r\n000400D06\n000500/";
    assert_eq!(&*Form::Cards.view(text), b"         \n\n    \n       05\r\n         \n       ");
    assert_eq!(&*Form::Free.view(text), text);
    let wide = format!("{}XX\n{}", card(' ', "X", 72), card(' ', "", 72));
    let seen = format!("{:>72}  \n{:72}", "X", "");
    assert_eq!(&*Form::Cards.view(wide.as_bytes()), seen.as_bytes());
    let text = fs::read("../../examples/stocking.cards").expect("an example");
    assert_eq!(layout_cards(&text).unwrap().listing(), layout(&Form::Cards.view(&text)).unwrap().listing());
}

/// The words of a card text and the periods behind them, in free text at the same places.
fn seen(cards: &[u8]) -> Vec<u8> {
    let mut seen: Vec<u8> = cards.iter().map(|&b| if b == b'\n' { b } else { b' ' }).collect();
    for statement in words_cards(cards).unwrap().iter() {
        for word in statement.words {
            seen[word.range()].copy_from_slice(word.as_bytes());
        }
        if let Some(end) = seen.get_mut(statement.end) {
            *end = b'.';
        }
    }
    seen
}

/// What is read of a card text, as free text, has the same answers.
#[test]
fn as_free_text() {
    let text = fs::read("../../examples/stocking.cards").expect("an example");
    let seen = seen(&text);
    assert_eq!(layout_cards(&text).unwrap().listing(), layout(&seen).unwrap().listing());
    let (mut cards, mut free) = (Reader::of(Form::Cards), Reader::new());
    for position in 0..100 {
        let refused = |r: copybook::Refusal| (r.number, r.position);
        let owner = cards.owner(&text, position).map_err(refused);
        assert_eq!(owner, free.owner(&seen, position).map_err(refused));
        assert_eq!(owner, owner_cards(&text, position).map_err(refused));
    }
    assert_eq!(owner_cards(&text, 13), Ok(Owner::Slack { entry: 2 }));
    let (found, details) = cards.layout_and_details(&text).unwrap();
    assert_eq!(found.entries().count(), details.len());
}
