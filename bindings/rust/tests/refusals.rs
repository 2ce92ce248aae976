//! Refusals: numbers, names, lines and columns; the words in which they are told; and that the table has them all.

use copybook::{layout, lent, line_and_column, mask, owner, picture, Refusal, Usage, REFUSALS, WORK};

fn refused(text: &[u8]) -> Refusal {
    layout(text).expect_err("a refusal")
}

/// Number, name, position, line and column.
fn parts(r: Refusal) -> (u32, &'static str, usize, usize, usize) {
    assert_eq!(r.needed, 0);
    (r.number, r.name, r.position, r.line, r.column)
}

#[test]
fn lines_and_columns() {
    assert_eq!(parts(refused(b"05 A PIC X.\n   05 B PIC Q.\n")), (25, "picture-symbol", 15, 2, 4));
    assert_eq!(parts(refused(b"05 A PIC Q.")), (25, "picture-symbol", 0, 1, 1));
    assert_eq!(parts(refused(b"\n\n05 A.")), (21, "no-picture", 2, 3, 1));
    assert_eq!(parts(refused(b"05 A PIC X.\r\n\tXX B.")), (10, "level", 14, 2, 2));
    let target = b"* note\n05 A PIC X. 05 B REDEFINES C PIC X.";
    assert_eq!(parts(refused(target)), (28, "redefines-target", 19, 2, 13));
    assert_eq!(parts(refused("05 A PIC X.\n05 \u{c5} PIC X.".as_bytes())), (2, "byte-not-ascii", 15, 2, 4));
    assert_eq!(line_and_column(b"a\nb", 9), (2, 2));
}

#[test]
fn of_statements_and_lists() {
    assert_eq!(parts(refused(b"05 A OCCURS MANY PIC X.")).0, 11);
    assert_eq!(parts(refused(b"05 A OCCURS 1 TO MANY PIC X.")).0, 12);
    assert_eq!(parts(refused(b"05 A OCCURS 1 TO 2 DEPENDING ON.")).0, 13);
    assert_eq!(parts(refused(b"05 A OCCURS 3000000000 PIC X.")), (29, "too-large", 0, 1, 1));
    let fold = b"05 A PIC X. 05 B PIC X.\n05 B REDEFINES A PIC X.\n05 C REDEFINES B PIC X.";
    assert_eq!(parts(refused(fold)), (30, "redefines-before", 48, 3, 1));
}

/// 14 at the 801st statement, 20 at the first statement of the list that is too deep.
#[test]
fn at_the_limits() {
    let many = |n: usize| "05 A PIC X.\n".repeat(n);
    assert_eq!(layout(many(800).as_bytes()).unwrap().record_len(), 800);
    assert_eq!(parts(refused(many(801).as_bytes())), (14, "too-many", 9600, 801, 1));
    let groups = |n: usize| (1..=n).map(|level| format!("{level} G.\n")).collect::<String>();
    let deep = |n: usize| groups(n) + &format!("{} E PIC X.", n + 1);
    assert_eq!(layout(deep(65).as_bytes()).unwrap().entries().map(|e| e.depth).max(), Some(64));
    let r = refused(deep(66).as_bytes());
    assert_eq!((r.number, r.line, r.column), (20, 67, 1));
}

/// A refusal that has no place says so by line 0.
#[test]
fn without_a_place() {
    assert_eq!(parts(refused(&[b' '; 65_536])), (1, "text-too-long", 0, 0, 0));
    assert!(layout(&[b' '; 65_535]).is_ok());
    assert_eq!(parts(picture(b"9(3", Usage::Display, None).unwrap_err()), (22, "picture-open", 0, 0, 0));
    assert_eq!(parts(mask(b"XX9", Usage::Display).unwrap_err()), (26, "picture-mixed", 0, 0, 0));
    assert_eq!(parts(picture(b" 9\xff", Usage::Display, None).unwrap_err()), (2, "byte-not-ascii", 2, 1, 3));
}

// ---------------------------------------------------------------- words

#[test]
fn shown_without_the_text() {
    let error: Box<dyn std::error::Error> = refused(b"05 A PIC X.\n   05 B PIC Q.\n").into();
    assert_eq!(error.to_string(), "refused 25 (picture-symbol): a symbol that no picture has, line 2 column 4");
    let text = refused(b"05 A INDEX.").to_string();
    let found = "refused 21 (no-picture): an item without members has no picture, line 1 column 1";
    assert!(text.starts_with(&format!("{found} (index: write its bytes in its place: ")), "{text}");
    let text = refused(&[b' '; 65_536]).to_string();
    assert_eq!(text, "refused 1 (text-too-long): the text has more than 65,535 bytes");
    let text = lent::layout(b"", &mut [0; WORK], &mut [0; 9]).unwrap_err().to_string();
    let found = "the lent output is shorter than the answer; the needed length is answered";
    assert_eq!(text, format!("refused 31 (out-too-short): {found}, 10 bytes are needed"));
}

/// The sentence that tells a refusal, and the word that it names.
fn sentence(text: &str) -> (String, &str) {
    let told = refused(text.as_bytes()).told(text.as_bytes());
    (told.sentence, told.word.map_or("", |word| word.word))
}

#[test]
fn sentences() {
    let says = |text, said: &str, word| assert_eq!(sentence(text), (said.to_owned(), word));
    says("XX TAG PIC X.", "XX is no level from 0 to 255", "XX");
    says("05 A OCCURS\n* no\n MANY. *> or", "OCCURS of A is followed by MANY, not by a count", "MANY");
    says("05 A OCCURS.", "OCCURS of A is followed by nothing, not by a count", "");
    says("05 A OCCURS 1 TO.", "TO of A is followed by nothing, not by a count", "");
    says("05 OCCURS OCCURS 1 occurs 1 TO B.", "TO of OCCURS is followed by B, not by a count", "B");
    says("05 A OCCURS 1 DEPENDING ON.", "DEPENDING of A has no name after it", "");
    says("05 A.", "A has neither a picture nor members", "");
    let float = "B is a float by its usage, or its group's, and has the picture 9(4)";
    says("01 A COMP-1. 05 B PIC X PIC 9(4).", float, "9(4)");
    says("05.", "FILLER has neither a picture nor members", "");
    says("05 A PIC X(5.", "the picture X(5 of A has a `(` without its `)`", "X(5");
    says("05 A PIC IS X(2)9( N).", "the picture X(2)9( of A has a `(` without its `)`", "X(2)9(");
    says("05 A PIC X(2)9(N).", "(N) in the picture of A is no repeat count", "(N)");
    says("05 A PIC X(70000).", "the picture X(70000) of A has more than 65,535 symbols", "X(70000)");
    says("05 A PIC X PIC C(1)R(0)Q.", "C in the picture of A is no symbol of a picture", "C");
    says("05 A PIC CRDBQ(0)n.", "n in the picture of A is no symbol of a picture", "n");
    says("05 A PIC XX9.", "the picture XX9 of A mixes text with digits or editing", "XX9");
    says("05 A PIC X. 05 B REDEFINES C REDEFINES D PIC X.", "no earlier item of this list is called D", "D");
    says(
        "05 A OCCURS 9999999999 PIC X.",
        "A has a count, an offset, a width, a size or an end above 2,147,483,647",
        "",
    );
    let fold = "05 A PIC X. 05 B PIC X. 05 B REDEFINES A PIC X. 05 C REDEFINES B PIC X.";
    says(fold, "C starts before the item B that it is folded under", "B");
    let far = "05 A PIC 9(32). 05 B PIC Q.";
    says(far, "the picture 9(32) of A has more than 31 digits, or an edited mask of more than 255 bytes", "9(32)");
}

/// An open literal is told as far as its line goes, and what stands behind a literal is found.
#[test]
fn literals() {
    let says = |text, said: &str, word| assert_eq!(sentence(text), (said.to_owned(), word));
    says("05 A PIC X VALUE 'open. x \r\n05 B.", "the literal 'open. x is not closed on its line", "'open. x");
    says("XX. 05 A B VALUE \"it's", "the literal \"it's is not closed on its line", "\"it's");
    assert_eq!(parts(refused(b"05 A PIC X\n VALUE IT'S.")), (50, "literal-open", 20, 2, 10));
    says("05 A PIC VALUE 'a. b*> c' OCCURS N.", "OCCURS of A is followed by N, not by a count", "N");
    says("05 VALUE 'a. b' OCCURS N.", "b' is no level from 0 to 255", "b'");
    let long = format!("05 A B VALUE '{}", "x".repeat(300));
    assert_eq!(sentence(&long).0, format!("the literal '{}... is not closed on its line", "x".repeat(99)));
}

/// A byte over 127 by its number; what has no place by what was found; a picture asked for alone without an item.
#[test]
fn sentences_without_words() {
    let byte = |text: &[u8]| refused(text).told(text).sentence;
    assert_eq!(byte(b"05 A PIC \xc5."), "\u{c5} (0xc5 in Latin-1) is not ASCII");
    assert_eq!(byte("05 A PIC \u{c5}.".as_bytes()), "\u{c5} (0xc3 0x85 in UTF-8) is not ASCII");
    assert_eq!(byte(b"05 A PIC \x93."), "\u{201c} (0x93 in Windows-1252) is not ASCII");
    assert_eq!(byte(b"05 A PIC \x81."), "0x81 is not ASCII");
    assert_eq!(byte(b"05\xa0A PIC X."), "a no-break space (0xa0 in Latin-1) is not ASCII");
    assert_eq!(byte("05\u{a0}A PIC X.".as_bytes()), "U+00A0 (0xc2 0xa0 in UTF-8) is not ASCII");
    let past = owner(b"05 A PIC X.", 1).unwrap_err();
    assert_eq!(past.told(b"05 A PIC X.").to_string(), format!("{}\n    {}\n", past.found(), past.advice()));
    let told = |text: &'static [u8]| picture(text, Usage::Display, None).unwrap_err().told(text).to_string();
    assert!(told(b"9(3").starts_with("the picture 9(3 has a `(` without its `)`\n    9(3\n    ^~~\n"));
    assert!(told(b" 9Q9").starts_with("Q in the picture is no symbol of a picture\n     9Q9\n      ^\n"));
    assert!(told(b"9(x)").starts_with("(x) in the picture is no repeat count\n    9(x)\n     ^~~\n"));
}

/// A word is told without control characters and cut where it is long, and an item may be called anything.
#[test]
fn words_that_are_odd() {
    let odd = format!("05 {{word}} PIC \x1b{}.", "Q".repeat(300));
    assert_eq!(sentence(&odd).0, "\\x1b in the picture of {word} is no symbol of a picture");
    let long = format!("{} A.", "X".repeat(300));
    assert_eq!(sentence(&long).0, format!("{}... is no level from 0 to 255", "X".repeat(100)));
}

/// What is behind a refusal is told in the place of the table's words, by the first cause that holds. examples/causes
/// has one of each.
#[test]
fn causes() {
    let says = |text: &[u8], name, said: &str, word| {
        let refusal = refused(text);
        let told = refusal.told(text);
        assert_eq!((refusal.cause.map_or("", |cause| cause.name), told.sentence.as_str()), (name, said));
        assert_eq!(told.word.map_or("", |word| word.word), word);
        assert_eq!((told.word, told.advice), (refusal.word(text), refusal.advice()));
    };
    says(b"01 R. copy A.", "copy", "copy brings in another text, which is not done here", "copy");
    says(b"1 A COMP-6.", "usage", "A has the usage COMP-6, which is not had here, and no picture", "COMP-6");
    says(b"1 A USAGE IS LONG.", "usage", "A has the usage LONG, which is not had here, and no picture", "LONG");
    says(b"1 A USAGE IS.", "", "A has neither a picture nor members", "");
    says(b"1 POINTER INDEX.", "index", "POINTER has the usage INDEX, which is not had here", "INDEX");
    says(b"1 A VALUE 'x' INDEX.", "", "A has neither a picture nor members", "");
    says(b"1 A VALUE ' PIC '.", "", "A has neither a picture nor members", "");
    let behind = "VALUE of A stands before pic, which is not read";
    says(b"1 A VALUES ' PIC ' pic X.", "value-first", behind, "pic");
    says(b"1 A PIC X. 066 B RENAMES A.", "renames", "B is another name for items before it (level 66, RENAMES)", "");
    says(b"1 A PIC X.\n\0", "nul", "a byte 0, NUL, stands where a level is due", "\0");
    says(b"1 A PIC X;.", "semicolon", "a semicolon behind the picture X; of A is read as part of it", "X;");
    says(b"1 A PIC ;X.", "", "; in the picture of A is no symbol of a picture", ";");
    // a cause that isn't all that is wrong is none
    says(b"1 A PIC X9,.", "", "the picture X9, of A mixes text with digits or editing", "X9,");
    says(
        b"1 A PIC X(3),,;.",
        "semicolon",
        "a semicolon behind the picture X(3),,; of A is read as part of it",
        "X(3),,;",
    );
    says(b"1 A PIC X. *> \xe6", "comment", "\u{e6} (0xe6 in Latin-1) stands in a comment", "");
    says(b"1 A PIC X VALUE ' \xe6'.", "literal", "\u{e6} (0xe6 in Latin-1) stands in a literal", "");
    // what else a text is refused for hides nothing: an open literal, a continued card
    says(b"1 A VALUE 'x.\n* \xe6", "comment", "\u{e6} (0xe6 in Latin-1) stands in a comment", "");
    says(b"1 A VALUE '\xe6", "literal", "\u{e6} (0xe6 in Latin-1) stands in a literal", "");
    let cards = b"000100 1 A VALUE 'x\n000200-    'y'.\n000300* \xe6";
    let refusal = copybook::layout_cards(cards).unwrap_err();
    assert_eq!((refusal.number, refusal.cause.map(|cause| cause.name)), (2, Some("comment")));
    // the sentence has the name as it stands, and a mark is one for a character
    let text = "1 M\u{c5}L PIC X.".as_bytes();
    says(text, "name", "\u{c5} (0xc3 0x85 in UTF-8) stands in the name M\u{c5}L", "\u{c5}");
    assert_eq!(refused(text).told(text).excerpt(), "    1 M\u{c5}L PIC X.\n       ^\n");
    let few = copybook::key(b"K", &[b"05 K PIC X."]).unwrap_err().refusal;
    assert_eq!((few.number, few.advice()), (56, "give two to sixteen"));
    let asked = picture(b"X(3),", Usage::Display, None).unwrap_err();
    assert_eq!(asked.told(b"X(3),").sentence, "a comma behind the picture X(3), is read as part of it");
}

/// A text that is no ASCII is known by its bytes, and none of it is shown.
#[test]
fn codings() {
    let copybook = "01 FISH.\n    05 TAG PIC X(9).\n    05 LEN PIC 9(3).\n";
    let little: Vec<u8> = copybook.encode_utf16().flat_map(u16::to_le_bytes).collect();
    let big: Vec<u8> = copybook.encode_utf16().flat_map(u16::to_be_bytes).collect();
    let name = |text: &[u8]| refused(text).cause.map_or("", |cause| cause.name);
    assert_eq!((name(&little), name(&big)), ("utf-16le", "utf-16be"));
    assert_eq!(name(&[b"\xff\xfe", little.as_slice()].concat()), "utf-16");
    assert_eq!(name(&[b"\xfe\xff", big.as_slice()].concat()), "utf-16");
    assert_eq!(name(&[b"\xef\xbb\xbf", copybook.as_bytes()].concat()), "byte-order-mark");
    assert_eq!(refused(&little).told(&little).excerpt(), "");
    // blanks in EBCDIC, then 01 FISH.
    let card = [&[0x40; 72][..], b"\xf0\xf1\x40\xc6\xc9\xe2\xc8\x4b"].concat();
    assert_eq!((name(&card), name(&card[1..])), ("ebcdic-cards", "ebcdic"));
    assert_eq!(name(&[&card[..], b"\x15"].concat()), "ebcdic");
    // names in Latin-1 do not make it that
    assert_eq!(name(b"01 \xc6\xc9\xe2\xc8 PIC X."), "name");
}

/// Every byte over 127 has a `?` in its place.
#[test]
fn any_bytes() {
    let text = "05 M\u{c5}L PIC X. *> \u{e6}".as_bytes();
    assert_eq!(&*copybook::any_bytes(text), b"05 M??L PIC X. *> ??");
    assert_eq!(layout(&copybook::any_bytes(text)).unwrap().entries().next().unwrap().name, Some("M??L"));
    assert!(matches!(copybook::any_bytes(b"05 A PIC X."), std::borrow::Cow::Borrowed(_)));
}

/// File, line and column; the line with the place and the word marked; what to do.
#[test]
fn told_of_a_file() {
    let text = b"01 R.\r\n\t05 TAG  PIC X(5).\r\n\t05 YEAR REDEFINES TAGS PIC 9(4).\r\n";
    let told = refused(text).told(text).of_file("breeding.cpy");
    let expected = "\
breeding.cpy:3:2: no earlier item of this list is called TAGS
    \t05 YEAR REDEFINES TAGS PIC 9(4).
    \t^                 ~~~~
    the target must stand before it, under the same group
";
    assert_eq!(told, expected);
    let text = [b' '; 65_536];
    assert!(refused(&text).told(&text).of_file("x").starts_with("x: the text has more than 65,535 bytes\n    split"));
}

/// A word on a later line has that line shown too; of a long line the part around the place.
#[test]
fn lines_that_are_shown() {
    let text = b"05 A\n   OCCURS MANY.";
    assert_eq!(refused(text).told(text).excerpt(), "    05 A\n    ^\n       OCCURS MANY.\n              ~~~~\n");
    let text = format!("{}05 B PIC Q.{}", "05 A PIC X. ".repeat(9), " 05 A PIC X.".repeat(9));
    let excerpt = refused(text.as_bytes()).told(text.as_bytes()).excerpt();
    let lines: Vec<&str> = excerpt.lines().collect();
    assert!(lines[0].starts_with("    ...") && lines[0].ends_with("...") && lines[0].len() == 110, "{excerpt}");
    let mark = lines[1].find('^').unwrap();
    assert_eq!(&lines[0][mark..mark + 11], "05 B PIC Q.");
    assert_eq!(lines[1].find('~'), Some(mark + 9));
}

// ---------------------------------------------------------------- the table

/// Each refusal can be brought about, and has its name.
#[test]
fn every_number() {
    let seen = [
        refused(&[b' '; 65_536]),
        refused(&[128]),
        lent::layout(b"", &mut [], &mut []).unwrap_err(),
        refused(b"XX A."),
        refused(b"05 A OCCURS."),
        refused(b"05 A OCCURS 1 TO."),
        refused(b"05 A OCCURS 1 DEPENDING."),
        refused("05 A PIC X.\n".repeat(801).as_bytes()),
        refused((1..=67).map(|level| format!("{level} G. ")).collect::<String>().as_bytes()),
        refused(b"05 A."),
        refused(b"05 A PIC X(."),
        refused(b"05 A PIC X()."),
        refused(b"05 A PIC X(65536)."),
        refused(b"05 A PIC Q."),
        refused(b"05 A PIC X9."),
        refused(b"05 A PIC 9(32)."),
        refused(b"05 A REDEFINES B PIC X."),
        refused(b"05 A PIC X OCCURS 2147483648."),
        refused(b"05 A PIC X. 05 B PIC X. 05 B REDEFINES A PIC X. 05 C REDEFINES B PIC X."),
        lent::layout(b"", &mut [0; WORK], &mut []).unwrap_err(),
        owner(b"05 A PIC X. 05 B REDEFINES A PIC X.", 0).unwrap_err(),
        owner(b"05 A PIC X.", 1).unwrap_err(),
        copybook::check_record_len(2, false, 1).unwrap_err(),
        refused(b"05 A PIC X VALUE 'open"),
        copybook::layout_cards(b"000100-").unwrap_err(),
        refused(b"05 A COMP-1 PIC 9."),
        copybook::reasons(b"05 A PIC X.", 1).unwrap_err(),
        copybook::key(b"K", &[]).unwrap_err().refusal,
        copybook::key(b"K", &[b"", b""]).unwrap_err().refusal,
        copybook::extract(b"05 A PIC X.", &[], 1, 1).unwrap_err(),
        copybook::extract(b"05 A PIC X.", &[0], 1, 1).unwrap_err(),
        copybook::extract(b"05 A PIC X.", &[1], 1, 0).unwrap_err(),
    ];
    let expected: Vec<_> = REFUSALS.iter().map(|row| (row.number, row.name)).collect();
    assert_eq!(seen.map(|r| (r.number, r.name)).to_vec(), expected);
}
