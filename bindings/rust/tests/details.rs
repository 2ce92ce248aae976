//! Details of entries: the worked example, folds, groups, places that pass 32 bits, and lent buffers.

use copybook::{details, layout_and_details, lent, Detail, Reader, Record, SignClause, Word, LONGEST_DETAILS, WORK};

const FISH: &[u8] = b"01 FISH. 05 TAG PIC X(5). 05 SIRE PIC 9(4) COMP SYNC. 05 WT OCCURS 3 PIC 9(3)V9.";

fn at(start: usize, word: &str) -> Option<Word<'_>> {
    Some(Word { start, word })
}

const PLAIN: Detail = Detail {
    position: 0,
    level: 5,
    depth: 0,
    folded: false,
    below: 0,
    first: 0,
    slack: 0,
    picture: None,
    redefines: None,
    depending_on: None,
    slack_at_end: 0,
    digits: 0,
    after_point: 0,
    signed: false,
    usage: None,
    sign: None,
};

#[test]
fn worked_example() {
    let tag = Detail { position: 9, picture: at(20, "X(5)"), ..PLAIN };
    let usage = at(43, "COMP");
    let sire = Detail { position: 26, first: 6, slack: 1, picture: at(38, "9(4)"), digits: 4, usage, ..PLAIN };
    let wt = Detail { position: 54, first: 8, picture: at(73, "9(3)V9"), digits: 4, after_point: 1, ..PLAIN };
    let found = details(FISH).unwrap();
    assert_eq!(found.iter().collect::<Vec<_>>(), [tag, sire, wt]);
    assert_eq!(found.record(), Some(Record { position: 0, level: 1, name: at(3, "FISH") }));
    assert_eq!(found.bytes().len(), 17 + 3 * 63);
}

/// The bytes of the head, one by one.
#[test]
fn bytes_of_the_head() {
    let head = |text: &[u8]| details(text).unwrap().bytes()[..17].to_vec();
    let mut row = vec![0, 0, 0, 0, 1, 3, 0, 0, 0, 4, 0, 0, 0];
    row.extend([3, 0, 0, 0]);
    assert_eq!(head(FISH), row);
    assert_eq!(head(b" 02. 5 A PIC X. 5 B PIC X."), [1, 0, 0, 0, 2, 0, 0, 0, 0, 0, 0, 0, 0, 2, 0, 0, 0]);
    assert_eq!(head(b"1 R PIC X. 1 S. 5 A PIC X."), [&[0; 13][..], &[3, 0, 0, 0]].concat());
}

/// A record is a root with members, the only one.
#[test]
fn records() {
    let record = |text: &'static [u8]| details(text).unwrap().record();
    assert_eq!(record(b"\n 02 X. 5 A PIC X."), Some(Record { position: 2, level: 2, name: at(5, "X") }));
    assert_eq!(record(b"01. 5 A PIC X."), Some(Record { position: 0, level: 1, name: None }));
    assert_eq!(record(b"01 A PIC X."), None);
    assert_eq!(record(b"01 A. 5 B PIC X. 01 C PIC X."), None);
    assert_eq!(record(b""), None);
}

/// The bytes of the second entry, one by one.
#[test]
fn bytes_of_an_entry() {
    let mut row = vec![26, 0, 0, 0, 5, 0, 0];
    row.extend([0, 0, 0, 0]);
    row.extend([6, 0, 0, 0, 0, 0, 0, 0]);
    row.extend([1, 0, 0, 0]);
    row.extend([38, 0, 0, 0, 4, 0, 0, 0]);
    row.extend([0; 16]);
    row.extend([0, 0, 0, 0, 4, 0, 0]);
    row.extend([43, 0, 0, 0, 4, 0, 0, 0]);
    row.push(0);
    assert_eq!(details(FISH).unwrap().bytes()[17 + 63..17 + 2 * 63], row);
}

/// A group made by folding has its base's position and level; the base keeps its slack, a redefiner its REDEFINES.
#[test]
fn folded() {
    let found = details(b"05 A PIC X. 05 B PIC 9(4) COMP SYNC. 05 C REDEFINES B PIC X.").unwrap();
    let expected = [
        Detail { picture: at(9, "X"), ..PLAIN },
        Detail { position: 12, folded: true, below: 2, first: 2, ..PLAIN },
        Detail {
            position: 12,
            depth: 1,
            first: 2,
            slack: 1,
            picture: at(21, "9(4)"),
            digits: 4,
            usage: at(26, "COMP"),
            ..PLAIN
        },
        Detail { position: 37, depth: 1, first: 2, picture: at(58, "X"), redefines: at(52, "B"), ..PLAIN },
    ];
    assert_eq!(found.iter().collect::<Vec<_>>(), expected);
}

/// A redefiner of a redefiner stands at the top, over the same bytes.
#[test]
fn redefiner_of_a_redefiner() {
    let found = details(b"05 A PIC X. 05 B REDEFINES A PIC X. 05 C REDEFINES B PIC X.").unwrap();
    let last = found.get(3).unwrap();
    assert_eq!((last.depth, last.first, last.redefines), (0, 0, at(51, "B")));
    assert_eq!(found.get(4), None);
}

/// Levels as they are written, entries below at any depth, and places that add up over the groups.
#[test]
fn groups() {
    let text = b"01 R. 05 K PIC X(3). 05 G OCCURS 2. 10 A PIC X. 10 H. +15 B PIC 99. 10 C PIC X. 77 Z PIC X.";
    let found = details(text).unwrap();
    let seen: Vec<_> = found.iter().map(|d| (d.level, d.depth, d.below, d.first)).collect();
    assert_eq!(
        seen,
        [(5, 0, 0, 0), (5, 0, 5, 3), (10, 1, 0, 3), (10, 1, 1, 4), (15, 2, 0, 4), (10, 1, 1, 6), (77, 2, 0, 6)]
    );
}

/// DEPENDING ON, and a picture that a group has for nothing.
#[test]
fn words_of_the_statement() {
    let found = details(b"05 N PIC 9. 05 T OCCURS 1 TO 5 DEPENDING ON N PIC X. 10 A PIC X.").unwrap();
    let table = found.get(1).unwrap();
    assert_eq!((table.depending_on, table.picture, table.below), (at(44, "N"), at(50, "X"), 1));
}

/// Slack at the end of each occurrence of a group with OCCURS: its width is a multiple of the largest alignment in it.
#[test]
fn slack_at_an_end() {
    let ends = |text: &'static str| -> Vec<(usize, usize)> {
        details(text.as_bytes()).unwrap().iter().map(|d| (d.slack, d.slack_at_end)).collect()
    };
    assert_eq!(ends("01 R. 05 G OCCURS 2. 10 A PIC 9 COMP SYNC. 10 B PIC X."), [(0, 1), (0, 0), (0, 0)]);
    assert_eq!(ends("01 R. 05 A PIC X. 05 G OCCURS 0. 10 B COMP-2 SYNC."), [(0, 0), (0, 1), (7, 0)]);
    assert_eq!(ends("01 R. 05 G. 10 A PIC 9 COMP SYNC. 10 B PIC X."), [(0, 0); 3]);
}

/// The word of the usage that holds: the last of its own, or that of the nearest group above that names one.
#[test]
fn usages() {
    let text = b"01 R COMP-5. 05 A PIC 9. 05 G DISPLAY. 10 B PIC 9. 10 C Binary PIC 9 comp. 05 D PIC X.";
    let found = details(text).unwrap();
    let words: Vec<_> = found.iter().map(|d| d.usage.map_or("", |word| word.word)).collect();
    assert_eq!(words, ["COMP-5", "DISPLAY", "DISPLAY", "comp", "COMP-5"]);
    assert_eq!(details(b"05 A PIC 9 USAGE IS. 05 B PIC 9.").unwrap().get(0).unwrap().usage, None);
}

/// What SIGN says, which is not inherited; and digits of every number.
#[test]
fn numbers() {
    let said = |clause: &str| {
        let text = format!("05 A PIC S9(5)V99 {clause}. 05 B PIC X.");
        let found = details(text.as_bytes()).unwrap();
        let detail = found.get(0).unwrap();
        assert_eq!((detail.digits, detail.after_point, detail.signed), (7, 2, true));
        detail.sign
    };
    assert_eq!(said(""), None);
    assert_eq!(said("SIGN"), Some(SignClause::Trailing));
    assert_eq!(said("SIGN IS LEADING COMP-3"), Some(SignClause::Leading));
    assert_eq!(said("SIGN TRAILING SEPARATE"), Some(SignClause::SeparateTrailing));
    assert_eq!(said("COMP SIGN LEADING SEPARATE CHARACTER"), Some(SignClause::SeparateLeading));
    let digits = |picture: &str| {
        let text = format!("05 A PIC {picture}.");
        let found = details(text.as_bytes()).unwrap();
        found.get(0).map(|d| (d.digits, d.after_point, d.signed))
    };
    assert_eq!(digits("9PPP"), Some((4, 3, false)));
    assert_eq!(digits("-(3).99"), Some((4, 2, true)));
    assert_eq!(digits("$"), Some((1, 0, false)));
    assert_eq!(digits("X(3)"), Some((0, 0, false)));
}

/// Groups of OCCURS 0 may hold offsets of any size: the place in the record passes 32 bits.
#[test]
fn places_past_32_bits() {
    let group = |level: usize| format!("{level:02} F{level} PIC X OCCURS 2000000000. {level:02} G{level} OCCURS 0. ");
    let text: String = (1..=4).map(group).collect::<String>() + "10 LAST PIC X.";
    let (layout, found) = layout_and_details(text.as_bytes()).unwrap();
    assert_eq!(layout.record_len(), 2_000_000_000);
    assert_eq!(found.iter().last().unwrap().first, 8_000_000_000);
}

#[test]
fn empty_copybook() {
    let found = details(b"").unwrap();
    assert_eq!((found.len(), found.is_empty(), found.bytes()), (0, true, &[0; 17][..]));
}

/// Refusals are the layout's; an output that is too short is refused with the length that it needs, and left alone.
#[test]
fn refused() {
    assert_eq!(details(b"05 A PIC X.\n05 B.").unwrap_err(), copybook::layout(b"05 A PIC X.\n05 B.").unwrap_err());
    let mut out = [0xa5; 206];
    let mut work = vec![7; WORK];
    let r = lent::details(FISH, &mut work, &mut out[..205]).unwrap_err();
    assert_eq!((r.number, r.needed), (31, 206));
    assert_eq!(out, [0xa5; 206]);
    assert!(work.iter().all(|&n| n == 0));
    assert_eq!(lent::details(FISH, &mut work, &mut out).unwrap().len(), 3);
    assert_eq!(lent::details(FISH, &mut work[1..], &mut out).unwrap_err().number, 3);
}

/// The most entries: every second statement redefines the one before it.
#[test]
fn longest() {
    let text = "05 A PIC X. 05 B REDEFINES A PIC X.\n".repeat(400);
    let mut reader = Reader::new();
    let (layout, found) = reader.layout_and_details(text.as_bytes()).unwrap();
    assert_eq!((layout.entries().count(), found.len(), found.bytes().len()), (1200, 1200, LONGEST_DETAILS));
    assert_eq!(reader.details(FISH).unwrap(), details(FISH).unwrap());
}
