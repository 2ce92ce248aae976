//! One key for a family of records: sets, their sizes and lengths, what spoils a key, and which copybook is refused.

use copybook::{key, lent, Key, NoKey, WORK};

const FISH: &[u8] = b"01 FISH. 05 KIND PIC X. 05 REG-NO PIC 9(7). 05 TAG PIC X(5).";
const TANK: &[u8] = b"01 TANK. 05 KIND PIC X. 05 Reg-No PIC 9999999. 05 T PIC X OCCURS 3 DEPENDING ON N.";

fn refused(name: &str, copybooks: &[&str]) -> NoKey {
    let texts: Vec<&[u8]> = copybooks.iter().map(|text| text.as_bytes()).collect();
    key(name.as_bytes(), &texts).unwrap_err()
}

#[track_caller]
fn no_key(name: &str, copybooks: &[&str]) {
    let found = refused(name, copybooks);
    assert_eq!((found.refusal.number, found.refusal.name, found.copybook), (57, "no-key", None));
}

#[test]
fn a_family() {
    assert_eq!(key(b"REG-NO", &[FISH, TANK]), Ok(Key { offset: 1, width: 7 }));
    assert_eq!(key(b"reg-no", &[FISH; 16]), Ok(Key { offset: 1, width: 7 }));
    assert_eq!(key(b"kind", &[TANK, FISH, TANK]), Ok(Key { offset: 0, width: 1 }));
    assert_eq!(key(b"filler", &[b"05 FILLER PIC X.".as_slice(); 2]), Ok(Key { offset: 0, width: 1 }));
}

/// 56 before any reading.
#[test]
fn no_set() {
    let number = |copybooks: &[&[u8]]| key(b"K", copybooks).unwrap_err().refusal.number;
    assert_eq!(number(&[]), 56);
    assert_eq!(number(&[b"\x80"]), 56);
    assert_eq!(number(&[b"\x80".as_slice(); 17]), 56);
    assert_eq!(refused("K", &["05 K PIC X."]).copybook, None);
    let mut work = vec![7; WORK];
    let texts = b"05 K PIC X.05 K PIC X.";
    let of = |lengths: &[u64], work: &mut [u32]| lent::key(texts, lengths, b"K", work);
    assert_eq!(of(&[11, 11], &mut work), Ok(Key { offset: 0, width: 1 }));
    for lengths in [[11, 10], [11, 12], [0, 11], [u64::MAX, 23], [23, u64::MAX]] {
        assert_eq!(of(&lengths, &mut work).unwrap_err().refusal.number, 56);
        assert_eq!(of(&lengths, &mut []).unwrap_err().refusal.number, 56);
    }
    let refused = of(&[11, 11], &mut work[1..]).unwrap_err();
    assert_eq!((refused.refusal.number, refused.copybook), (3, Some(0)));
    assert!(work[1..].iter().all(|&n| n == 0));
}

/// The first copybook that is refused, with its place in it; 57 comes after all are read.
#[test]
fn refused_by_the_reader() {
    let found = refused("K", &["05 K PIC X.", "05 L PIC X.", "01 R.\n  05 K PIC Q."]);
    let refusal = found.refusal;
    assert_eq!((refusal.number, refusal.position, refusal.line, refusal.column), (25, 8, 2, 3));
    assert_eq!(found.copybook, Some(2));
    let said = "copybook 2: refused 25 (picture-symbol): a symbol that no picture has, line 2 column 3";
    assert_eq!(found.to_string(), said);
    assert_eq!(refused("K", &["05 K PIC Q.", "05 K."]).copybook, Some(0));
    let long = " ".repeat(65_536);
    assert_eq!(refused("K", &["05 K PIC X.", &long]).refusal.number, 1);
}

#[test]
fn spoilt() {
    no_key("K", &["05 K PIC X.", "05 L PIC X."]);
    no_key("K", &["05 K PIC X.", ""]);
    for text in [
        "05 K PIC X. 05 k PIC X.",
        "01 R. 05 G. 10 K PIC X.",
        "05 K. 10 A PIC X.",
        "05 K PIC X OCCURS 1.",
        "05 K PIC X. 05 B REDEFINES K PIC X.",
        "01 R. 05 A PIC X. 05 B REDEFINES A PIC X. 05 K REDEFINES B PIC X.",
        "05 T PIC X OCCURS 2 DEPENDING ON N. 05 K PIC X.",
        "05 G. 10 T PIC X OCCURS 2 DEPENDING ON N. 05 K PIC X.",
    ] {
        no_key("K", &[text, text]);
    }
    no_key("", &["05 FILLER PIC X."; 2]);
    no_key("\u{ff}", &["05 K PIC X."; 2]);
    no_key(&"K".repeat(70_000), &["05 K PIC X."; 2]);
}

/// All agree in offset, width, kind and kind details; an edited key in its mask.
#[test]
fn agreement() {
    for other in ["05 A PIC X. 05 K PIC Z99.", "05 K PIC ZZ99.", "05 K PIC X(3).", "05 K PIC ZZ9.", "05 K PIC 9(3)."] {
        no_key("K", &["05 K PIC Z99.", other]);
    }
    let edited: [&[u8]; 2] = [b"05 K PIC Z99.", b"01 RECORD.\n 05 K PIC z9(2)."];
    assert_eq!(key(b"K", &edited), Ok(Key { offset: 0, width: 3 }));
    assert_eq!(key(b"K", &[b"05 K PIC 9 COMP.", b"05 K PIC ZZ9 COMP."]), Ok(Key { offset: 0, width: 2 }));
    no_key("K", &["05 K PIC 9 COMP.", "05 K PIC S9 COMP."]);
}
