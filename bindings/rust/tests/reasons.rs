//! The reasons of an entry's place: the worked example, nested groups, redefiners, folds, names that are absent, sums,
//! and lent buffers.

use copybook::{details, lent, reasons, reasons_cards, Reader, Reason, Word, LONGEST_REASONS, WORK};

const FISH: &[u8] = b"01 FISH. 05 TAG PIC X(5). 05 SIRE PIC 9(4) COMP SYNC. 05 WT OCCURS 3 PIC 9(3)V9.";

fn at(start: usize, word: &str) -> Option<Word<'_>> {
    Some(Word { start, word })
}

fn of(text: &[u8], entry: usize) -> Vec<Reason<'_>> {
    reasons(text, entry).unwrap().iter().collect()
}

#[test]
fn worked_example() {
    assert_eq!(of(FISH, 0), [Reason::First]);
    assert_eq!(of(FISH, 1), [Reason::After { name: at(12, "TAG"), end: 5 }, Reason::Slack { bytes: 1 }]);
    assert_eq!(of(FISH, 2), [Reason::After { name: at(29, "SIRE"), end: 8 }]);
    let bytes = [[2, 12, 0, 0, 0, 3, 0, 0, 0, 5, 0, 0, 0], [3, 0, 0, 0, 0, 0, 0, 0, 0, 1, 0, 0, 0]].concat();
    assert_eq!(reasons(FISH, 1).unwrap().bytes(), bytes);
}

/// Groups outward, each with its own reasons; the dropped root gives none.
#[test]
fn nested() {
    let text = b"01 R. 05 A PIC X(3). 05 G. 10 B PIC X. 10 H OCCURS 2. 15 C PIC X. 15 D PIC 9(4) COMP SYNC.";
    let expected = [
        Reason::After { name: at(57, "C"), end: 1 },
        Reason::Slack { bytes: 1 },
        Reason::Inside { name: at(42, "H") },
        Reason::After { name: at(30, "B"), end: 1 },
        Reason::Inside { name: at(24, "G") },
        Reason::After { name: at(9, "A"), end: 3 },
    ];
    assert_eq!(of(text, 5), expected);
    assert_eq!(reasons(text, 5).unwrap().sum(), 6);
}

/// A redefiner of a redefiner names that by its own name; an item after redefiners names the one before them.
#[test]
fn redefiners() {
    let text = b"05 A PIC X. 05 B PIC X(4). 05 C REDEFINES B PIC X(2). 05 D REDEFINES c PIC X(9). 05 E PIC X.";
    assert_eq!(of(text, 4), [Reason::Over { name: at(30, "C"), offset: 1 }]);
    assert_eq!(of(text, 5), [Reason::After { name: at(15, "B"), end: 5 }]);
    // the folded group of B has B's reasons
    assert_eq!(of(text, 1), of(text, 2));
}

#[test]
fn without_a_name() {
    let text = b"05. 10 A PIC X. 05 FILLER PIC X(2). 05 B REDEFINES FILLER PIC X.";
    assert_eq!(of(text, 1), [Reason::First, Reason::Inside { name: None }, Reason::First]);
    assert_eq!(of(text, 2), [Reason::After { name: None, end: 1 }]);
    assert_eq!(of(text, 4), [Reason::Over { name: at(19, "FILLER"), offset: 1 }]);
}

/// Added up the reasons are the first byte that the details have, past 32 bits too.
#[test]
fn sums() {
    let far = b"05 P PIC X(2) OCCURS 1000000000. 05 G OCCURS 0. 10 P PIC X(2) OCCURS 1000000000. \
        10 H OCCURS 0 TO 1 DEPENDING ON N. 15 P PIC X(2) OCCURS 1000000000. 15 Q PIC X.";
    for text in [FISH, far] {
        for (entry, detail) in details(text).unwrap().iter().enumerate() {
            assert_eq!(reasons(text, entry).unwrap().sum(), detail.first);
        }
    }
    assert_eq!(reasons(far, 5).unwrap().sum(), 6_000_000_000);
}

/// 64 groups around an item with slack are the longest chain.
#[test]
fn longest() {
    let mut text = String::from("001 R.");
    for level in 0..64 {
        text += &format!(" {} G PIC X.", level + 2).replace(" PIC X.", ".");
    }
    text += " 100 A PIC X. 100 B PIC 9(4) COMP SYNC.";
    let found = reasons(text.as_bytes(), 65).unwrap();
    assert_eq!(found.bytes().len(), LONGEST_REASONS);
}

#[test]
fn cards() {
    let text = b"000010 05 TAG PIC X.\n000020* no\n000030 05 SIRE PIC 9(4) COMP SYNC.";
    let found: Vec<Reason> = reasons_cards(text, 1).unwrap().iter().collect();
    assert_eq!(found, [Reason::After { name: at(10, "TAG"), end: 1 }, Reason::Slack { bytes: 1 }]);
    assert_eq!(reasons_cards(b"000010-", 0).unwrap_err().number, 51);
}

/// 53 past the listing, after the reader's refusals and before 31; a refusal leaves the output as it was.
#[test]
fn refused() {
    assert_eq!(reasons(FISH, 3).unwrap_err().number, 53);
    assert_eq!(reasons(b"", 0).unwrap_err().number, 53);
    assert_eq!(reasons(b"05 PIC X.", 9).unwrap_err().number, 21);
    let (mut work, mut out) = (vec![7; WORK], [9; 26]);
    assert_eq!(lent::reasons(FISH, 3, &mut work, &mut []).unwrap_err().number, 53);
    let refusal = lent::reasons(FISH, 1, &mut work, &mut out[..25]).unwrap_err();
    assert_eq!((refusal.number, refusal.needed), (31, 26));
    assert_eq!(out, [9; 26]);
    assert!(work.iter().all(|&n| n == 0));
    assert_eq!(lent::reasons(FISH, 1, &mut work, &mut out).unwrap().sum(), 6);
}

#[test]
fn reader() {
    let mut reader = Reader::new();
    assert_eq!(reader.reasons(FISH, 1).unwrap().sum(), 6);
    assert_eq!(reader.reasons(FISH, 2).unwrap().sum(), 8);
}
