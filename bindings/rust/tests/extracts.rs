//! Extracts that fit: the choice, how many subsets were looked at, how far off, and the refusals in their order.

use copybook::{extract, lent, Extract, ALL_SUBSETS, MOST_ITEMS, WORK};

/// Its items reserve 5, 2 and 12 bytes.
const FISH: &[u8] = b"01 FISH. 05 TAG PIC X(5). 05 SIRE PIC 9(4) COMP SYNC. 05 WT OCCURS 3 PIC 9(3)V9.";

fn chosen(subset: u64, weight: u64, examined: u64, off: u64) -> Extract {
    Extract { subset, weight, examined, off }
}

#[test]
fn the_heaviest_that_fits() {
    for (limit, budget, expected) in [
        (19, 8, chosen(7, 17, 8, 0)),
        (18, 8, chosen(5, 14, 8, 0)),
        (14, ALL_SUBSETS, chosen(6, 12, 8, 0)),
        (13, 8, chosen(4, 9, 8, 0)),
        (1, 8, chosen(0, 0, 8, 0)),
        (u64::MAX, u64::MAX, chosen(7, 17, 8, 0)),
        (19, 7, chosen(5, 14, 7, 3)),
        (14, 1, chosen(0, 0, 1, 17)),
        (12, 3, chosen(1, 5, 3, 12)),
        (11, 3, chosen(1, 5, 3, 3)),
    ] {
        assert_eq!(extract(FISH, &[5, 3, 9], limit, budget), Ok(expected), "{limit} {budget}");
    }
    // the earliest if equal
    assert_eq!(extract(FISH, &[4, 5, 9], 13, 8), Ok(chosen(3, 9, 8, 0)));
    let found = extract(FISH, &[5, 3, 9], 14, 8).unwrap();
    assert_eq!([0, 1, 2, 3, 64, 1000].map(|item| found.has(item)), [false, true, true, false, false, false]);
    // without items there is one subset
    assert_eq!(extract(b"", &[], 0, 1), Ok(chosen(0, 0, 1, 0)));
}

/// A copybook of that many items of one byte.
fn bytes(items: usize) -> Vec<u8> {
    (0..items).map(|i| format!("05 I{i} PIC X.\n")).collect::<String>().into_bytes()
}

#[test]
fn up_to_16_items() {
    let weights: Vec<u32> = (0..MOST_ITEMS as u32).map(|i| 1000 - i).collect();
    let all: u64 = weights.iter().map(|&w| u64::from(w)).sum();
    let text = bytes(MOST_ITEMS);
    assert_eq!(extract(&text, &weights, 16, ALL_SUBSETS), Ok(chosen(65_535, all, 65_536, 0)));
    assert_eq!(extract(&text, &weights, 16, ALL_SUBSETS - 1), Ok(chosen(32_767, all - 985, 65_535, 985)));
    assert_eq!(extract(&text, &weights, 1, ALL_SUBSETS), Ok(chosen(1, 1000, 65_536, 0)));
    let many = vec![1; MOST_ITEMS + 1];
    assert_eq!(extract(&bytes(MOST_ITEMS + 1), &many, 16, 1).unwrap_err().number, 58);
}

/// The largest record, and an item that stands 0 times.
#[test]
fn wide_items() {
    let text = b"5 A PIC X OCCURS 2147483647. 5 B PIC X OCCURS 0.";
    assert_eq!(extract(text, &[1, 1], 2_147_483_647, 4), Ok(chosen(3, 2, 4, 0)));
    assert_eq!(extract(text, &[1, 1], 2_147_483_646, 4), Ok(chosen(2, 1, 4, 0)));
}

#[test]
fn refusals_in_their_order() {
    let number = |text: &[u8], weights: &[u32], budget| extract(text, weights, 9, budget).unwrap_err().number;
    assert_eq!(number(b"5 A PIC X9. 5 B REDEFINES A PIC X.", &[], 0), 26);
    assert_eq!(number(b"5 A PIC X. 5 B REDEFINES A PIC X.", &[], 0), 40);
    assert_eq!(number(b"5 A PIC X. 5 B. 10 C OCCURS 2 DEPENDING ON A PIC X.", &[], 0), 40);
    assert_eq!(number(FISH, &[0, 1001], 0), 58);
    assert_eq!(number(FISH, &[1, 1, 1, 1], 1), 58);
    assert_eq!(number(FISH, &[1, 1, 0], 0), 59);
    assert_eq!(number(FISH, &[1001, 1, 1], 1), 59);
    assert_eq!(number(FISH, &[1, 1000, 1], 0), 60);
    assert_eq!(number(b"", &[], 0), 60);
    let refusal = extract(FISH, &[1, 1], 9, 9).unwrap_err();
    assert_eq!((refusal.name, refusal.position, refusal.line, refusal.needed), ("extract-items", 0, 0, 0));
}

#[test]
fn work_memory_is_zero_after_every_call() {
    for (weights, expected) in [(&[5, 3, 9][..], None), (&[5, 3], Some(58)), (&[5, 3, 0], Some(59))] {
        let mut work = vec![7; WORK];
        assert_eq!(lent::extract(FISH, weights, 14, 8, &mut work).err().map(|r| r.number), expected);
        assert!(work.iter().all(|&n| n == 0));
    }
    let mut short = vec![7; WORK - 1];
    assert_eq!(lent::extract(FISH, &[5, 3, 9], 14, 8, &mut short).unwrap_err().number, 3);
    assert!(short.iter().all(|&n| n == 0));
}
