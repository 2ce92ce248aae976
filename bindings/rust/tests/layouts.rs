//! Layouts: the worked example in full, each kind, groups and folds, and the examples of the repository.

use copybook::{layout, owner, reasons, Entry, FieldKind, Layout, NumRepr, Owner, Reader, Reason, Refusal, SignKind};
use std::fs;

const FISH: &[u8] = b"01 FISH. 05 TAG PIC X(5). 05 SIRE PIC 9(4) COMP SYNC. 05 WT OCCURS 3 PIC 9(3)V9.";

fn four(n: u32) -> [u8; 4] {
    n.to_le_bytes()
}

/// The 38 bytes that every entry starts with, for one without DEPENDING ON and REDEFINES.
fn start(kind: u8, name: [u32; 2], offset: u32, width: u32, occurs: (u8, u32)) -> Vec<u8> {
    let mut b = vec![kind];
    for n in [name[0], name[1], offset, width] {
        b.extend(four(n));
    }
    b.push(occurs.0);
    b.extend(four(occurs.1));
    b.extend([0; 16]);
    b
}

#[test]
fn worked_example_listing() {
    let mut expected = vec![0];
    expected.extend(four(20));
    expected.push(0);
    expected.extend(four(3));
    expected.extend(start(1, [12, 3], 0, 5, (0, 0)));
    expected.extend(start(3, [29, 4], 6, 2, (0, 0)));
    expected.push(0);
    expected.extend(start(4, [57, 2], 8, 4, (1, 3)));
    expected.extend([4, 1, 0, 0]);
    let found = layout(FISH).unwrap();
    assert_eq!(found.listing().len(), 129);
    assert_eq!(found.listing(), expected);
}

#[test]
fn worked_example_entries() {
    let found = layout(FISH).unwrap();
    assert_eq!((found.record_len(), found.variable(), found.top_len()), (20, false, 3));
    let plain = Entry {
        number: 0,
        depth: 0,
        name: Some("TAG"),
        offset: 0,
        width: 5,
        kind: FieldKind::Text,
        occurs: None,
        depending_on: None,
        redefines: None,
    };
    let binary = FieldKind::Binary { signed: false };
    let sire = Entry { number: 1, name: Some("SIRE"), offset: 6, width: 2, kind: binary, ..plain };
    let decimal = FieldKind::Decimal { precision: 4, scale: 1, repr: NumRepr::Display, sign: SignKind::Unsigned };
    let wt = Entry { number: 2, name: Some("WT"), offset: 8, width: 4, kind: decimal, occurs: Some(3), ..plain };
    assert_eq!(found.entries().collect::<Vec<_>>(), [plain, sire, wt]);
    assert_eq!(wt.reserved_width(), 12);
}

/// The kind and width of the only entry of a copybook.
fn only(text: &str) -> (FieldKind<'_>, usize) {
    let found = layout(text.as_bytes()).unwrap();
    let entries: Vec<Entry> = found.entries().collect();
    assert_eq!(entries.len(), 1, "{text}");
    (entries[0].kind, entries[0].width)
}

#[test]
fn each_kind() {
    use SignKind::*;
    assert_eq!(only("05 A PIC X(7)."), (FieldKind::Text, 7));
    assert_eq!(only("05 A PIC 9(4)."), (FieldKind::Int { signed: false, sign: Unsigned }, 4));
    assert_eq!(
        only("05 A PIC S9(4) SIGN LEADING SEPARATE."),
        (FieldKind::Int { signed: true, sign: LeadingSeparate }, 5)
    );
    assert_eq!(
        only("05 A PIC S9(4) SIGN TRAILING SEPARATE."),
        (FieldKind::Int { signed: true, sign: TrailingSeparate }, 5)
    );
    assert_eq!(only("05 A PIC 9(10) COMP."), (FieldKind::Binary { signed: false }, 8));
    assert_eq!(only("05 A PIC S9(9) BINARY."), (FieldKind::Binary { signed: true }, 4));
    let decimal = |precision, scale, repr, sign| FieldKind::Decimal { precision, scale, repr, sign };
    assert_eq!(only("05 A PIC 9(3)V99."), (decimal(5, 2, NumRepr::Display, Unsigned), 5));
    assert_eq!(only("05 A PIC S9(4)."), (decimal(4, 0, NumRepr::Zoned, Embedded), 4));
    assert_eq!(only("05 A PIC S9(3)V99 COMP-3."), (decimal(5, 2, NumRepr::Comp3, Embedded), 3));
    assert_eq!(only("05 A PIC S9(3)V99."), (decimal(5, 2, NumRepr::Zoned, Embedded), 5));
    let edited = |precision, scale, signed, picture| FieldKind::Edited { precision, scale, signed, picture };
    assert_eq!(only("05 A PIC ZZ9.99."), (edited(5, 2, false, "ZZ9.99"), 6));
    assert_eq!(only("05 A PIC z(3)9cr."), (edited(4, 0, true, "z(3)9cr"), 6));
}

#[test]
fn group_with_members() {
    let text = b"05 G OCCURS 2. 10 B PIC XX. 10 H. 15 A PIC X. 15 FILLER PIC 99. 10 C PIC X. 05 Z PIC X.";
    let found = layout(text).unwrap();
    let places: Vec<_> = found.entries().map(|e| (e.number, e.depth, e.name.unwrap(), e.offset, e.width)).collect();
    assert_eq!(
        places,
        [
            (0, 0, "G", 0, 6),
            (1, 1, "B", 0, 2),
            (2, 1, "H", 2, 3),
            (3, 2, "A", 0, 1),
            (4, 2, "FILLER", 1, 2),
            (5, 1, "C", 5, 1),
            (6, 0, "Z", 12, 1),
        ]
    );
    let members: Vec<_> = found.entries().map(|e| e.kind).filter(|k| matches!(k, FieldKind::Group { .. })).collect();
    assert_eq!(members, [FieldKind::Group { members: 3 }, FieldKind::Group { members: 2 }]);
    assert_eq!((found.record_len(), found.top_len()), (13, 2));
}

#[test]
fn absent_name() {
    let found = layout(b"05 A PIC X. 05. 10 B PIC X.").unwrap();
    let names: Vec<_> = found.entries().map(|e| (e.name, e.offset)).collect();
    assert_eq!(names, [(Some("A"), 0), (None, 1), (Some("B"), 0)]);
}

#[test]
fn empty_copybook() {
    let found = layout(b"").unwrap();
    assert_eq!(
        (found.listing().len(), found.record_len(), found.variable(), found.entries().count()),
        (10, 0, false, 0)
    );
}

/// Depth, name, offset and width.
fn outline<'t>(found: &Layout<'t, '_>) -> Vec<(usize, &'t str, usize, usize)> {
    found.entries().map(|e| (e.depth, e.name.unwrap(), e.offset, e.width)).collect()
}

/// A member that names no usage has that of the nearest group above it that does, a dropped root included; a usage of
/// its own holds, and DISPLAY takes the group's back.
#[test]
fn usages_on_groups() {
    let text = b"01 R COMP. 05 A PIC 9(5). 05 G COMP-3. 10 B PIC 9(5). 10 C PIC 9(5) DISPLAY. 05 D PIC X.";
    let found = layout(text).unwrap();
    let places = [(0, "A", 0, 4), (0, "G", 4, 8), (1, "B", 0, 3), (1, "C", 3, 5), (0, "D", 12, 1)];
    assert_eq!(outline(&found), places);
    let kinds: Vec<_> = found.entries().map(|e| e.kind).collect();
    let int = FieldKind::Int { signed: false, sign: SignKind::Unsigned };
    let (precision, scale, repr, sign) = (5, 0, NumRepr::Comp3, SignKind::Embedded);
    let packed = FieldKind::Decimal { precision, scale, repr, sign };
    let binary = FieldKind::Binary { signed: false };
    assert_eq!(kinds, [binary, FieldKind::Group { members: 2 }, packed, int, FieldKind::Text]);
    // after the group its usage holds no more; alignment is by the usage that holds
    let found = layout(b"05 G COMP. 10 A PIC X. 10 B PIC 9(5) SYNC. 05 C PIC 9(5) SYNC.").unwrap();
    assert_eq!(outline(&found), [(0, "G", 0, 8), (1, "A", 0, 1), (1, "B", 4, 4), (0, "C", 8, 5)]);
    // of several usage words the last holds
    assert_eq!(only("05 A COMP PIC 9(4) USAGE IS DISPLAY."), (int, 4));
    assert_eq!(only("05 A DISPLAY PIC 9(4) COMP."), (binary, 2));
}

/// COMP-1 and COMP-2 are floats, which have no picture; SYNC aligns them to their width, and members of a group take
/// them as any usage.
#[test]
fn floats() {
    let (single, double) = (FieldKind::Float { bits: 32 }, FieldKind::Float { bits: 64 });
    assert_eq!(only("05 A COMP-1."), (single, 4));
    assert_eq!(only("05 A USAGE IS COMPUTATIONAL-2."), (double, 8));
    assert_eq!(only("05 A PIC X COMP-2 PIC."), (double, 8));
    let found = layout(b"05 A PIC X. 05 B COMP-1 SYNC. 05 C PIC X. 05 D COMP-2 SYNC OCCURS 2.").unwrap();
    assert_eq!(outline(&found), [(0, "A", 0, 1), (0, "B", 4, 4), (0, "C", 8, 1), (0, "D", 16, 8)]);
    assert_eq!(found.record_len(), 32);
    let found = layout(b"01 R COMP-2. 05 G. 10 A. 10 B PIC 9(4) COMP. 05 C.").unwrap();
    assert_eq!(outline(&found), [(0, "G", 0, 10), (1, "A", 0, 8), (1, "B", 8, 2), (0, "C", 10, 8)]);
    // 52 for a picture, in the place of 21
    let number = |text: &str| layout(text.as_bytes()).unwrap_err().number;
    assert_eq!(number("05 A COMP-1 PIC 9."), 52);
    assert_eq!(number("01 R COMP-2. 05 A PIC X."), 52);
    assert_eq!(number("05 A. 05 B COMP-1 PIC X."), 21);
    // slack before an aligned float has its owner and its reason
    let text = b"05 A PIC X. 05 B COMP-2 SYNC.";
    assert_eq!(owner(text, 7), Ok(Owner::Slack { entry: 1 }));
    let told = reasons(text, 1).unwrap();
    assert!(told.iter().any(|r| r == Reason::Slack { bytes: 7 }), "{told:?}");
}

/// A base and its redefiners are members of a group of the base's name, as wide as the widest of them.
#[test]
fn base_and_redefiner() {
    let found = layout(b"05 A PIC X(2). 05 B REDEFINES A PIC X(5). 05 C PIC X.").unwrap();
    assert_eq!(outline(&found), [(0, "A", 0, 5), (1, "A", 0, 2), (1, "B", 0, 5), (0, "C", 2, 1)]);
    assert_eq!(found.record_len(), 5);
    assert!(found.entries().all(|e| e.redefines.is_none()));
}

/// A redefiner of a group with a member of its own name becomes one more member of it; a redefiner of a redefiner stays
/// where it is and says so.
#[test]
fn odd_folds() {
    let found = layout(b"05 A. 10 A PIC X. 10 B PIC X. 05 C REDEFINES A PIC X(5).").unwrap();
    assert_eq!(outline(&found), [(0, "A", 0, 5), (1, "A", 0, 1), (1, "B", 1, 1), (1, "C", 0, 5)]);
    let found = layout(b"05 A PIC X. 05 B REDEFINES A PIC X. 05 C REDEFINES B PIC X.").unwrap();
    assert_eq!(outline(&found), [(0, "A", 0, 1), (1, "A", 0, 1), (1, "B", 0, 1), (0, "C", 0, 1)]);
    assert_eq!(found.entries().last().unwrap().redefines, Some("B"));
}

#[test]
fn variable_record() {
    let found = layout(b"05 N PIC 9(2). 05 T OCCURS 1 TO 5 DEPENDING ON N PIC X(3). 05 Z PIC X.").unwrap();
    assert_eq!((found.record_len(), found.variable()), (3, true));
    let t = found.entries().nth(1).unwrap();
    assert_eq!((t.name, t.offset, t.width, t.occurs, t.depending_on), (Some("T"), 2, 3, Some(5), Some("N")));
    assert_eq!(t.reserved_width(), 0);
    assert_eq!(found.entries().nth(2).unwrap().offset, 2);
    assert_eq!(layout(b"05 A OCCURS 0 PIC X.").unwrap().entries().next().unwrap().occurs, Some(0));
}

/// Names are borrowed from the text, not from the layout, so they may outlive it.
#[test]
fn names_outlive_the_layout() {
    let mut reader = Reader::new();
    let texts: [&[u8]; 2] = [b"05 A PIC X.", b"05 B PIC XX. 05 C PIC X."];
    let mut names = Vec::new();
    for text in texts {
        names.extend(reader.layout(text).unwrap().entries().map(|e| e.name.unwrap()));
    }
    assert_eq!(names, ["A", "B", "C"]);
}

/// What the program of `crates/copybook_layout` prints.
fn printed(answer: Result<Layout, Refusal>) -> String {
    let found = match answer {
        Ok(found) => found,
        Err(r) => return format!("refused {} {}\n", r.number, r.position),
    };
    let mut lines = format!(
        "record {} {} {}\n",
        found.record_len(),
        if found.variable() { "variable" } else { "fixed" },
        found.top_len()
    );
    for e in found.entries() {
        let name = e.name.unwrap_or("FILLER");
        let occurs = e.occurs.map_or("-".into(), |n| n.to_string());
        let (depending, redefines) = (e.depending_on.unwrap_or("-"), e.redefines.unwrap_or("-"));
        lines += &format!(
            "{} {name} {} {} {} {occurs} {depending} {redefines}\n",
            e.depth,
            e.offset,
            e.width,
            e.kind.word()
        );
    }
    lines
}

/// The examples of the repository have the answers that stand beside them, from a fresh call and from a reader that is
/// used again.
#[test]
fn examples_of_the_repository() {
    let folder = concat!(env!("CARGO_MANIFEST_DIR"), "/../../examples");
    let mut reader = Reader::new();
    for name in ["fish", "breeding", "harvest", "refused", "fish"] {
        let text = fs::read(format!("{folder}/{name}.cpy")).unwrap();
        let expected = fs::read_to_string(format!("{folder}/{name}.txt")).unwrap();
        assert_eq!(printed(layout(&text)), expected, "{name}");
        assert_eq!(printed(reader.layout(&text)), expected, "{name}, with a reader");
    }
}
