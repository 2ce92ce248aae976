//! Pictures and masks, the byte owner, the record check, and what calls leave in lent buffers.

use copybook::{
    check_record_len, layout, lent, mask, owner, picture, FieldKind, NumRepr, Owner, Picture, Reader, SignKind, Usage,
    WORK,
};

const FISH: &[u8] = b"01 FISH. 05 TAG PIC X(5). 05 SIRE PIC 9(4) COMP SYNC. 05 WT OCCURS 3 PIC 9(3)V9.";

#[test]
fn pictures() {
    use SignKind::*;
    use Usage::*;
    let ask = |text: &'static str, usage, sign| picture(text.as_bytes(), usage, sign).unwrap();
    let whole = |width, signed, sign| Picture { kind: FieldKind::Int { signed, sign }, width };
    assert_eq!(ask("X(5)", Display, None), Picture { kind: FieldKind::Text, width: 5 });
    assert_eq!(ask("9(4)", Display, None), whole(4, false, Unsigned));
    assert_eq!(ask("S9(4)", Display, Some(Unsigned)), whole(4, true, Unsigned));
    assert_eq!(ask("S9(4)", Display, Some(LeadingSeparate)), whole(5, true, LeadingSeparate));
    assert_eq!(ask("S9(4)", Display, Some(TrailingSeparate)), whole(5, true, TrailingSeparate));
    assert_eq!(ask("9(4)", Display, Some(LeadingSeparate)).width, 4);
    for (text, width) in [("9(4)", 2), ("9(5)", 4), ("9(9)", 4), ("9(10)", 8)] {
        assert_eq!(ask(text, Comp, None), Picture { kind: FieldKind::Binary { signed: false }, width });
    }
    let decimal = |precision, scale, repr, sign| FieldKind::Decimal { precision, scale, repr, sign };
    assert_eq!(ask("S9(4)", Display, None), Picture { kind: decimal(4, 0, NumRepr::Zoned, Embedded), width: 4 });
    assert_eq!(
        ask("S9(4)", Display, Some(Embedded)),
        Picture { kind: decimal(4, 0, NumRepr::Zoned, Embedded), width: 4 }
    );
    assert_eq!(ask("S", Comp3, None).width, 1);
    assert_eq!(ask("S9(3)V99", Comp3, None), Picture { kind: decimal(5, 2, NumRepr::Comp3, Embedded), width: 3 });
    assert_eq!(ask("S9(3)V99", Display, None), Picture { kind: decimal(5, 2, NumRepr::Zoned, Embedded), width: 5 });
    assert_eq!(ask("9(3)V99", Display, None), Picture { kind: decimal(5, 2, NumRepr::Display, Unsigned), width: 5 });
    let edited = FieldKind::Edited { precision: 3, scale: 0, signed: false, picture: " $$$9 " };
    assert_eq!(ask(" $$$9 ", Display, None), Picture { kind: edited, width: 4 });
}

/// P holds no byte: precision and scale count it, widths do not, and the mask keeps it.
#[test]
fn scaling_positions() {
    let width = |text: &'static str, usage, sign| picture(text.as_bytes(), usage, sign).unwrap().width;
    for (text, display, separate, comp3, comp) in [
        ("99P", 2, 2, 2, 2),
        ("P(3)9", 1, 1, 1, 2),
        ("VP9", 1, 1, 1, 2),
        ("S9P(4)", 1, 2, 1, 2),
        ("P", 0, 0, 1, 2),
        ("9(4)P", 4, 4, 3, 2),
        ("9(9)P", 9, 9, 5, 4),
    ] {
        assert_eq!(width(text, Usage::Display, None), display, "{text}");
        assert_eq!(width(text, Usage::Display, Some(SignKind::TrailingSeparate)), separate, "{text}");
        assert_eq!(width(text, Usage::Comp3, None), comp3, "{text}");
        assert_eq!(width(text, Usage::Comp, None), comp, "{text}");
    }
    let edited = FieldKind::Edited { precision: 5, scale: 3, signed: false, picture: "zp(2)9.9" };
    assert_eq!(picture(b"zp(2)9.9", Usage::Display, None).unwrap(), Picture { kind: edited, width: 4 });
    assert_eq!(mask(b"zp(2)9.9", Usage::Display).unwrap(), "ZPP9.9");
    assert_eq!(mask(b"ZZ9P", Usage::Display).unwrap(), "ZZ9P");
}

/// The refusals of a picture, which has no place in a copybook.
#[test]
fn pictures_refused() {
    for (text, number) in [("X(", 22), ("X()", 23), ("X(65536)", 24), ("Q", 25), ("X9", 26), ("9(32)", 27)] {
        let r = picture(text.as_bytes(), Usage::Display, None).unwrap_err();
        assert_eq!((r.number, r.position, r.line, r.column, r.needed), (number, 0, 0, 0, 0), "{text}");
        assert_eq!(mask(text.as_bytes(), Usage::Display), Err(r), "{text}");
    }
}

#[test]
fn masks() {
    assert_eq!(mask(b"z(3)9.9(2)cr", Usage::Display).unwrap(), "ZZZ9.99CR");
    assert_eq!(mask(b"*(4)9-", Usage::Display).unwrap(), "****9-");
    assert_eq!(mask(b"9(3)V99", Usage::Display).unwrap(), "");
    assert_eq!(mask(b"zz9", Usage::Comp3).unwrap(), "");
    assert_eq!(mask(b"Z(31)", Usage::Display).unwrap(), "Z".repeat(31));
    assert_eq!(mask(b"Z(32)", Usage::Display).unwrap_err().number, 27);
    assert_eq!(mask(b"B(255)", Usage::Display).unwrap(), "B".repeat(255));
    assert_eq!(mask(b"B(256)", Usage::Display).unwrap_err().number, 27);
}

/// The mask of an edited entry, from the picture that the listing points to.
#[test]
fn mask_of_an_entry() {
    let found = layout(b"05 A PIC X. 05 B PIC $$,$$9.9(2).").unwrap();
    let b = found.entries().nth(1).unwrap();
    let FieldKind::Edited { picture, .. } = b.kind else { panic!("{:?}", b.kind) };
    assert_eq!(picture, "$$,$$9.9(2)");
    assert_eq!(mask(picture.as_bytes(), Usage::Display).unwrap(), "$$,$$9.99");
    assert_eq!(b.width, 9);
}

/// Every byte of the worked example: five of TAG, slack, two of SIRE, three pieces of WT.
#[test]
fn owners() {
    let piece = |entry, first, place| Owner::Piece { entry, first, place };
    let mut expected: Vec<Owner> = (0..5).map(|i| piece(0, 0, i)).collect();
    expected.push(Owner::Slack { entry: 1 });
    expected.extend((0..2).map(|i| piece(1, 6, i)));
    expected.extend((0..12).map(|i| piece(2, 8 + i / 4 * 4, i % 4)));
    let mut reader = Reader::new();
    for (position, owned) in expected.iter().enumerate() {
        assert_eq!(owner(FISH, position).unwrap(), *owned, "byte {position}");
        assert_eq!(reader.owner(FISH, position).unwrap(), *owned, "byte {position}, with a reader");
    }
    assert_eq!(expected.len(), 20);
    let past = owner(FISH, 20).unwrap_err();
    assert_eq!((past.number, past.name, past.position, past.line), (41, "past-record", 0, 0));
    assert_eq!(owner(FISH, usize::MAX).unwrap_err().number, 41);
}

#[test]
fn owners_refused() {
    assert_eq!(owner(b"05 A PIC X. 05 B REDEFINES A PIC X.", 0).unwrap_err().number, 40);
    assert_eq!(owner(b"05 N PIC 9. 05 T OCCURS 2 DEPENDING ON N PIC X.", 0).unwrap_err().number, 40);
    let r = owner(b"05 A PIC X.\n05 B.", 0).unwrap_err();
    assert_eq!((r.number, r.position, r.line, r.column), (21, 12, 2, 1));
}

/// The piece that a byte belongs to is an occurrence of the entry that the answer names.
#[test]
fn owners_and_entries() {
    let text = b"01 R. 05 G OCCURS 3. 10 A PIC X. 10 B PIC 9(4) COMP SYNC. 05 C PIC X(2).";
    let found = layout(text).unwrap();
    let entries: Vec<_> = found.entries().collect();
    assert_eq!(found.record_len(), 14);
    for position in 0..found.record_len() {
        match owner(text, position).unwrap() {
            Owner::Piece { entry, first, place } => {
                assert_eq!(first + place, position);
                assert!(place < entries[entry].width);
            }
            Owner::Slack { entry } => assert_eq!((entries[entry].name, position % 4), (Some("B"), 1)),
        }
    }
    assert_eq!(owner(text, 10).unwrap(), Owner::Piece { entry: 2, first: 10, place: 0 });
}

#[test]
fn records() {
    assert!(check_record_len(20, false, 20).is_ok());
    assert!(check_record_len(20, false, 21).is_ok());
    assert!(check_record_len(20, true, 19).is_ok());
    let r = check_record_len(20, false, 19).unwrap_err();
    assert_eq!((r.number, r.name, r.position, r.line, r.needed), (42, "record-too-short", 0, 0, 0));
    let found = layout(FISH).unwrap();
    assert!(found.check_record_len(20).is_ok());
    assert_eq!(found.check_record_len(19).unwrap_err().number, 42);
    assert!(layout(b"05 N PIC 9. 05 T OCCURS 9 DEPENDING ON N PIC X.").unwrap().check_record_len(0).is_ok());
}

/// A refused call leaves the output as it was, and work memory zero.
#[test]
fn refused_leaves_the_output_alone() {
    let before: Vec<u8> = (0..200).map(|i| i as u8 ^ 0x5a).collect();
    let mut out = before.clone();
    for (text, room, number, needed) in [
        (&b"05 A PIC X. 05 B PIC Q."[..], 200, 25, 0),
        (b"05 A PIC X. \x80", 200, 2, 0),
        (FISH, 128, 31, 129),
        (FISH, 0, 31, 129),
    ] {
        let mut work = vec![7; WORK];
        let r = lent::layout(text, &mut work, &mut out[..room]).unwrap_err();
        assert_eq!((r.number, r.needed), (number, needed));
        assert_eq!(out, before);
        assert!(work.iter().all(|&n| n == 0));
    }
    let mut little = vec![7; WORK - 1];
    assert_eq!(lent::layout(FISH, &mut little, &mut out).unwrap_err().number, 3);
    assert_eq!(out, before);
    assert!(little.iter().all(|&n| n == 0));
    let r = lent::mask(b"ZZ9", Usage::Display, &mut out[..2]).unwrap_err();
    assert_eq!((r.number, r.needed), (31, 3));
    assert_eq!(out, before);
}

/// An accepted call writes the listing and no byte past it; an output of just the length will do.
#[test]
fn accepted_keeps_what_is_past_the_answer() {
    let expected = layout(FISH).unwrap().listing().to_vec();
    for room in [129, 130, 200] {
        let mut out = [0xa5; 200];
        let mut work = vec![7; WORK];
        assert_eq!(lent::layout(FISH, &mut work, &mut out[..room]).unwrap().listing(), expected);
        assert_eq!(out[..129], expected);
        assert!(out[129..].iter().all(|&b| b == 0xa5));
        assert!(work.iter().all(|&n| n == 0));
    }
    let mut out = [0xa5; 8];
    assert_eq!(lent::mask(b"ZZ9", Usage::Display, &mut out).unwrap(), "ZZ9");
    assert_eq!(out, *b"ZZ9\xa5\xa5\xa5\xa5\xa5");
}

/// A reader that has refused, or answered a longer copybook, answers the next as a fresh one does.
#[test]
fn reader_used_again() {
    let long = "05 A PIC ZZ9.99.\n".repeat(800);
    let mut reader = Reader::new();
    assert_eq!(reader.layout(long.as_bytes()).unwrap().listing().len(), 10 + 800 * 49);
    assert_eq!(reader.layout(b"05 A.").unwrap_err().number, 21);
    assert_eq!(reader.owner(FISH, 5).unwrap(), Owner::Slack { entry: 1 });
    assert_eq!(reader.layout(FISH).unwrap(), layout(FISH).unwrap());
}
