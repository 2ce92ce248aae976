//! The drop-in for the original Rust module: trees, values, errors. tools/differential compares it with the original.

use copybook::fixedformat::{self, copybook as book, layout, Endian, Field, FieldKind, Justify, Layout};
use copybook::fixedformat::{NumRepr, SignKind, Usage};

fn field(name: &str, offset: usize, width: usize, kind: FieldKind) -> Field {
    Field { name: name.into(), offset, width, kind, occurs: None, depending_on: None, redefines: None }
}

fn text() -> FieldKind {
    FieldKind::Text { justify: Justify::Left, trim: true, pad: b' ' }
}

#[test]
fn worked_example() {
    let src = "01 FISH. 05 TAG PIC X(5). 05 SIRE PIC 9(4) COMP SYNC. 05 WT OCCURS 3 PIC 9(3)V9.";
    let decimal = FieldKind::Decimal { precision: 4, scale: 1, repr: NumRepr::Display, sign: SignKind::Unsigned };
    let fields = vec![
        field("TAG", 0, 5, text()),
        field("SIRE", 6, 2, FieldKind::Binary { endian: Endian::Big, signed: false }),
        Field { occurs: Some(3), ..field("WT", 8, 4, decimal) },
    ];
    let found = book::parse(src).unwrap();
    assert_eq!((found.fields[2].reserved_width(), found.fields[2].total_width()), (12, 12));
    assert_eq!(found, Layout { record_len: 20, fields, variable: false });
}

/// Groups in groups, folds, absent names, masks, and tables DEPENDING ON an item.
#[test]
fn nested() {
    let src = "05 G. 10 A PIC XX. 10 B REDEFINES A PIC ZZ9.9(2). 10. 15 C PIC S9(3).\n\
               05 N PIC 9. 05 T OCCURS 1 TO 9 DEPENDING ON N PIC X. 05 U REDEFINES N PIC X. 05 V REDEFINES U PIC X.";
    let edited = FieldKind::Edited { precision: 5, scale: 2, signed: false, mask: "ZZ9.99".into() };
    let zoned = FieldKind::Decimal { precision: 3, scale: 0, repr: NumRepr::Zoned, sign: SignKind::Embedded };
    let fold = FieldKind::Group(vec![field("A", 0, 2, text()), field("B", 0, 6, edited)]);
    let inner = FieldKind::Group(vec![field("C", 0, 3, zoned)]);
    let group = FieldKind::Group(vec![field("A", 0, 6, fold), field("FILLER", 2, 3, inner)]);
    let int = FieldKind::Int { signed: false, sign: SignKind::Unsigned };
    let table = Field { occurs: Some(9), depending_on: Some("N".into()), ..field("T", 7, 1, text()) };
    let found = fixedformat::parse(src).unwrap();
    assert_eq!((table.reserved_width(), table.total_width()), (0, 9));
    let fields = vec![
        field("G", 0, 6, group),
        field("N", 6, 1, FieldKind::Group(vec![field("N", 0, 1, int), field("U", 0, 1, text())])),
        table,
        Field { redefines: Some("U".into()), ..field("V", 6, 1, text()) },
    ];
    assert_eq!(found, Layout { record_len: 7, fields, variable: true });
    assert!(found.check_record_len(0).is_ok());
}

/// As long as the field that ends last, a table DEPENDING ON an item ending where it starts; variable at any depth.
#[test]
fn layouts_from_fields() {
    let of = |fields: Vec<Field>| Layout::from_fields(fields).map(|found| (found.record_len, found.variable));
    let table = Field { occurs: Some(3), ..field("T", 2, 4, text()) };
    let varying = Field { depending_on: Some("N".into()), ..table.clone() };
    let group = field("G", 0, 1, FieldKind::Group(vec![field("H", 0, 1, FieldKind::Group(vec![varying.clone()]))]));
    assert_eq!(of(vec![]), Ok((0, false)));
    assert_eq!(of(vec![table.clone(), field("A", 0, 5, text())]), Ok((14, false)));
    assert_eq!(of(vec![field("A", 0, 5, text()), varying]), Ok((5, true)));
    assert_eq!(of(vec![group, table]), Ok((14, true)));
    let found = book::parse("05 N PIC 9. 05 G. 10 T OCCURS 1 TO 9 DEPENDING ON N PIC X. 05 E PIC Z9.").unwrap();
    assert_eq!(Layout::from_fields(found.fields.clone()), Ok(found));
}

#[test]
fn pictures() {
    let int = FieldKind::Int { signed: true, sign: SignKind::TrailingSeparate };
    assert_eq!(book::parse_pic("S9(4)", Usage::Display, Some(SignKind::TrailingSeparate)), Ok((int, 5)));
    let edited = FieldKind::Edited { precision: 4, scale: 0, signed: true, mask: "ZZZ9CR".into() };
    assert_eq!(book::parse_pic(" z(3)9cr ", Usage::Display, None), Ok((edited, 6)));
    // a mask is as long as its item is wide, so it has no P
    let edited = FieldKind::Edited { precision: 4, scale: 1, signed: false, mask: "ZZ9".into() };
    assert_eq!(book::parse_pic("ZZ9P", Usage::Display, None), Ok((edited, 3)));
}

/// What the original says comes first; then the refusal, with its place and the item.
#[test]
fn errors() {
    let says = |src: &str, said: &str| assert_eq!(book::parse(src).unwrap_err().to_string(), said);
    says("XX A.", "invalid level number \"XX\" (refused 10, line 1 column 1: XX is no level from 0 to 255)");
    says(
        "01 R.\n  05 TAG OCCURS MANY PIC X.",
        "OCCURS requires a count (refused 11, line 2 column 3: OCCURS of TAG is followed by MANY, not by a count)",
    );
    says(
        "05 A PIC X. 05 B REDEFINES C PIC X.",
        "REDEFINES target \"C\" not found before \"B\" \
         (refused 28, line 1 column 13: no earlier item of this list is called C)",
    );
    says(
        "05 A PIC x(2)q.",
        "unsupported PIC symbol 'Q' in \"X(2)Q\" \
         (refused 25, line 1 column 1: q in the picture of A is no symbol of a picture)",
    );
    says(
        "05 A PIC X OCCURS 3000000000.",
        "A has a count, an offset, a width, a size or an end above 2,147,483,647 (refused 29, line 1 column 1)",
    );
    says("05 \u{c5} PIC X.", "\u{c5} (0xc3 0x85 in UTF-8) stands in the name \u{c5} (refused 2, line 1 column 4)");
    let pic = book::parse_pic("9(n)", Usage::Comp, None).unwrap_err();
    assert_eq!(pic.0, "invalid PIC repeat count \"N\" (refused 23: (n) in the picture is no repeat count)");
    let short = book::parse("05 A PIC X(20).").unwrap().check_record_len(19).unwrap_err();
    let found = "a record is shorter than its layout, and not variable";
    assert_eq!(short.0, format!("record too short: need 20 bytes, got 19 (refused 42: {found})"));
    assert_eq!(Layout::read("05 A.").unwrap_err().number, 21);
}

/// COMP-1 and COMP-2, for which the original's copybooks have no answer, are its big-endian floats.
#[test]
fn floats() {
    let float = |bits| FieldKind::Float { bits, endian: Endian::Big };
    let found = book::parse("01 R. 05 A COMP-1. 05 B COMP-2 SYNC.").unwrap();
    let fields = vec![field("A", 0, 4, float(32)), field("B", 8, 8, float(64))];
    assert_eq!(found, Layout { record_len: 16, fields, variable: false });
}

/// A program may name every kind that the original has, and its modules.
#[test]
fn names_of_the_original() {
    let _: fn(&layout::Layout, usize) -> fixedformat::Result<()> = layout::Layout::check_record_len;
    let other = [
        FieldKind::Float { bits: 32, endian: Endian::Little },
        FieldKind::Hex { order: Endian::Big },
        FieldKind::Bool,
        FieldKind::Pad { pad: 0 },
        FieldKind::DateTime { kind: layout::DateTimeKind::Date, format: "%Y%m%d".into() },
    ];
    assert!(other.iter().all(|kind| *kind != text()));
    assert_eq!((layout::MAX_NESTING_DEPTH, Justify::Right == Justify::Left), (64, false));
}
