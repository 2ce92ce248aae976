//! include/copybook.h says what this crate says: the numbers of kinds, usages, signs and storages, lengths, and the
//! version.

use copybook::limits::{DEEPEST, MOST_STATEMENTS};
use copybook::{longest_words, FieldKind, NumRepr, SignClause, SignKind, Usage};
use copybook::{LONGEST_DETAILS, LONGEST_LISTING, LONGEST_REASONS};

const HEADER: &str = include_str!("../../../include/copybook.h");

/// The names of an enum of the header, without what all begin with, and their numbers.
fn numbers(name: &str, begin: &str) -> Vec<(String, u32)> {
    let start = HEADER.find(&format!("enum {name} {{")).unwrap_or_else(|| panic!("no enum {name}"));
    let body = HEADER[start..].split(['{', '}']).nth(1).unwrap();
    // without comments
    let body: String = body.split("/*").map(|part| part.split("*/").last().unwrap()).collect();
    let values = body.split(',').filter_map(|value| value.trim().split_once(" = "));
    let named = values.map(|(name, n)| (name.strip_prefix(begin).unwrap().to_owned(), n.parse().unwrap()));
    named.collect()
}

/// A name of this crate as the header writes it: `LeadingSeparate` in capitals with underscores.
fn capitals(name: &str) -> String {
    let mut out = String::new();
    for (i, c) in name.chars().enumerate() {
        let starts = c.is_ascii_uppercase() || c.is_ascii_digit();
        out += if i > 0 && starts { "_" } else { "" };
        out.push(c.to_ascii_uppercase());
    }
    out
}

#[test]
fn numbers_of_kinds() {
    let (sign, picture) = (SignKind::Unsigned, "");
    let kinds = [
        FieldKind::Text,
        FieldKind::Int { signed: false, sign },
        FieldKind::Binary { signed: false },
        FieldKind::Decimal { precision: 0, scale: 0, repr: NumRepr::Display, sign },
        FieldKind::Edited { precision: 0, scale: 0, signed: false, picture },
        FieldKind::Group { members: 0 },
        FieldKind::Float { bits: 32 },
    ];
    let debug = |kind: &FieldKind| format!("{kind:?}").split(' ').next().unwrap().to_owned();
    let mut expected: Vec<_> = kinds.iter().map(|kind| (capitals(&debug(kind)), kind.number().into())).collect();
    expected.insert(0, ("RECORD".into(), 0));
    assert_eq!(numbers("copybook_kind", "COPYBOOK_"), expected);
}

#[test]
fn numbers_of_usages_signs_and_storages() {
    let all = |values: &[(String, u8)], more: u32| -> Vec<(String, u32)> {
        values.iter().map(|(name, n)| (capitals(name), u32::from(*n) + more)).collect()
    };
    let usages: Vec<_> = Usage::ALL.iter().map(|value| (format!("{value:?}"), value.number())).collect();
    assert_eq!(numbers("copybook_usage", "COPYBOOK_"), all(&usages, 0));
    let storages: Vec<_> = NumRepr::ALL.iter().map(|value| (format!("{value:?}"), value.number())).collect();
    assert_eq!(numbers("copybook_storage", "COPYBOOK_STORAGE_"), all(&storages, 0));
    let signs: Vec<_> = SignKind::ALL.iter().map(|value| (format!("{value:?}"), value.number())).collect();
    assert_eq!(numbers("copybook_has_sign", "COPYBOOK_"), all(&signs, 0));
    let mut asked = all(&signs, 1);
    asked.insert(0, ("NONE".into(), 0));
    assert_eq!(numbers("copybook_sign", "COPYBOOK_SIGN_"), asked);
    let clauses: Vec<_> = SignClause::ALL.iter().map(|value| (format!("{value:?}"), value.number())).collect();
    assert_eq!(numbers("copybook_sign_clause", "COPYBOOK_CLAUSE_"), all(&clauses, 0));
}

#[test]
fn lengths() {
    let statements = "COPYBOOK_MOST_STATEMENTS";
    let says = |name: &str, length: &str| assert!(HEADER.contains(&format!("#define COPYBOOK_{name} {length}\n")));
    says("LONGEST_LISTING", &format!("(10 + {statements} * 2 * 49)"));
    assert_eq!(LONGEST_LISTING, 10 + MOST_STATEMENTS * 2 * 49);
    says("DETAILS_HEAD", "17");
    says("DETAIL", "63");
    let entries = format!("({statements} + {statements} / 2) * COPYBOOK_DETAIL");
    says("LONGEST_DETAILS", &format!("\\\n    (COPYBOOK_DETAILS_HEAD + {entries})"));
    assert_eq!(LONGEST_DETAILS, 17 + (MOST_STATEMENTS + MOST_STATEMENTS / 2) * 63);
    says("REASON", "13");
    says("LONGEST_REASONS", "((2 + COPYBOOK_DEEPEST * 2) * COPYBOOK_REASON)");
    assert_eq!(LONGEST_REASONS, (2 + DEEPEST * 2) * 13);
    says("LONGEST_WORDS(n)", "(((n) + 1) * 8)");
    assert!((0..10).all(|n| longest_words(n) == (n + 1) * 8));
}

#[test]
fn version() {
    assert!(HEADER.contains(concat!("#define COPYBOOK_VERSION \"", env!("CARGO_PKG_VERSION"), "\"\n")));
}
