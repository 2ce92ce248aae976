//! The numbers by which the product's answers say what the original says in enums.

use crate::copybook::Usage;
use crate::layout::{FieldKind, NumRepr, SignKind};

/// Usages by their numbers.
pub const USAGES: [Usage; 3] = [Usage::Display, Usage::Comp3, Usage::Comp];

/// Signs by the numbers that they have in a question.
pub const SIGNS: [Option<SignKind>; 5] = [
    None,
    Some(SignKind::Unsigned),
    Some(SignKind::Embedded),
    Some(SignKind::LeadingSeparate),
    Some(SignKind::TrailingSeparate),
];

fn sign(sign: SignKind) -> u8 {
    match sign {
        SignKind::Unsigned => 0,
        SignKind::Embedded => 1,
        SignKind::LeadingSeparate => 2,
        SignKind::TrailingSeparate => 3,
    }
}

fn storage(repr: NumRepr) -> u8 {
    match repr {
        NumRepr::Display => 0,
        NumRepr::Comp3 => 1,
        NumRepr::Zoned => 2,
    }
}

/// The number of a kind, and its facts in the order of a listing: no mask, and no number of members. None for a kind
/// that copybooks do not have.
pub fn kind(kind: &FieldKind) -> Option<Vec<u8>> {
    Some(match *kind {
        FieldKind::Text { .. } => vec![1],
        FieldKind::Int { signed, sign: s } => vec![2, signed.into(), sign(s)],
        FieldKind::Binary { signed, .. } => vec![3, signed.into()],
        FieldKind::Decimal { precision, scale, repr, sign: s } => vec![4, precision, scale, storage(repr), sign(s)],
        FieldKind::Edited { precision, scale, signed, .. } => vec![5, precision, scale, signed.into()],
        FieldKind::Group(_) => vec![6],
        _ => return None,
    })
}

/// What the product answers for a picture: kind, width, signed, sign, precision, scale, storage.
pub fn picture(of: &FieldKind, width: usize) -> Option<[u64; 7]> {
    let [number, signed, sign, precision, scale, storage] = match kind(of)?[..] {
        [number] => [number, 0, 0, 0, 0, 0],
        [number, signed, sign] => [number, signed, sign, 0, 0, 0],
        [number, signed] => [number, signed, 0, 0, 0, 0],
        [number, precision, scale, storage, sign] => [number, 0, sign, precision, scale, storage],
        [number, precision, scale, signed] => [number, signed, 0, precision, scale, 0],
        _ => return None,
    }
    .map(u64::from);
    Some([number, width as u64, signed, sign, precision, scale, storage])
}
