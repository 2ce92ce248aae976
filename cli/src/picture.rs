//! `copybook picture`: kind and width of one picture.

use crate::facts::{self, Number};
use crate::files::Source;
use crate::help::Opt;
use crate::{files, refusals, Arguments, Command, Failure, Status};
use copybook::{FieldKind, NumRepr, Picture, SignClause, SignKind, Usage};

pub const COMMAND: Command = Command {
    name: "picture",
    summary: "kind and width of one picture, under a usage and a sign",
    usage: "PICTURE [--usage USAGE] [--sign SIGN]",
    about: "\
What an item with this picture holds and how wide it is, in lines of a word and its value:

    kind WORD       as in the layout: text int bin dec edit
    width BYTES
    holds WORDS
    mask MASK       of an edited picture alone: its symbols, repeated, without S and V
",
    options: &[
        Opt::valued(
            "--usage",
            "USAGE",
            "display (without the option), comp-3 or comp; packed-decimal, binary and the other words of COBOL too",
        )
        .one_of(&["display", "comp-3", "comp"]),
        Opt::valued(
            "--sign",
            "SIGN",
            "the SIGN clause: unsigned, embedded (leading and trailing are that too), leading-separate or \
             trailing-separate; without the option, no clause",
        )
        .one_of(&["unsigned", "embedded", "leading-separate", "trailing-separate"]),
    ],
    notes: "\
A picture that begins with a minus comes after --. Put it in quotes: a shell takes brackets, $ and * for its own.
",
    run,
};

/// The usages as a copybook spells them.
const USAGES: &[(&str, Usage)] = &[
    ("display", Usage::Display),
    ("comp-3", Usage::Comp3),
    ("computational-3", Usage::Comp3),
    ("packed-decimal", Usage::Comp3),
    ("comp", Usage::Comp),
    ("comp-4", Usage::Comp),
    ("comp-5", Usage::Comp),
    ("computational", Usage::Comp),
    ("computational-4", Usage::Comp),
    ("computational-5", Usage::Comp),
    ("binary", Usage::Comp),
];

fn usage(word: &str) -> Result<Usage, Failure> {
    let known = USAGES.iter().find(|(name, _)| name.eq_ignore_ascii_case(word));
    known
        .map(|&(_, usage)| usage)
        .ok_or_else(|| Failure::Misuse(format!("--usage is display, comp-3 or comp, not {word:?}")))
}

/// The signs, and what a SIGN clause says without SEPARATE.
fn sign(word: &str) -> Result<SignKind, Failure> {
    let word = word.replace(' ', "-");
    if word.eq_ignore_ascii_case("leading") || word.eq_ignore_ascii_case("trailing") {
        return Ok(SignKind::Embedded);
    }
    SignKind::of_word(&word).ok_or_else(|| {
        let words: Vec<&str> = SignKind::ALL.iter().map(|s| s.word()).collect();
        Failure::Misuse(format!("--sign is one of {}, not {word:?}", words.join(", ")))
    })
}

fn separate(sign: SignKind) -> Option<SignClause> {
    match sign {
        SignKind::LeadingSeparate => Some(SignClause::SeparateLeading),
        SignKind::TrailingSeparate => Some(SignClause::SeparateTrailing),
        SignKind::Unsigned | SignKind::Embedded => None,
    }
}

/// The digits of a picture. Those of a binary, and the sign of a packed number, are what the library answers for the
/// same picture under another usage.
fn number(found: &Picture, text: &[u8]) -> Option<Number> {
    let under = |usage| copybook::picture(text, usage, None).ok().map(|other| other.kind);
    let (digits, after_point, signed, sign) = match found.kind {
        FieldKind::Text | FieldKind::Group { .. } | FieldKind::Float { .. } => return None,
        FieldKind::Int { signed, sign } => (found.width - usize::from(separate(sign).is_some()), 0, signed, sign),
        FieldKind::Binary { signed } => match under(Usage::Comp3)? {
            FieldKind::Decimal { precision, scale, .. } => (precision.into(), scale.into(), signed, SignKind::Unsigned),
            _ => return None,
        },
        FieldKind::Decimal { precision, scale, repr: NumRepr::Comp3, sign } => {
            let signed = matches!(under(Usage::Comp), Some(FieldKind::Binary { signed: true }));
            (precision.into(), scale.into(), signed, sign)
        }
        FieldKind::Decimal { precision, scale, sign, .. } => {
            (precision.into(), scale.into(), sign != SignKind::Unsigned, sign)
        }
        FieldKind::Edited { precision, scale, signed, .. } => {
            (precision.into(), scale.into(), signed, SignKind::Unsigned)
        }
    };
    Some(Number { digits, after_point, signed, clause: separate(sign) })
}

fn run(arguments: &Arguments) -> Result<Status, Failure> {
    let usage = arguments.value("--usage").map_or(Ok(Usage::Display), usage)?;
    let sign = arguments.value("--sign").map(sign).transpose()?;
    let [word] = arguments.operands.as_slice() else {
        return Err(Failure::Misuse("one PICTURE, in quotes".into()));
    };
    let source = Source { name: "(picture)".into(), text: word.as_encoded_bytes().to_vec() };
    let answer =
        copybook::picture(&source.text, usage, sign).and_then(|p| Ok((p, copybook::mask(&source.text, usage)?)));
    let (picture, mask) = match answer {
        Ok(answer) => answer,
        Err(refusal) => return refusals::print(&refusal, &source),
    };
    let number = number(&picture, &source.text);
    files::write(|out| {
        writeln!(
            out,
            "kind {}\nwidth {}\nholds {}",
            picture.kind.word(),
            picture.width,
            facts::holds(&picture.kind, number)
        )?;
        if mask.is_empty() {
            return Ok(());
        }
        writeln!(out, "mask {mask}")
    })?;
    Ok(Status::Answered)
}
