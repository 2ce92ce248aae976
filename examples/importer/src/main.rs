//! An importer as it was written for the original Rust module: it reads a copybook and prints the table that records of
//! it are loaded into, one line a column: its bytes in the record, its type, its name. With a length it also says
//! whether a record of so many bytes is long enough.
//!
//!     importer COPYBOOK [LENGTH]
//!
//! To run it over the proved library, one line was added: the first `use` below, which the feature `original` takes
//! away again.

#[cfg(not(feature = "original"))]
use copybook::fixedformat as fixedformat_core;

use fixedformat_core::copybook::{parse, parse_pic, Usage};
use fixedformat_core::layout::MAX_NESTING_DEPTH;
use fixedformat_core::{Endian, Error, Field, FieldKind, Justify, Layout, NumRepr, SignKind};
use std::process::ExitCode;
use std::{env, fs};

fn sign(sign: SignKind) -> &'static str {
    match sign {
        SignKind::Unsigned => "unsigned",
        SignKind::Embedded => "signed",
        SignKind::LeadingSeparate => "sign before",
        SignKind::TrailingSeparate => "sign after",
    }
}

/// The column type of a kind, with how its bytes are read.
fn column_type(kind: &FieldKind, width: usize) -> String {
    match kind {
        FieldKind::Text { justify, trim, pad } => {
            let side = if *justify == Justify::Left { "left" } else { "right" };
            format!("VARCHAR({width}), {side}, trim {trim}, pad {pad:#04x}")
        }
        FieldKind::Int { signed, sign: s } => format!("BIGINT, signed {signed}, {}", sign(*s)),
        FieldKind::Binary { endian, signed } => {
            let order = if *endian == Endian::Big { "big" } else { "little" };
            format!("BIGINT, binary, {order}-endian, signed {signed}")
        }
        FieldKind::Decimal { precision, scale, repr, sign: s } => {
            let stored = match repr {
                NumRepr::Display => "digits",
                NumRepr::Comp3 => "packed",
                NumRepr::Zoned => "zoned",
            };
            format!("DECIMAL({precision}, {scale}), {stored}, {}", sign(*s))
        }
        FieldKind::Edited { precision, scale, signed, mask } => {
            format!("DECIMAL({precision}, {scale}), edited {mask}, signed {signed}")
        }
        FieldKind::Float { bits, endian } => format!("FLOAT{bits}, {endian:?}"),
        FieldKind::Hex { order } => format!("VARCHAR, hex, {order:?}"),
        FieldKind::Bool => "BOOLEAN".into(),
        FieldKind::Pad { pad } => format!("nothing, {pad:#04x}"),
        FieldKind::DateTime { kind, format } => format!("{kind:?}, {format}"),
        FieldKind::Group(members) => format!("STRUCT of {}", members.len()),
    }
}

/// Prints a list of fields that starts at that byte of the record.
fn print_fields(fields: &[Field], start: usize, depth: usize) {
    assert!(depth <= 2 * MAX_NESTING_DEPTH);
    for field in fields {
        let first = start + field.offset;
        let mut line = format!("{first:>5} {:>4}  {:indent$}{}", field.width, "", field.name, indent = 2 * depth);
        if let Some(count) = field.occurs {
            line += &format!(", a list of {count} in {} bytes", field.reserved_width());
        }
        if let Some(counter) = &field.depending_on {
            line += &format!(", as many as {counter} says, {} bytes at most", field.total_width());
        }
        if let Some(other) = &field.redefines {
            line += &format!(", over {other}");
        }
        println!("{line}: {}", column_type(&field.kind, field.width));
        if let FieldKind::Group(members) = &field.kind {
            print_fields(members, first, depth + 1);
        }
    }
}

fn print(layout: &Layout) {
    let more = if layout.variable { " or more" } else { "" };
    println!("{} columns, records of {} bytes{more}", layout.fields.len(), layout.record_len);
    print_fields(&layout.fields, 0, 0);
}

/// The column that says where a record came from is not of the copybook.
fn source_column() -> Result<(FieldKind, usize), Error> {
    parse_pic("X(30)", Usage::Display, None)
}

fn run(src: &str, length: Option<usize>) -> Result<(), Error> {
    let layout = parse(src)?;
    print(&layout);
    let (kind, width) = source_column()?;
    println!("and SOURCE: {}", column_type(&kind, width));
    length.map_or(Ok(()), |length| layout.check_record_len(length))
}

fn main() -> ExitCode {
    let words: Vec<String> = env::args().skip(1).collect();
    let Some(Ok(src)) = words.first().map(fs::read_to_string) else {
        eprintln!("usage: importer COPYBOOK [LENGTH]");
        return ExitCode::from(2);
    };
    match run(&src, words.get(1).and_then(|length| length.parse().ok())) {
        Ok(()) => ExitCode::SUCCESS,
        Err(Error(message)) => {
            println!("{message}");
            ExitCode::FAILURE
        }
    }
}
