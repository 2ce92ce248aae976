//! One call of the listing, of a copybook of the benchmark, so that its instructions can be counted:
//!
//!     instructions                  the copybooks, a line each: shape, tab, statements
//!     instructions SHAPE COUNT      calls `copybook_layout` once of that one
//!
//! `tools/measure` builds it and runs it below valgrind.

#[allow(dead_code)] // pictures and records are the benchmark's
#[path = "../../benchmark/src/inputs.rs"]
mod inputs;

use inputs::{Shape, SHAPES};
use product::{lent, LONGEST_LISTING, WORK};
use std::process::ExitCode;

/// The sizes that are measured.
const SIZES: [usize; 3] = [5, 100, 800];

fn list() {
    for shape in &SHAPES {
        for size in SIZES.into_iter().filter(|&size| size >= shape.least) {
            println!("{}\t{size}", shape.name);
        }
    }
}

fn call(shape: &Shape, size: usize) -> ExitCode {
    let text = shape.text(size);
    let (mut work, mut out) = (vec![0; WORK], vec![0; LONGEST_LISTING]);
    match lent::layout(text.as_bytes(), &mut work, &mut out) {
        Ok(layout) => {
            println!("{} {size}: a record of {} bytes", shape.name, layout.record_len());
            ExitCode::SUCCESS
        }
        Err(refusal) => {
            eprintln!("{} {size}: {refusal}", shape.name);
            ExitCode::FAILURE
        }
    }
}

fn main() -> ExitCode {
    let words: Vec<String> = std::env::args().skip(1).collect();
    match &words[..] {
        [] => {
            list();
            ExitCode::SUCCESS
        }
        [name, size] => match (SHAPES.iter().find(|shape| shape.name == name), size.parse()) {
            (Some(shape), Ok(size)) => call(shape, size),
            _ => {
                eprintln!("instructions: no such copybook");
                ExitCode::FAILURE
            }
        },
        _ => {
            eprintln!("usage: instructions [SHAPE COUNT]");
            ExitCode::FAILURE
        }
    }
}
