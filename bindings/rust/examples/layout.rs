//! Prints the columns of a copybook, from a file or from standard input: where each starts in the record, how wide it
//! is, its kind, its picture, and the path of its name. `copybook layout --table` prints more; this shows how the crate
//! is used.
//!
//!     cargo run --example layout -- [FILE]

use std::io::Read;
use std::process::ExitCode;
use std::{env, fs, io};

/// Name and text of the file that the first argument names, or of standard input.
fn text() -> io::Result<(String, Vec<u8>)> {
    if let Some(file) = env::args().nth(1) {
        return fs::read(&file).map(|text| (file, text));
    }
    let mut text = Vec::new();
    io::stdin().read_to_end(&mut text)?;
    Ok(("standard input".into(), text))
}

fn print(text: &[u8]) -> Result<(), copybook::Refusal> {
    let (layout, details) = copybook::layout_and_details(text)?;
    let more = if layout.variable() { " or more" } else { "" };
    println!("record of {} bytes{more}", layout.record_len());
    let mut path = Vec::new();
    for (entry, detail) in layout.entries().zip(details.iter()) {
        path.truncate(entry.depth);
        path.push(entry.name.unwrap_or("FILLER"));
        let kind = if detail.folded { "union" } else { entry.kind.word() };
        let picture = detail.picture.map_or("-", |picture| picture.word);
        println!("{:>6} {:>6}  {kind:<5}  {picture:<12}  {}", detail.first, entry.width, path.join("."));
    }
    Ok(())
}

fn main() -> ExitCode {
    let (file, text) = match text() {
        Ok(found) => found,
        Err(e) => {
            eprintln!("{e}");
            return ExitCode::from(2);
        }
    };
    if let Err(refusal) = print(&text) {
        eprint!("{}", refusal.told(&text).of_file(&file));
        return ExitCode::FAILURE;
    }
    ExitCode::SUCCESS
}
