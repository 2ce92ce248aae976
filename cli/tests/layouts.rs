//! `copybook layout` prints the same bytes as the small program, the crate `copybook_layout`, which is written in
//! Rattle over the same library: on every copybook of the lists of layouts that crates/test_lists replays, but those at
//! the limits, on the examples, and on damaged copies of these.

use std::io::Write;
use std::path::{Path, PathBuf};
use std::process::{Command, Stdio};
use std::{fs, thread};

fn root() -> PathBuf {
    Path::new(env!("CARGO_MANIFEST_DIR")).join("..")
}

/// The text that a word of the lists stands for: %XX is a byte, and % alone the empty text.
fn decoded(word: &str) -> Vec<u8> {
    let mut parts = word.split('%');
    let mut text = parts.next().unwrap_or("").as_bytes().to_vec();
    for part in parts.filter(|part| !part.is_empty()) {
        let (byte, plain) = part.split_at(2);
        text.push(u8::from_str_radix(byte, 16).expect("two digits after %"));
        text.extend(plain.bytes());
    }
    text
}

/// The first word of each case of a list; a case is the words up to a period.
fn cases(list: &str) -> Vec<&str> {
    let lines = list.lines().filter(|line| !line.starts_with('*'));
    let words: Vec<&str> = lines.flat_map(str::split_whitespace).collect();
    words.split_inclusive(|word| word.ends_with('.')).map(|case| case[0]).collect()
}

/// The copybooks of the lists, and the examples.
fn copybooks() -> Vec<Vec<u8>> {
    let mut texts = Vec::new();
    for entry in fs::read_dir(root().join("crates/test_lists/data/layout")).expect("the lists") {
        let path = entry.expect("a list").path();
        if path.ends_with("limits.txt") {
            continue;
        }
        let list = fs::read_to_string(path).expect("a list is text");
        texts.extend(cases(&list).into_iter().map(decoded));
    }
    for entry in fs::read_dir(root().join("examples")).expect("the examples") {
        let path = entry.expect("an example").path();
        if path.extension().is_some_and(|e| e == "cpy") {
            texts.push(fs::read(path).expect("an example can be read"));
        }
    }
    texts
}

/// A copy with one byte replaced by another of the text, or left out, at places that hang on the number.
fn damaged(text: &[u8], number: usize) -> Vec<u8> {
    let mut copy = text.to_vec();
    if text.len() > 1 {
        let (at, from) = (number * 7919 % text.len(), number * 104_729 % text.len());
        match number % 3 {
            0 => copy[at] = text[from],
            1 => drop(copy.remove(at)),
            _ => copy.truncate(at),
        }
    }
    copy
}

/// What a program prints for a text on standard input.
fn printed(program: &mut Command, text: &[u8]) -> Vec<u8> {
    let mut child = program
        .stdin(Stdio::piped())
        .stdout(Stdio::piped())
        .stderr(Stdio::null())
        .spawn()
        .expect("the program can be started");
    // a program that refuses a long text may not read all of it
    let _ = child.stdin.take().expect("its input").write_all(text);
    child.wait_with_output().expect("it ends").stdout
}

#[test]
fn the_same_bytes_as_the_small_program() {
    let program = root().join("target/bin/copybook_layout");
    assert!(program.exists(), "`tools/build layout` makes target/bin/copybook_layout, which is compared with");
    let mut texts = copybooks();
    texts.extend((0..texts.len()).step_by(4).map(|i| damaged(&texts[i], i)).collect::<Vec<_>>());
    texts.extend([Vec::new(), vec![b' '; 65_535], vec![b' '; 65_536], vec![0xff], b"\0".to_vec()]);
    assert!(texts.len() > 3_000);
    let compare = |texts: &[Vec<u8>]| {
        for text in texts {
            let expected = printed(&mut Command::new(&program), text);
            let got = printed(Command::new(env!("CARGO_BIN_EXE_copybook")).args(["layout", "-"]), text);
            assert!(!expected.is_empty());
            assert!(got == expected, "{:?}", String::from_utf8_lossy(text));
        }
    };
    let half = texts.len() / 2;
    thread::scope(|s| {
        s.spawn(|| compare(&texts[..half]));
        compare(&texts[half..]);
    });
}
