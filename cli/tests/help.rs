//! What is made of the table of commands and options: the help texts, the man page, and what shells complete. Parts
//! that ask groff, zsh or fish say so where these are not installed.

use std::fs;
use std::io::ErrorKind;
use std::process::{Command, Stdio};
use std::sync::atomic::{AtomicUsize, Ordering};

const PROGRAM: &str = env!("CARGO_BIN_EXE_copybook");
const COMMANDS: [&str; 6] = ["layout", "owner", "reasons", "extract", "key", "picture"];

/// Standard output and standard error of a program that must end well, or nothing where it is not installed.
fn said(program: &str, words: &[&str]) -> Option<(String, String)> {
    let output = match Command::new(program).args(words).stdin(Stdio::null()).output() {
        Ok(output) => output,
        Err(e) if e.kind() == ErrorKind::NotFound => {
            eprintln!("{program} is not installed");
            return None;
        }
        Err(e) => panic!("{program}: {e}"),
    };
    let text = |bytes: Vec<u8>| String::from_utf8(bytes).expect("text");
    let (out, err) = (text(output.stdout), text(output.stderr));
    assert!(output.status.success(), "{program} {words:?}: {err}");
    Some((out, err))
}

fn copybook(words: &[&str]) -> String {
    said(PROGRAM, words).expect("the command is there").0
}

/// The options that `copybook COMMAND --help` names, each with the word for its value, if it has one.
fn options(command: &str) -> Vec<(String, bool)> {
    let help = copybook(&[command, "--help"]);
    let lines = help.lines().filter_map(|line| line.strip_prefix("  --"));
    let option = |line: &str| {
        let typed = line.split("  ").next().expect("a first part");
        let (name, value) = typed.split_once(' ').unwrap_or((typed, ""));
        (format!("--{name}"), !value.is_empty())
    };
    lines.map(option).collect()
}

/// A file of its own with what `copybook help --KIND` prints, in a folder of cargo's.
fn made(kind: &str) -> String {
    static FILES: AtomicUsize = AtomicUsize::new(0);
    let number = FILES.fetch_add(1, Ordering::Relaxed);
    let file = format!("{}/copybook-{number}.{kind}", env!("CARGO_TARGET_TMPDIR"));
    fs::write(&file, copybook(&["help", &format!("--{kind}")])).expect("a file can be written");
    file
}

/// Each line of the help texts is a line of the page, each option is tagged, and groff finds nothing to say of it.
#[test]
fn man_page_has_the_help_texts() {
    let page = copybook(&["help", "--man"]);
    let mut plain = page.replace("\\-", "-").replace("\\&", "");
    for (escape, character) in [("\\(aq", "'"), ("\\(ha", "^"), ("\\(ti", "~"), ("\\(ga", "`"), ("\\e", "\\")] {
        plain = plain.replace(escape, character);
    }
    let lines: Vec<&str> = plain.lines().collect();
    for command in COMMANDS {
        let help = copybook(&[command, "--help"]);
        let (usage, said) = help.split_once("\n\n").expect("a first paragraph");
        let usage = usage.strip_prefix(&format!("copybook {command} ")).expect("the command");
        let usage = usage.split_whitespace().collect::<Vec<&str>>().join(" ");
        let bold = format!(".B copybook {command}");
        assert!(lines.windows(2).any(|two| two == [bold.as_str(), &usage]), "{command}: {usage}");
        let is_of_option = |line: &str| line.starts_with("  --") || line.starts_with("     ");
        for line in said.lines().filter(|line| !line.is_empty() && !is_of_option(line)) {
            assert!(lines.contains(&line), "{command}: {line}");
        }
        for (option, _) in options(command) {
            assert!(lines.iter().any(|line| line.starts_with(&format!(".B {option}"))), "{command}: {option}");
        }
    }
    if let Some(said) = said("groff", &["-man", "-ww", "-z", &made("man")]) {
        assert_eq!(said, (String::new(), String::new()));
    }
}

/// What bash offers for the last of these words.
fn bash_offers(words: &[&str]) -> Vec<String> {
    let script = "source \"$1\"; shift; COMP_WORDS=(\"$@\"); COMP_CWORD=$(($# - 1)); compopt() { :; }; _copybook
        printf '%s\\n' \"${COMPREPLY[@]}\"";
    let file = made("bash");
    let arguments = [&["-c", script, "bash", &file], words].concat();
    let (out, err) = said("bash", &arguments).expect("bash is there");
    assert_eq!(err, "", "{words:?}");
    out.lines().filter(|line| !line.is_empty()).map(str::to_owned).collect()
}

#[test]
fn bash_completes() {
    assert_eq!(bash_offers(&["copybook", ""]), [&COMMANDS[..], &["help", "--help", "--version"]].concat());
    assert_eq!(bash_offers(&["./copybook", "lay"]), ["layout"]);
    assert_eq!(bash_offers(&["copybook", "help", ""]), COMMANDS);
    for command in COMMANDS {
        let mut names: Vec<String> = options(command).into_iter().map(|(name, _)| name).collect();
        names.push("--help".into());
        assert_eq!(bash_offers(&["copybook", command, "--"]), names);
        // files, which bash knows itself
        assert_eq!(bash_offers(&["copybook", command, ""]), [""; 0]);
    }
    assert_eq!(bash_offers(&["copybook", "layout", "copybook", ""]), [""; 0]);
    assert_eq!(bash_offers(&["copybook", "extract", "a.cpy", "--limit", ""]), [""; 0]);
}

/// The values that are offered are values that the command takes.
#[test]
fn offered_values_are_taken() {
    for option in ["--usage", "--sign"] {
        let offered = bash_offers(&["copybook", "picture", "S9", option, ""]);
        assert!(offered.len() > 2, "{option}: {offered:?}");
        assert_eq!(bash_offers(&["copybook", "picture", "S9", option, "="]), offered);
        assert_eq!(bash_offers(&["copybook", "picture", "S9", option, "=", &offered[0]]), offered[..1]);
        for value in offered {
            copybook(&["picture", "S9", option, &value]);
        }
    }
}

#[test]
fn fish_completes() {
    let file = made("fish");
    let offers = |line: &str| {
        let (out, _) = said("fish", &["-c", "source $argv[1]; complete -C $argv[2]", &file, line])?;
        Some(out.lines().map(|line| line.split('\t').next().unwrap_or("").to_owned()).collect::<Vec<String>>())
    };
    let Some(mut first) = offers("copybook ") else {
        return;
    };
    let mut due = [&COMMANDS[..], &["help"]].concat();
    first.sort();
    due.sort();
    assert_eq!(first, due);
    for command in COMMANDS {
        let mut due: Vec<String> = options(command).into_iter().map(|(name, _)| name).collect();
        due.push("--help".into());
        due.sort();
        let mut offered = offers(&format!("copybook {command} --")).expect("fish is there");
        offered.sort();
        assert_eq!(offered, due);
    }
    assert_eq!(offers("copybook picture X --usage comp-"), Some(vec!["comp-3".into()]));
}

/// What zsh's functions for completion are handed.
#[test]
fn zsh_completes() {
    let file = made("zsh");
    let script = "compdef() { :; }; source $1; words=($2)
        _describe() { print -rl -- ${(P)2}; }
        _arguments() { if [[ $1 == -C ]]; then state=$asked; else print -rl -- \"$@\"; fi; }
        asked=$3; _copybook";
    let handed = |command: &str, asked: &str| {
        let (out, err) = said("zsh", &["-f", "-c", script, "zsh", &file, command, asked])?;
        assert_eq!(err, "", "{command}");
        Some(out.lines().map(str::to_owned).collect::<Vec<String>>())
    };
    let Some(first) = handed("", "first") else {
        return;
    };
    let names: Vec<&str> = first.iter().map(|line| line.split(':').next().expect("a name")).collect();
    assert_eq!(names, [&COMMANDS[..], &["help"]].concat());
    for command in COMMANDS {
        let specs = handed(command, "rest").expect("zsh is there");
        let names = options(command).into_iter().chain([("--help".into(), false)]);
        let due: Vec<String> = names.map(|(name, valued)| name + if valued { "=[" } else { "[" }).collect();
        assert_eq!(specs.len(), due.len() + 1, "{specs:?}");
        assert!(specs.iter().zip(&due).all(|(spec, due)| spec.starts_with(due)), "{specs:?} {due:?}");
        assert_eq!(specs.last().map(String::as_str), Some("*:file:_files"));
    }
}
