//! What the command does with words, files and pipes: exit status, and what is said.

use std::fs::{self, Permissions};
use std::io::{ErrorKind, Read, Write};
use std::os::unix::fs::PermissionsExt;
use std::os::unix::process::CommandExt;
use std::path::PathBuf;
use std::process::{Command, Output, Stdio};

const PROGRAM: &str = env!("CARGO_BIN_EXE_copybook");
const FISH: &str = "01 FISH. 05 TAG PIC X(5). 05 SIRE PIC 9(4) COMP SYNC. 05 WT OCCURS 3 PIC 9(3)V9.";

/// A folder of its own for a test, removed in the end.
struct Folder(PathBuf);

impl Folder {
    fn new(name: &str) -> Folder {
        let folder = std::env::temp_dir().join(format!("copybook-{name}-{}", std::process::id()));
        fs::create_dir_all(&folder).expect("a folder can be made");
        fs::set_permissions(&folder, Permissions::from_mode(0o755)).expect("and opened to others");
        Folder(folder)
    }

    fn file(&self, name: &str, text: &[u8]) -> String {
        let file = self.0.join(name);
        fs::write(&file, text).expect("a file can be written");
        file.to_str().expect("its name is text").into()
    }
}

impl Drop for Folder {
    fn drop(&mut self) {
        let _ = fs::remove_dir_all(&self.0);
    }
}

fn run(words: &[&str], input: &[u8]) -> Output {
    let mut child = Command::new(PROGRAM)
        .args(words)
        .stdin(Stdio::piped())
        .stdout(Stdio::piped())
        .stderr(Stdio::piped())
        .spawn()
        .expect("the command starts");
    let _ = child.stdin.take().expect("its input").write_all(input);
    child.wait_with_output().expect("it ends")
}

/// Exit status, standard output and standard error.
fn ran(words: &[&str], input: &str) -> (i32, String, String) {
    let output = run(words, input.as_bytes());
    let text = |bytes: Vec<u8>| String::from_utf8(bytes).expect("text");
    (output.status.code().expect("a status"), text(output.stdout), text(output.stderr))
}

/// Misuse, or something that cannot be read: status 2, nothing on standard output, and these words said.
#[track_caller]
fn fails(words: &[&str], said: &str) {
    let (status, out, err) = ran(words, FISH);
    assert_eq!((status, out.as_str()), (2, ""), "{words:?}: {err}");
    assert!(err.starts_with("copybook") && err.contains(said), "{words:?}: {err}");
}

#[test]
fn misuse_says_what_is_wrong() {
    fails(&[], "no command");
    fails(&["lay"], "there is no command lay; is layout meant?\nTry: copybook help");
    fails(&["help", "laoyut"], "there is no command laoyut; is layout meant?");
    fails(&["convert"], "there is no command convert; there are layout, owner,");
    fails(&["-help"], "there is no command -help; is help meant?");
    fails(&["layout", "--tables"], "there is no option --tables; is --table meant?\nTry: copybook layout --help");
    fails(&["layout", "--form-1"], "there is no option --form-1; is --from-1 meant?");
    fails(&["layout", "--xyzzy"], "there is no option --xyzzy\n");
    fails(&["layout", "--wdth=9"], "there is no option --wdth; is --width meant?");
    fails(&["layout", "--width", "many"], "--width many is no number of characters");
    fails(&["layout", "--json", "--hex"], "--hex is for the table alone, not for --json");
    fails(&["layout", "--lines", "--width=9"], "--width is for the table alone, not for --lines");
    fails(&["layout", "--table=1"], "--table takes no value");
    fails(&["layout", "--json", "--csv"], "one of --json and --csv at a time");
    fails(&["layout", "--lines", "--table"], "one of --table and --lines at a time");
    fails(&["layout", "--json", "--from-1"], "--from-1 is for the table alone");
    fails(&["layout", "--lines", "--why"], "--why is for the table alone, not for --lines");
    fails(&["owner", "a.cpy", "five"], "five is no position: digits alone, from 0");
    fails(&["owner", "a.cpy", "0xg"], "0xg is no position");
    fails(&["owner", "--from-1", "a.cpy", "0"], "0 is no position: digits alone, from 1");
    fails(&["owner", "--from-1", "0"], "0 is no position: digits alone, from 1");
    fails(&["owner", "a.cpy", "5", "6"], "one FILE and one POSITION");
    fails(&["layout", "--csv", "--why"], "--why is for the table alone");
    fails(&["reasons", "a.cpy", "5", "6"], "one ENTRY or NAME");
    fails(&["extract"], "a FILE, then a weight for each top-level column");
    fails(&["extract", "-", "5", "3", "9"], "--limit BYTES says how many bytes");
    fails(&["extract", "-", "5", "3", "9", "--limit", "-1"], "--limit -1 is no number");
    fails(&["extract", "-", "5", "3", "9", "--limit=19", "--budget=many"], "--budget many is no number");
    fails(&["extract", "-", "5", "3", "nine", "--limit=19"], "nine is neither a WEIGHT nor NAME=WEIGHT");
    fails(&["extract", "-", "TAG=5", "3", "9", "--limit=19"], "3 is neither a WEIGHT nor NAME=WEIGHT");
    fails(&["extract", "-", "TAG=5", "SIRE=3", "--limit=19"], "no weight for WT");
    fails(&["extract", "-", "TAG=5", "SIRE=3", "DAM=9", "--limit=19"], "no top-level column is called DAM");
    fails(&["extract", "-", "TAG=5", "SIER=3", "WT=9", "--limit=19"], "is called SIER; is SIRE meant?");
    fails(&["extract", "-", "TAG=5", "SIRE=3", "WT=9", "wt=1", "--limit=19"], "two weights for wt");
    fails(&["key"], "a NAME and the FILEs");
    fails(&["key", "--cards", "K"], "there is no option --cards");
    fails(&["key", "K", "none.cpy"], "none.cpy: there is no such file");
    fails(&["picture"], "one PICTURE");
    fails(&["picture", "X", "--usage"], "--usage needs a value");
    fails(&["picture", "X", "--usage", "comp-9"], "--usage is display, comp-3 or comp");
    fails(&["picture", "X", "--sign=left"], "--sign is one of");
}

#[test]
fn help_is_an_answer() {
    let (status, all, err) = ran(&["help"], "");
    assert_eq!((status, err.as_str()), (0, ""));
    for command in ["layout", "owner", "extract", "picture"] {
        assert!(all.contains(&format!("\n  {command}")));
        let (status, help, err) = ran(&[command, "--help"], "");
        assert_eq!((status, err.as_str()), (0, ""));
        assert!(help.starts_with(&format!("copybook {command} ")));
        assert_eq!(ran(&["help", command], "").1, help);
    }
    assert_eq!(ran(&["--help"], "").1, all);
    // the version is the header's
    let header = include_str!("../../include/copybook.h");
    let version = ran(&["--version"], "").1;
    let number = version.strip_prefix("copybook ").and_then(|v| v.strip_suffix('\n')).expect("a version");
    assert!(header.contains(&format!("#define COPYBOOK_VERSION \"{number}\"\n")), "{version}");
}

#[test]
fn extracts_by_order_and_by_name() {
    let all = ["extract", "-", "--limit", "14", "5", "3", "9"];
    let (status, out, err) = ran(&all, FISH);
    let expected = "\
chosen 2 of 3 columns, 14 of 14 bytes, weight 12 of 17
tried 8 of 8 choices: none that fits weighs more
entry 1 SIRE first 6 width 2 weight 3
entry 2 WT first 8 width 12 weight 9
";
    assert_eq!((status, out.as_str(), err.as_str()), (0, expected, ""));
    assert_eq!(ran(&["extract", "--limit=14", "-", "wt=9", "Tag=5", "SIRE=3"], FISH).1, expected);
    let (_, out, _) = ran(&["extract", "-", "--limit", "14", "--budget", "3", "5", "3", "9"], FISH);
    let expected = "\
chosen 1 of 3 columns, 5 of 14 bytes, weight 5 of 17
tried 3 of 8 choices: one that fits may weigh up to 12 more
entry 0 TAG first 0 width 5 weight 5
";
    assert_eq!(out, expected);
    // the members of a group are chosen with it; numbers are those of the layout
    let book = "5 G. 10 A PIC X. 10 B PIC X. 5 FILLER PIC X. 5 T PIC X OCCURS 0.";
    let (_, out, _) = ran(&["extract", "-", "--limit=2", "G=3", "FILLER=2", "T=1"], book);
    let expected = "\
chosen 2 of 3 columns, 2 of 2 bytes, weight 4 of 6
tried 8 of 8 choices: none that fits weighs more
entry 0 G first 0 width 2 weight 3
entry 4 T first 3 width 0 weight 1
";
    assert_eq!(out, expected);
    for (copybook, words, refused) in [
        (FISH, &["5", "3"][..], "refused 58 0\n"),
        (FISH, &["5", "3", "0"], "refused 59 0\n"),
        (FISH, &["5", "3", "99999999999999999999"], "refused 59 0\n"),
        (FISH, &["5", "3", "9", "--budget=0"], "refused 60 0\n"),
        ("5 A PIC X. 5 B REDEFINES A PIC X.", &["C=1"], "refused 40 0\n"),
        ("5 TAG PIC X9.", &["C=1"], "refused 26 0\n"),
    ] {
        let (status, out, err) = ran(&[&["extract", "-", "--limit=9"], words].concat(), copybook);
        assert_eq!((status, out.as_str()), (1, refused), "{words:?}");
        assert!(err.starts_with("(standard input)"), "{err}");
    }
    let twice = ran(&["extract", "-", "--limit=9", "A=1", "A=2"], "5 A PIC X. 5 A PIC X.");
    assert_eq!((twice.0, twice.1.as_str()), (2, ""));
    assert!(twice.2.contains("2 top-level columns are called A: give the weights in the order of the columns"));
    let many: String = (0..17).map(|i| format!("5 I{i} PIC X. ")).collect();
    let (_, out, err) = ran(&["extract", "-", "--limit=9", "I0=1"], &many);
    assert_eq!(out, "refused 58 0\n");
    assert!(err.starts_with("(standard input): 17 top-level columns, and a choice is of 16 at most\n"), "{err}");
    let err = ran(&["extract", "-", "--limit=9", "1"], FISH).2;
    assert!(err.starts_with("(standard input): 1 weight for 3 top-level columns\n"), "{err}");
}

#[test]
fn files_that_cannot_be_read() {
    let folder = Folder::new("unreadable");
    let missing = folder.0.join("none.cpy");
    fails(&["layout", missing.to_str().unwrap()], "none.cpy: there is no such file");
    fails(&["owner", folder.0.to_str().unwrap(), "5"], "this is a directory");
}

/// A file without permission, read as a user who is not root: from a copy of the command that this user may start.
#[test]
fn a_file_without_permission() {
    const NOBODY: u32 = 65_534;
    let folder = Folder::new("permission");
    let file = folder.file("secret.cpy", FISH.as_bytes());
    fs::set_permissions(&file, Permissions::from_mode(0o000)).unwrap();
    let program = folder.0.join("copybook");
    fs::copy(PROGRAM, &program).unwrap();
    let mut command = Command::new(&program);
    command.args(["layout", &file]).current_dir("/");
    if fs::read(&file).is_ok() {
        command.uid(NOBODY);
    }
    // the copy is busy as long as a command that another test starts still has it open for writing
    let output = loop {
        match command.output() {
            Err(e) if e.kind() == ErrorKind::ExecutableFileBusy => std::thread::yield_now(),
            started => break started.expect("the command starts"),
        }
    };
    assert_eq!((output.status.code(), output.stdout.as_slice()), (Some(2), b"".as_slice()));
    let err = String::from_utf8(output.stderr).unwrap();
    assert!(err.ends_with("secret.cpy: there is no permission to read it\n"), "{err}");
}

/// A refusal for programs: an object, or nothing; standard error has the words in both.
#[test]
fn refusals_for_programs() {
    let text = "01 R.\n    05 TAG PIC X.\n    05 YEAR REDEFINES TAGS PIC 9(4).\n";
    let (status, out, err) = ran(&["layout", "--json"], text);
    let place = r#""number": 28, "position": 28, "line": 3, "column": 5, "word": "TAGS""#;
    let message = "no earlier item of this list is called TAGS";
    let advice = "the target must stand before it, under the same group";
    let said = format!(r#""message": "{message}", "advice": "{advice}""#);
    assert_eq!((status, out), (1, format!("{{\"refused\": {{{place}, {said}}}}}\n")));
    assert!(err.starts_with("(standard input):3:5: no earlier item"), "{err}");
    let (status, out, err) = ran(&["layout", "--csv"], text);
    assert_eq!((status, out.as_str()), (1, ""));
    assert!(err.starts_with("(standard input):3:5: no earlier item"), "{err}");
    // without a place, and without a word; and a word with marks of its own
    let (_, out, _) = ran(&["layout", "--json"], &" ".repeat(65_536));
    assert!(out.starts_with(r#"{"refused": {"number": 1, "position": 0, "line": null, "column": null, "word": null,"#));
    let (_, out, _) = ran(&["layout", "--json"], "\"\\\u{1b} A.");
    assert!(out.contains(r#""word": "\"\\\u001b", "message": "\"\\\\x1b is no level"#), "{out}");
}

/// The lengths that a record with varying tables has: what they hold moves what stands behind them.
#[test]
fn lengths_of_variable_records() {
    let lengths = |text: &str| {
        let json = ran(&["layout", "--json"], text).1;
        let number = |field: &str| {
            let (_, behind) = json.split_once(&format!("\"{field}\": ")).expect(field);
            behind.split([',', '}']).next().unwrap().to_owned()
        };
        ["record_length", "shortest", "longest"].map(number).join(" ")
    };
    assert_eq!(lengths("05 A PIC X(3)."), "3 3 3");
    assert_eq!(lengths("05 N PIC 9. 05 T OCCURS 2 TO 5 DEPENDING ON N. 10 A PIC XX. 05 B PIC X."), "2 6 12");
    // without TO the least is 1; a table in a table
    let text = "05 N PIC 9. 05 G OCCURS 2. 10 T PIC XX OCCURS 5 DEPENDING ON N. 10 C PIC X. 05 B PIC X.";
    assert_eq!(lengths(text), "4 8 24");
    let text = "05 N PIC 9. 05 T OCCURS 0 TO 3 DEPENDING ON N. 10 U PIC X OCCURS 1 TO 2 DEPENDING ON N.";
    assert_eq!(lengths(text), "1 1 7");
    // a redefiner moves nothing, and its target moves both
    let text = "05 N PIC 9. 05 A PIC X(4). 05 B REDEFINES A. 10 T PIC X OCCURS 0 TO 9 DEPENDING ON N. 05 C PIC X.";
    assert_eq!(lengths(text), "6 6 10");
    let text = "05 N PIC 9. 05 A. 10 T PIC X OCCURS 0 TO 9 DEPENDING ON N. 05 B REDEFINES A PIC X. 05 C PIC X.";
    assert_eq!(lengths(text), "2 2 11");
    let cards = "000100 05 N PIC 9.\n000200 05 T PIC X OCCURS 3 TO\n000300     5 DEPENDING ON N.\n";
    let json = ran(&["layout", "--json", "--cards"], cards).1;
    assert!(json.contains(r#""occurs": 5, "least": 3, "stride": 1, "depending_on": "N""#), "{json}");
}

/// What a program decodes by: the usage as the copybook has it, the order of a binary's bytes, and where a sign stands.
#[test]
fn usages_and_signs() {
    let text = "01 R COMP-5. 05 A PIC X. 05 B PIC 9 COMP. 05 C PIC 9 Computational-5.";
    let json = ran(&["layout", "--json"], text).1;
    for row in [
        r#""usage": "COMP-5", "storage": null, "endian": null, "#,
        r#""usage": "COMP", "storage": "binary", "endian": "big", "#,
        r#""usage": "Computational-5", "storage": "binary", "endian": "native", "#,
    ] {
        assert!(json.contains(row), "{json}");
    }
    assert!(ran(&["layout", "--json"], "05 A PIC X.").1.contains(r#""usage": null, "storage": null"#));
    let sign = |clause: &str| {
        let json = ran(&["layout", "--json"], &format!("05 A PIC {clause}.")).1;
        json.split("\"sign\": ").nth(1).unwrap().split(", \"").next().unwrap().to_owned()
    };
    assert_eq!(sign("9(3) SIGN LEADING"), r#""none""#);
    assert_eq!(sign("S9(3)"), r#""trailing""#);
    assert_eq!(sign("S9(3)V9 SIGN IS TRAILING"), r#""trailing""#);
    assert_eq!(sign("S9(3) LEADING"), r#""trailing""#);
    assert_eq!(sign("S9(3) SIGN LEADING"), r#""leading""#);
    assert_eq!(sign("S9(3) SIGN LEADING SEPARATE"), r#""separate leading""#);
    assert_eq!(sign("S9(3) SIGN SEPARATE"), r#""separate trailing""#);
    assert_eq!(["S9 COMP", "S9 COMP-3", "-9", "X"].map(sign), ["null"; 4]);
    // the record's name and level, where it has them
    let record = |text: &str| {
        let json = ran(&["layout", "--json"], text).1;
        json.split(", \"record_length\"").next().unwrap().to_owned()
    };
    assert_eq!(record("02 R-1. 05 A PIC X."), r#"{"record": "R-1", "record_level": 2"#);
    assert_eq!(record("01. 05 A PIC X."), r#"{"record": "FILLER", "record_level": 1"#);
    assert_eq!(record("01 A PIC X."), r#"{"record": null, "record_level": null"#);
    assert!(ran(&["layout", "--table"], "01. 05 A PIC X.").1.starts_with("01 FILLER, record of 1 byte; "));
    assert!(ran(&["layout", "--table"], "01 A PIC X.").1.starts_with("record of 1 byte; "));
}

/// Slack at the end of groups, inside one another, in the table and by its bytes.
#[test]
fn slack_at_ends() {
    let text = "01 R. 05 G OCCURS 2. 10 H OCCURS 2. 15 A PIC 9(5) COMP SYNC. 15 B PIC X. 10 C COMP-2 SYNC. 10 D PIC X.";
    let table = ran(&["layout", "--table"], text).1;
    let slack: Vec<_> = table.lines().filter(|line| line.contains("(slack)")).map(str::trim).collect();
    assert_eq!(slack.len(), 2, "{table}");
    assert!(slack[0].starts_with("5     7      3      (slack)") && slack[0].ends_with("at the end of H"), "{table}");
    assert!(slack[1].starts_with("25    31      7    (slack)") && slack[1].ends_with("at the end of G"), "{table}");
    assert_eq!(ran(&["owner", "-", "46"], text).1, "46 slack at the end of 1 G(2).H(2)\n");
    assert_eq!(ran(&["owner", "-", "63"], text).1, "63 slack at the end of 0 G(2)\n");
    let json = ran(&["layout", "--json"], text).1;
    let ends: Vec<_> = json.split("\"slack_at_end\": ").skip(1).map(|rest| rest.split(',').next().unwrap()).collect();
    assert_eq!(ends, ["7", "3", "0", "0", "0", "0"]);
}

/// A flat record: a row for each occurrence, with a name of its own, and what has its bytes too.
#[test]
fn flat_records() {
    // without what is said of the record
    let flat = |text: &str| {
        let (status, out, err) = ran(&["layout", "--csv", "--flat"], text);
        assert_eq!((status, err.as_str()), (0, ""));
        out.lines().skip(1).map(|line| line.splitn(7, ',').nth(6).unwrap().to_owned()).collect::<Vec<_>>()
    };
    let rows = flat("05 S PIC X. 05 T OCCURS 2. 10 A PIC X. 10 B PIC 9 OCCURS 2.");
    let starts = [
        "S,0,S,0,1,text,",
        "A(1),2,T.A,1,1,text,",
        "\"B(1,1)\",3,T.B,2,1,int,,display,,1,0,false,none,9,",
        "\"B(1,2)\",3,T.B,3,1,int,",
        "A(2),2,T.A,4,1,text,",
        "\"B(2,1)\",3,T.B,5,1,int,",
        "\"B(2,2)\",3,T.B,6,1,int,",
    ];
    assert!(rows.len() == 7 && rows.iter().zip(starts).all(|(row, start)| row.starts_with(start)), "{rows:?}");
    // names that come again, in any case, and one that looks like a number of another
    let rows =
        flat("05 FILLER PIC X. 05 filler PIC X. 05 FILLER#2 PIC X. 05 A(1) PIC X. 05 A PIC X OCCURS 1. 05 B PIC X.");
    let names: Vec<&str> = rows.iter().map(|row| row.split(',').next().unwrap()).collect();
    assert_eq!(names, ["FILLER", "filler#2", "FILLER#2#2", "A(1)", "A#2(1)", "B"]);
    // a redefiner, and what it doesn't reach
    let rows = flat("05 A PIC X(4). 05 B REDEFINES A. 10 C PIC XX. 10 D PIC X. 05 E PIC X.");
    let shares: Vec<&str> = rows.iter().map(|row| row.rsplit(',').next().unwrap()).collect();
    assert_eq!(shares, ["\"C D\"", "A", "A", ""]);
    // behind a varying table places vary, in a later occurrence of a group that has one too
    let text = "05 N PIC 9. 05 G OCCURS 2. 10 A PIC X. 10 T PIC X OCCURS 1 TO 3 DEPENDING ON N. 10 B PIC X. \
        05 C PIC X. 05 D REDEFINES G PIC X.";
    let (_, json, _) = ran(&["layout", "--json", "--flat"], text);
    let after = |name: &str| {
        let row = json.lines().find(|line| line.contains(&format!("{{\"name\": \"{name}\""))).expect(name);
        let place = row.split("\"after\": ").nth(1).unwrap();
        place.split(',').next().unwrap().to_owned()
    };
    let names = ["N", "A(1)", "T(1,2)", "B(1)", "A(2)", "T(2,1)", "B(2)", "C", "D"];
    let found: Vec<String> = names.iter().map(|name| after(name)).collect();
    let table = "\"G.G.T\"";
    assert_eq!(found, ["null", "null", "null", table, table, table, table, table, "null"]);
    // too many, of which some may hold nothing
    let (status, out, err) = ran(&["layout", "--json", "--flat"], "05 A PIC X OCCURS 100001.");
    assert_eq!((status, out.as_str()), (2, ""));
    assert!(err.starts_with("copybook: (standard input): it has 100001 occurrences"), "{err}");
    assert_eq!(flat("05 C PIC X. 05 A OCCURS 2000000000. 10 B PIC X OCCURS 0.").len(), 1);
    fails(&["layout", "--flat"], "--flat is for --json and for --csv");
    fails(&["layout", "--flat", "--table"], "--flat is for --json and for --csv");
}

/// Several files in one run: each answer has the name of its file, and the worst decides the exit status.
#[test]
fn several_files() {
    let folder = Folder::new("several");
    let good = folder.file("good.cpy", b"05 A PIC X.");
    let wrong = folder.file("wrong.cpy", b"05 A PIC Q.");
    let empty = folder.file("empty.cpy", b"");
    let none = folder.0.join("none.cpy").to_str().unwrap().to_owned();
    let (status, out, _) = ran(&["layout", &good, &wrong], "");
    let expected = format!("file {good}\nrecord 1 fixed 1\n0 A 0 1 text - - -\nfile {wrong}\nrefused 25 0\n");
    assert_eq!((status, out), (1, expected));
    let (status, out, _) = ran(&["layout", "--table", &good, "-"], "05 B PIC X.");
    let tables: Vec<&str> = out.split("\n\n").collect();
    assert_eq!((status, tables.len()), (0, 4));
    assert!(tables[0].starts_with(&format!("{good}:\nrecord of 1 byte")), "{out}");
    assert!(tables[2].starts_with("(standard input):\nrecord of 1 byte"), "{out}");
    let (status, out, err) = ran(&["layout", "--json", &none, &empty, &good, &wrong], "");
    let lines: Vec<&str> = out.lines().collect();
    assert_eq!((status, lines.len()), (2, 4));
    assert_eq!(lines[0], format!("{{\"file\": \"{none}\", \"failed\": \"there is no such file\"}}"));
    let none = r#""record": null, "record_level": null"#;
    let record = r#""record_length": 0, "variable": false, "shortest": 0, "longest": 0, "entries": []"#;
    assert_eq!(lines[1], format!("{{\"file\": \"{empty}\", {none}, {record}}}"));
    assert!(lines[2].starts_with(&format!("{{\"file\": \"{good}\", {none}, \"record_length\": 1, ")), "{out}");
    assert!(lines[3].starts_with(&format!("{{\"file\": \"{wrong}\", \"refused\": {{\"number\": 25, ")), "{out}");
    assert!(err.contains("none.cpy: there is no such file\n") && err.contains("wrong.cpy:1:1: Q in"), "{err}");
    let (status, out, _) = ran(&["layout", "--csv", &wrong, &good, &empty, &good], "");
    let lines: Vec<&str> = out.lines().collect();
    assert_eq!((status, lines.len()), (1, 3));
    assert!(lines[0].starts_with("file,record,record_level,record_length,") && lines[1] == lines[2], "{out}");
    assert!(lines[1].starts_with(&format!("{good},,,1,false,1,1,0,")), "{out}");
    assert_eq!(ran(&["layout", &empty, &good], "").0, 3);
    assert_eq!(ran(&["layout", "--csv", &good, &good], "").1.lines().count(), 3);
}

/// A standard output that is closed is an error, said once, whatever was to be written; /dev/null is none.
#[test]
fn an_output_that_is_closed() {
    let folder = Folder::new("none");
    let (good, wrong) = (folder.file("a.cpy", FISH.as_bytes()), folder.file("b.cpy", b"05 A PIC Q."));
    let two = format!("{good} {wrong}");
    let uses = [format!("layout {two}"), format!("layout --csv {two}"), format!("owner {good}"), "help".into()];
    for words in uses {
        let ran = |redirected: &str| {
            let line = format!("{PROGRAM} {words} {redirected}");
            let output = Command::new("sh").args(["-c", &line]).output().expect("a shell");
            (output.status.code(), String::from_utf8(output.stderr).unwrap())
        };
        assert_eq!(ran(">&-"), (Some(2), "copybook: standard output is closed\n".into()), "{words}");
        assert_ne!(ran(">/dev/null").0, Some(2), "{words}");
    }
}

/// A reader that has read enough ends the command, and nothing is wrong.
#[test]
fn a_reader_that_stops() {
    let folder = Folder::new("closed");
    let file = folder.file("long.cpy", b"01 R. 05 A OCCURS 100000 PIC X. 05 B PIC X.");
    let mut child = Command::new(PROGRAM)
        .args(["owner", &file])
        .stdout(Stdio::piped())
        .stderr(Stdio::piped())
        .spawn()
        .expect("the command starts");
    let mut first = [0; 4];
    child.stdout.take().unwrap().read_exact(&mut first).unwrap();
    let output = child.wait_with_output().unwrap();
    assert_eq!((output.status.code(), &first, output.stderr.as_slice()), (Some(0), b"0-0 ", &b""[..]));
}

#[test]
fn standard_input_where_no_file_is_named() {
    let expected = ran(&["layout"], FISH);
    assert_eq!((expected.0, expected.2.as_str()), (0, ""));
    assert!(expected.1.starts_with("record 20 fixed 3\n"));
    assert_eq!(ran(&["layout", "-"], FISH), expected);
    assert_eq!(ran(&["layout", "--lines"], FISH), expected);
    assert_eq!(ran(&["layout", "--", "-"], FISH), expected);
    assert_eq!(ran(&["owner", "5"], FISH).1, "5 slack before 1 SIRE\n");
    assert_eq!(ran(&["owner", "-", "5"], FISH).1, "5 slack before 1 SIRE\n");
    assert_eq!(ran(&["owner", "99999999999999999999"], FISH).1, "refused 41 0\n");
}

#[test]
fn a_refusal_goes_to_both_outputs() {
    let text = "01 BREEDING.\n    05 TAG PIC X(5).\n    05 PARTS REDEFINES TAGS PIC X(5).\n";
    for words in ["layout", "layout --table", "layout --lines", "owner", "reasons 0"] {
        let (status, out, err) = ran(&words.split(' ').collect::<Vec<_>>(), text);
        assert_eq!((status, out.as_str()), (1, "refused 28 38\n"));
        assert!(err.starts_with("(standard input):3:5: no earlier item of this list is called TAGS\n"), "{err}");
        assert!(err.contains("\n        ^                  ~~~~\n"), "{err}");
    }
}

#[test]
fn an_answer_without_entries_says_so() {
    for format in ["--lines", "--table", "--json", "--csv"] {
        let (status, out, err) = ran(&["layout", format], "* nothing\n");
        assert!(status == 3 && !out.is_empty() && err.contains("no item"), "{out}{err}");
    }
    assert_eq!(ran(&["owner"], "").0, 3);
}

/// Places count from 1 in all that is printed, or are hexadecimal.
#[test]
fn places() {
    let table = ran(&["layout", "--table", "--from-1", "--why"], FISH).1;
    assert!(table.starts_with("01 FISH, record of 20 bytes; bytes count from 1\n"), "{table}");
    assert!(
        table.contains("   1      7     8      2  05 SIRE") && table.contains("directly after TAG, at 6;"),
        "{table}"
    );
    let table = ran(&["layout", "--hex"], FISH).1;
    assert!(table.starts_with("01 FISH, record of 20 bytes; bytes count from 0, in hexadecimal\n"), "{table}");
    assert!(table.contains("   1    0x8  0x13      4  05 WT"), "{table}");
    assert_eq!(ran(&["owner", "--from-1", "20"], FISH).1, "20 entry 2 WT(3) dec 4 first 17 place 4\n");
    assert_eq!(ran(&["owner", "--hex", "0x13"], FISH).1, "0x13 entry 2 WT(3) dec 4 first 0x10 place 0x3\n");
    assert_eq!(ran(&["owner", "--hex", "--from-1", "-", "6"], FISH).1, "0x6 slack before 1 SIRE\n");
    let all = ran(&["owner", "--from-1"], FISH).1;
    assert!(all.starts_with("1-5 entry 0 TAG text 5\n6-6 slack before 1 SIRE\n7-8 entry 1 SIRE bin 2\n"), "{all}");
    assert!(ran(&["owner", "--hex"], FISH).1.ends_with("\n0x10-0x13 entry 2 WT(3) dec 4\n"));
    assert_eq!(ran(&["owner", "--from-1", "21"], FISH).1, "refused 41 0\n");
}

/// The last column is broken at blanks, and stays as wide as it needs to be read.
#[test]
fn tables_of_a_width() {
    let lines = |words: &[&str]| ran(&[&["layout", "--table"], words].concat(), FISH).1;
    let whole = lines(&[]);
    assert_eq!(lines(&["--width", "0"]), whole);
    assert_eq!(lines(&["--width=200"]), whole);
    let narrow = lines(&["--width", "79"]);
    assert!(narrow.lines().all(|line| line.len() <= 79), "{narrow}");
    let last = "   1      8    19      4  05 WT    9(3)V9          display, 4 digits, 1 after
                                                   the point; OCCURS 3, every 4
                                                   bytes
";
    assert!(narrow.ends_with(last), "{narrow}");
    let joined = |table: &str| table.split_whitespace().collect::<Vec<_>>().join(" ");
    assert_eq!(joined(&narrow), joined(&whole));
    assert!(lines(&["--width=9"]).lines().all(|line| line.len() <= 51 + 20));
    let why = lines(&["--why", "--width=152"]);
    assert!(why.lines().all(|line| line.len() <= 152) && why.contains("at 5; 1 byte"), "{why}");
}

/// Whatever a copybook has, the table shows no control character.
#[test]
fn names_of_any_bytes() {
    let text = "05 A\u{1b}[2J\u{7} PIC X. 05 \"B\\\",C PIC X.";
    let (status, table, _) = ran(&["layout", "--table"], text);
    assert_eq!(status, 0);
    assert!(!table.contains(|c: char| c.is_control() && c != '\n'), "{table}");
    assert!(ran(&["layout", "--json"], text).1.contains(r#""name": "A\u001b[2J\u0007""#));
    assert!(ran(&["layout", "--json"], text).1.contains(r#""name": "\"B\\\",C""#));
    assert!(ran(&["layout", "--csv"], text).1.contains(r#","""B\"",C","#));
    // nor does any other answer for people, nor what is said
    let escaped = r"A\x1b[2J\x07";
    let name = "A\u{1b}[2J\u{7}";
    let refused = format!("05 {name}.");
    for (words, text) in [
        (&["owner"][..], text),
        (&["reasons"], text),
        (&["layout", "--why"], text),
        (&["extract", "-", "--limit=9", "1", "2"], text),
        (&["layout"], refused.as_str()),
        (&["extract", "-", "--limit=9", name], text),
        (&["key", name, "-", "-"], text),
        (&["owner", "-", name], text),
        (&["layout", name], text),
        (&["layout", &format!("--{name}")], text),
        (&[name], text),
    ] {
        let (_, out, err) = ran(words, text);
        let all = out + &err;
        assert!(all.contains(escaped) && !all.contains(|c: char| c.is_control() && c != '\n'), "{words:?}: {all}");
    }
}

// ---------------------------------------------------------------- cards

const CARDS: &str = "000010 01 REC.\n000020    05 TAG PIC X(5).\n000030    05 AGE PIC 99.\n";
const TRY_CARDS: &str = "(standard input): its lines look like cards with columns: try --cards\n";

#[test]
fn cards_are_read_by_their_columns() {
    let (status, out, err) = ran(&["layout", "--cards"], CARDS);
    assert_eq!((status, err.as_str()), (0, ""));
    assert_eq!(out, "record 7 fixed 2\n0 TAG 0 5 text - - -\n0 AGE 5 2 int - - -\n");
    let (status, out, err) = ran(&["owner", "--cards", "5"], CARDS);
    assert_eq!((status, out.as_str(), err.as_str()), (0, "5 entry 1 AGE int 2 first 5 place 0\n", ""));
    let (status, json, err) = ran(&["layout", "--cards", "--json"], CARDS);
    assert_eq!((status, err.as_str()), (0, ""));
    assert!(json.contains("\"position\": 25, \"line\": 2, \"column\": 11"), "{json}");
    fails(&["picture", "--cards", "X"], "there is no option --cards");
}

/// Read as free text, sequence numbers become levels and levels names.
#[test]
fn cards_that_are_read_as_free_text() {
    let (status, out, err) = ran(&["layout"], CARDS);
    assert_eq!((status, err.as_str()), (0, TRY_CARDS));
    assert!(out.starts_with("record 2 fixed 1\n0 05 0 2 group"), "{out}");
    // of an answer for people the status says so too
    for words in [&["layout", "--table"][..], &["owner"], &["reasons", "0"]] {
        let (status, _, err) = ran(words, CARDS);
        assert_eq!((status, err.as_str()), (3, TRY_CARDS));
    }
    // letters before the indicator, a tab or a hyphen in its place, and a line that is refused
    let others = ["000020*", "00002A ", "CR0020 ", "  CR20 ", "000020\t", "000020-", "000020d"];
    for card in others {
        let (_, _, err) = ran(&["layout"], &CARDS.replace('\n', "\r\n").replace("000020 ", card));
        assert!(err.starts_with(TRY_CARDS), "{card}: {err}");
    }
    // lines that are no cards
    for other in [format!("REMARKS:\n{CARDS}"), CARDS.replace("000020 ", "000020X"), CARDS.replace("000020 ", "00 2A ")]
    {
        let err = ran(&["layout"], &other).2;
        assert!(!err.contains("--cards"), "{err}");
    }
    // as cards it is the same
    let indented = "           05 TAG PIC X(5)\n           VALUE ZERO. 05 5 PIC Q.\n";
    let (status, _, err) = ran(&["layout"], indented);
    assert!(status == 1 && !err.contains("--cards"), "{err}");
}

/// Bytes over 127, one for one; what is said has their lines, but not too many of them.
#[test]
fn bytes_over_127() {
    let text = "* S\u{f8}\n05 M\u{c5}L PIC X.\n05 T PIC X. *> \u{e6}\n";
    let (status, out, err) = ran(&["layout", "--any-bytes"], text);
    assert_eq!((status, out.as_str()), (0, "record 2 fixed 2\n0 M??L 0 1 text - - -\n0 T 1 1 text - - -\n"));
    assert_eq!(err, "(standard input): 6 bytes are over 127 and read as ?, on lines 1, 2, 3\n");
    let one = run(&["owner", "--any-bytes", "0"], b"\n05 \xc5 PIC X.");
    assert_eq!(one.stdout, b"0 entry 0 ? text 1 first 0 place 0\n");
    assert_eq!(one.stderr, b"(standard input): 1 byte is over 127 and read as ?, on line 2\n");
    let many = "*\u{e6}\n".repeat(12) + "05 A PIC X.";
    let (_, out, err) = ran(&["reasons", "--any-bytes", "0"], &many);
    assert_eq!(out, "A starts at byte 0: first in its list\n");
    assert!(err.ends_with("24 bytes are over 127 and read as ?, on lines 1, 2, 3, 4, 5, 6, 7, 8, 9, 10, and 2 more\n"));
    assert_eq!(ran(&["layout", "--any-bytes"], FISH).2, "");
    // positions are those of the file
    let (_, out, err) = ran(&["layout", "--any-bytes"], "* \u{f8}\n05 A PIC Q.");
    assert!(out == "refused 25 5\n" && err.contains("(standard input):2:1: Q in the picture"), "{out}{err}");
    let chosen = ran(&["extract", "--any-bytes", "-", "--limit=1", "1"], "05 \u{c5} PIC X.");
    assert_eq!(chosen.0, 0, "{}", chosen.2);
}

#[test]
fn carriage_returns_alone_end_no_line() {
    const SAID: &str =
        "(standard input): its lines end in carriage returns alone, and are read as one: end each with byte 10\n";
    let returns = CARDS.replace('\n', "\r");
    assert!(ran(&["layout", "--cards"], &returns).2.contains(SAID));
    assert!(ran(&["layout"], &returns).2.contains(SAID));
    assert!(ran(&["owner", "--cards"], &returns).2.contains(SAID));
    assert_eq!(ran(&["layout", "--cards"], "000010 05 TAG PIC X.\r").2, "");
    assert_eq!(ran(&["layout", "--cards"], &CARDS.replace('\n', "\r\n")).2, "");
}

/// Why a column stands where it does: by number and by name, nested, and of every entry of a name.
#[test]
fn reasons() {
    let sire = "SIRE starts at byte 6: directly after TAG, at 5; 1 byte of slack, aligned to 2\n";
    assert_eq!(ran(&["reasons", "1"], FISH), (0, sire.into(), String::new()));
    assert_eq!(ran(&["reasons", "-", "sire"], FISH), (0, sire.into(), String::new()));
    let nested = "05 A PIC X(4). 05 G. 10 B PIC X. 10 C PIC 9(9) COMP SYNC.";
    let told = "C starts at byte 8: directly after B, at 1; 3 bytes of slack, aligned to 4; 4 bytes so far\n  \
        inside G: directly after A, at 4; 8 bytes so far\n";
    assert_eq!(ran(&["reasons", "-", "C"], nested).1, told);
    let from_1 = "C starts at byte 9: directly after B, at 2; 3 bytes of slack, aligned to 4; 4 bytes so far\n  \
        inside G: directly after A, at 5; 8 bytes so far\n";
    assert_eq!(ran(&["reasons", "--from-1", "-", "C"], nested).1, from_1);
    assert_eq!(
        ran(&["reasons", "--from-1", "--hex", "3"], nested).1,
        from_1.replace("byte 9", "byte 0x9").replace("at 2", "at 0x2").replace("at 5", "at 0x5")
    );
    // the slack at the end of what stands before; none where it reserves nothing
    let padded = "01 R. 05 G OCCURS 2. 10 A PIC 9 COMP SYNC. 10 B PIC X. 05 C PIC X. 05 H OCCURS 0. 10 A COMP-1 SYNC. \
        10 B PIC X. 05 D PIC X.";
    assert_eq!(
        ran(&["reasons", "-", "C"], padded).1,
        "C starts at byte 8: directly after G and the slack at its end, at 8\n"
    );
    assert_eq!(ran(&["reasons", "-", "D"], padded).1, "D starts at byte 9: directly after H, at 9\n");
    let folded = "05 A PIC X. 05 B PIC X. 05 C REDEFINES B PIC X.";
    let told = "entry 1: B starts at byte 1: directly after A, at 1\n\
        entry 2: B starts at byte 1: directly after A, at 1\n";
    assert_eq!(ran(&["reasons", "-", "b"], folded).1, told);
    assert_eq!(ran(&["reasons", "-", "c"], folded).1, "C starts at byte 1: laid over B, at 1\n");
    assert_eq!(ran(&["reasons", "-", "c", "--from-1"], folded).1, "C starts at byte 2: laid over B, at 2\n");
    assert_eq!(ran(&["reasons", "3"], FISH).1, "refused 53 0\n");
    // without an entry or a name, all
    let all = "entry 0: A starts at byte 0: first in its list\n".to_owned()
        + told
        + "entry 3: C starts at byte 1: laid over B, at 1\n";
    assert_eq!(ran(&["reasons", "-"], folded), (0, all.clone(), String::new()));
    assert_eq!(ran(&["reasons"], folded).1, all);
    fails(&["reasons", "SIRE"], "SIRE: there is no such file");
    let (status, out, err) = ran(&["reasons", "-", "DAM"], FISH);
    assert_eq!((status, out.as_str()), (1, ""));
    assert_eq!(err, "(standard input): no entry is called DAM\n");
    let err = ran(&["reasons", "-", "sier"], FISH).2;
    assert_eq!(err, "(standard input): no entry is called sier; is SIRE meant?\n");
}

/// The table says why, where it is asked to.
#[test]
fn table_with_reasons() {
    let (status, out, _) = ran(&["layout", "--why"], FISH);
    assert_eq!(status, 0);
    assert!(out.contains("why\n") && out.contains("directly after TAG, at 5; 1 byte of slack"), "{out}");
    assert!(!ran(&["layout", "--table"], FISH).1.contains("why"));
}

/// The key of a set; else which file is to blame, and why.
#[test]
fn keys() {
    let folder = Folder::new("keys");
    let said = |second: &str| {
        let first = folder.file("a.cpy", b"05 A PIC X. 05 K PIC Z99.");
        let second = folder.file("b.cpy", second.as_bytes());
        let (status, out, err) = ran(&["key", "k", &first, &second], "");
        let line = err.lines().next().unwrap_or("").rsplit('/').next().unwrap().to_owned();
        (status, out, line.replace(&first, "a.cpy"))
    };
    let answered = |offset: usize, width: usize| (0, format!("offset {offset}\nwidth {width}\n"), String::new());
    assert_eq!(said("05 B PIC 9.\n05 K PIC Z9(2)."), answered(1, 3));
    let blames = |second: &str, words: &str| {
        let (status, out, line) = said(second);
        assert_eq!((status, out.as_str()), (1, "refused 57 0\n"));
        assert!(line.starts_with(&format!("b.cpy: {words}")), "{line}");
    };
    blames("05 B PIC X.", "no column is called k");
    blames("05 G. 10 K PIC X. 05 H PIC X.", "k stands in a group, and not at the top");
    blames("05 K PIC X. 05 k PIC X.", "2 columns at the top are called k");
    blames("05 K. 10 B PIC X. 05 H PIC X.", "k is a group");
    blames("05 K PIC X OCCURS 2.", "k has an OCCURS");
    blames("05 B PIC X. 05 C REDEFINES B PIC X. 05 K REDEFINES C PIC X.", "k has a REDEFINES");
    blames("05 G. 10 T PIC X OCCURS 2 DEPENDING ON N. 05 K PIC X.", "k stands behind T, which has a DEPENDING ON");
    let (status, out, err) = ran(&["key", "K", "-"], "05 K PIC X.");
    assert_eq!((status, out.as_str()), (1, "refused 56 0\n"));
    assert_eq!(
        err,
        "(standard input): 1 copybook is given, and a key is for 2 to 16 copybooks\n    give two to sixteen\n"
    );
    // a copybook that is refused is told as by layout, with its own name
    let (status, out, line) = said("05 B PIC X.\n 05 K PIC Q.");
    assert_eq!((status, out.as_str()), (1, "refused 25 13\n"));
    assert_eq!(line, "b.cpy:2:2: Q in the picture of K is no symbol of a picture");
}

/// In what the key of another file differs.
#[test]
fn keys_that_differ() {
    let folder = Folder::new("differ");
    let blames = |second: &str, words: &str| {
        let first = folder.file("a.cpy", b"05 A PIC X. 05 K PIC Z99.");
        let second = folder.file("b.cpy", second.as_bytes());
        let (status, out, err) = ran(&["key", "K", &first, &second], "");
        assert_eq!((status, out.as_str()), (1, "refused 57 0\n"));
        assert!(err.starts_with(&format!("{second}: {words} in {first}")), "{err}");
    };
    blames("05 K PIC Z99.", "it starts at byte 0, and at 1");
    blames("05 A PIC X. 05 K PIC X.", "it is 1 byte wide, and 3");
    blames("05 A PIC X. 05 K PIC ZZ9.", "its mask is ZZ9, and Z99");
    let first = folder.file("a.cpy", b"05 K PIC 9(4).");
    let second = folder.file("b.cpy", b"05 K PIC X(4).");
    let err = ran(&["key", "K", &first, &second], "").2;
    assert!(err.starts_with(&format!("{second}: it holds: text; and in {first}: display, 4 digits\n")), "{err}");
}
