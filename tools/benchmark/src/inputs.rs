//! The copybooks and pictures that are measured. Each copybook has exactly as many statements as asked, its 01 counted,
//! so at 800 it is the longest that is accepted.

use product::{SignKind, Usage};

/// How many statements the copybooks have.
pub const SIZES: [usize; 5] = [5, 20, 100, 400, 800];

/// A sort of copybook.
pub struct Shape {
    pub name: &'static str,
    /// Whether it is one of the four that are as copybooks mostly are.
    pub plain: bool,
    /// The fewest statements that it makes sense with.
    pub least: usize,
    /// The statements of one that has so many.
    statements: fn(usize) -> Vec<String>,
}

impl Shape {
    /// A copybook of so many statements.
    pub fn text(&self, n: usize) -> String {
        let statements = (self.statements)(n);
        assert_eq!(statements.len(), n);
        statements.concat()
    }

    /// The sizes that it makes sense with.
    pub fn sizes(&self) -> impl Iterator<Item = usize> + '_ {
        SIZES.into_iter().filter(|&n| n >= self.least)
    }
}

const fn shape(name: &'static str, plain: bool, least: usize, statements: fn(usize) -> Vec<String>) -> Shape {
    Shape { name, plain, least, statements }
}

pub const SHAPES: [Shape; 9] = [
    shape("flat", true, 5, flat),
    shape("nested", true, 5, nested),
    shape("REDEFINES", true, 5, redefines),
    shape("long pictures, comments", true, 5, long),
    shape("all redefine the first", false, 5, over_the_first),
    shape("half redefine the other half", false, 5, over_the_other_half),
    shape("60 groups deep", false, 100, deep),
    shape("own-name groups, redefined", false, 5, own_names),
    shape("groups of one item", false, 5, single),
];

/// How many of the shapes, the first ones, have no REDEFINES and no DEPENDING ON: the byte owner refuses others.
pub const OWNED: usize = 2;

/// Statements below one 01, by number from 1 on.
fn below_01(n: usize, statement: impl FnMut(usize) -> String) -> Vec<String> {
    std::iter::once("01 REC.\n".into()).chain((1..n).map(statement)).collect()
}

/// Elementary items of every usage.
fn flat(n: usize) -> Vec<String> {
    const CLAUSES: [&str; 5] = ["X(10)", "9(5)", "S9(7)V99 COMP-3", "9(4) COMP", "Z(6)9.99"];
    below_01(n, |i| format!("    05 FIELD-{i} PIC {}.\n", CLAUSES[i % 5]))
}

/// Six groups, one inside the other, then one to three items, again and again.
fn nested(n: usize) -> Vec<String> {
    let mut depth = 0;
    below_01(n, |i| {
        let level = 5 + 2 * depth;
        if depth < 6 && i < n - 1 {
            depth += 1;
            return format!("{:indent$}{level:02} GROUP-{i}.\n", "", indent = 2 * depth);
        }
        let item = format!("{:indent$}{level:02} FIELD-{i} PIC 9(5).\n", "", indent = 2 * depth);
        if i % 3 == 0 {
            depth = 0;
        }
        item
    })
}

/// An item and three that redefine it, again and again.
fn redefines(n: usize) -> Vec<String> {
    below_01(n, |i| match (i - 1) % 4 {
        0 => format!("    05 BASE-{i} PIC X(10).\n"),
        k => format!("    05 OTHER-{i} REDEFINES BASE-{} PIC 9(10).\n", i - k),
    })
}

/// Edited items whose pictures are written out, each below a line of comment and before a note.
fn long(n: usize) -> Vec<String> {
    const PICTURES: [&str; 3] = ["$$,$$$,$$$,$$9.99CR", "+ZZZ,ZZZ,ZZZ,ZZ9.99", "*,***,***,**9.99DB"];
    below_01(n, |i| format!("* item {i} of the record\n 05 FIELD-{i} PIC {}. *> note\n", PICTURES[i % 3]))
}

/// One item, and all others redefine it.
fn over_the_first(n: usize) -> Vec<String> {
    below_01(n, |i| match i {
        1 => "    05 BASE PIC X(10).\n".into(),
        _ => format!("    05 OTHER-{i} REDEFINES BASE PIC 9(10).\n"),
    })
}

/// Items, and as many after them that redefine each of them in turn.
fn over_the_other_half(n: usize) -> Vec<String> {
    let half = n / 2;
    below_01(n, |i| match i {
        i if i <= half => format!("    05 BASE-{i} PIC X(10).\n"),
        i => format!("    05 OTHER-{i} REDEFINES BASE-{} PIC 9(10).\n", i - half),
    })
}

/// Sixty groups one inside the other, and all items in the innermost.
fn deep(n: usize) -> Vec<String> {
    below_01(n, |i| match i {
        1..=60 => format!("{:02} GROUP-{i}.\n", i + 1),
        _ => format!("62 FIELD-{i} PIC 9(5).\n"),
    })
}

/// Groups that have a member of their own name, each with an item that redefines it.
fn own_names(n: usize) -> Vec<String> {
    below_01(n, |i| match ((i - 1) / 4, (i - 1) % 4) {
        (k, 0) if i < n - 1 => format!("    05 GROUP-{k}.\n"),
        (k, 1) => format!("        10 GROUP-{k} PIC X(6).\n"),
        (k, 2) => format!("        10 FIELD-{k} PIC 9(4).\n"),
        (k, 3) => format!("    05 OTHER-{k} REDEFINES GROUP-{k} PIC X(10).\n"),
        _ => format!("    05 FIELD-{i} PIC X.\n"),
    })
}

/// Groups with one item each.
fn single(n: usize) -> Vec<String> {
    below_01(n, |i| match i % 2 {
        1 if i < n - 1 => format!("    05 GROUP-{i}.\n"),
        1 => format!("    05 FIELD-{i} PIC X.\n"),
        _ => format!("        10 FIELD-{i} PIC 9(5).\n"),
    })
}

/// The same three items in a record of 20 bytes, and in the longest record.
pub const RECORDS: [(usize, &str); 2] = [
    (20, "01 R. 05 TAG PIC X(5). 05 SIRE PIC 9(4) COMP SYNC. 05 WT OCCURS 12 PIC X."),
    (2_147_483_647, "01 R. 05 TAG PIC X(5). 05 SIRE PIC 9(4) COMP SYNC. 05 WT OCCURS 2147483639 PIC X."),
];

/// A dozen pictures, with usage and sign.
pub const PICTURES: [(&str, Usage, Option<SignKind>); 12] = [
    ("X", Usage::Display, None),
    ("X(30)", Usage::Display, None),
    ("A(5)X(250)", Usage::Display, None),
    ("9(4)", Usage::Comp, None),
    ("S9(9)", Usage::Comp, None),
    ("S9(7)V99", Usage::Comp3, None),
    ("S9(4)", Usage::Display, None),
    ("S9(5)V9(4)", Usage::Display, Some(SignKind::LeadingSeparate)),
    ("ZZ9.99", Usage::Display, None),
    ("Z(6)9.99", Usage::Display, None),
    ("$$,$$$,$$$,$$9.99CR", Usage::Display, None),
    ("*(9)9.9(4)-", Usage::Display, None),
];

/// A copybook on cards, with sequence numbers, its lines cut between words where they pass column 72.
pub fn on_cards(text: &str) -> String {
    const ROOM: usize = 65;
    let mut codes: Vec<String> = Vec::new();
    for line in text.lines() {
        codes.push(String::new());
        for word in line.split_whitespace() {
            let code = codes.last_mut().expect("a line");
            if code.len() + 1 + word.len() > ROOM {
                codes.push(word.to_owned());
            } else {
                code.push(' ');
                code.push_str(word);
            }
        }
    }
    codes.iter().zip(1..).map(|(code, number)| format!("{:06} {code}\n", number * 10)).collect()
}

/// What is read of such cards, as free text of the same places: blanks for the sequence numbers.
pub fn seen_of(cards: &str) -> String {
    cards.lines().map(|card| format!("{:6}{}\n", "", &card[6..])).collect()
}
