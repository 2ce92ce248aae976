//! Copybooks and pictures at random, from a seed. The lists of written inputs and what is made of them in every
//! combination are those of tools/inputs, which `run` asks for a part of the inputs; the random families are made
//! here, since there are many of them:
//!   nested groups with every clause, SYNC, OCCURS DEPENDING ON, dropped roots     nested, long
//!   folds with few names, names in any case, own-name groups                      folded
//!   absent names beside FILLER                                                    fillers
//!   every white space, comments, periods in odd places                            spread, marked
//!   keywords in any order                                                         soup
//!   quotes and apostrophes, most of them in literals after VALUE                  quoted
//!   damaged copies, of all these and of the written inputs                        damaged
//!   any bytes; bytes over 127                                                     raw, marked
//!   counts around 2^31 and 2^64, sums around 2^31                                 large
//!   depths around 64, statements around 800, texts around 65,535 bytes            deep, many
//!   pictures of every sort                                                        picture

/// xorshift64*, started by splitmix64.
pub struct Random(u64);

impl Random {
    pub fn new(seed: u64) -> Self {
        let mut z = seed.wrapping_add(0x9e37_79b9_7f4a_7c15);
        z = (z ^ (z >> 30)).wrapping_mul(0xbf58_476d_1ce4_e5b9);
        z = (z ^ (z >> 27)).wrapping_mul(0x94d0_49bb_1331_11eb);
        Random((z ^ (z >> 31)) | 1)
    }

    pub fn next(&mut self) -> u64 {
        self.0 ^= self.0 >> 12;
        self.0 ^= self.0 << 25;
        self.0 ^= self.0 >> 27;
        self.0.wrapping_mul(0x2545_f491_4f6c_dd1d)
    }

    /// A number below n, which is not 0.
    pub fn below(&mut self, n: usize) -> usize {
        ((self.next() >> 32) * n as u64 >> 32) as usize
    }

    pub fn within(&mut self, least: usize, most: usize) -> usize {
        least + self.below(most - least + 1)
    }

    pub fn chance(&mut self, of: usize, among: usize) -> bool {
        self.below(among) < of
    }

    pub fn one<'a, T: ?Sized>(&mut self, options: &[&'a T]) -> &'a T {
        options[self.below(options.len())]
    }

    fn shuffle<T>(&mut self, list: &mut [T]) {
        for i in (1..list.len()).rev() {
            list.swap(i, self.below(i + 1));
        }
    }
}

#[derive(Clone, PartialEq, Eq, Debug)]
pub enum Input {
    Copybook(Vec<u8>),
    Picture(Vec<u8>),
}

impl Input {
    pub fn text(&self) -> &[u8] {
        match self {
            Input::Copybook(t) | Input::Picture(t) => t,
        }
    }
}

const KEYWORDS: [&str; 36] = [
    "PIC", "PICTURE", "IS", "REDEFINES", "OCCURS", "TO", "TIMES", "DEPENDING", "ON", "USAGE", "DISPLAY", "COMP",
    "COMPUTATIONAL", "COMP-3", "COMPUTATIONAL-3", "PACKED-DECIMAL", "COMP-4", "COMPUTATIONAL-4", "COMP-5",
    "COMPUTATIONAL-5", "BINARY", "COMP-1", "SIGN", "LEADING", "TRAILING", "SEPARATE", "CHARACTER", "SYNC",
    "SYNCHRONIZED", "LEFT", "RIGHT", "VALUE", "VALUES", "FILLER", "JUSTIFIED", "BLANK",
];
const SYMBOLS: [&str; 19] =
    ["X", "A", "9", "P", "V", "S", "Z", "*", ".", ",", "/", "B", "0", "$", "+", "-", "C", "D", "R"];
const COUNTS: [&str; 30] = [
    "0", "00", "+0", "1", "+3", "003", "2147483646", "2147483647", "2147483648", "4294967295", "4294967296",
    "9223372036854775807", "9223372036854775808", "18446744073709551614", "18446744073709551615",
    "18446744073709551616", "+18446744073709551615", "000018446744073709551615", "184467440737095516150",
    "36893488147419103233", "-1", "-0", "+", "++3", "3A", "A", "3,", "3.5", "TO", "TIMES",
];
const LARGE: [u64; 12] = [
    2, 3, 255, 32_767, 65_535, 65_536, 1_073_741_823, 1_073_741_824, 2_147_483_640, 2_147_483_645, 2_147_483_646,
    2_147_483_647,
];
const SNIPPETS: [&str; 44] = [
    ".", ". ", " .", "..", ". .", "*", "*>", "**>", "***>", "* >", ".*>", ".**>", ". *>", ">", "\n", "\n*", "\n *",
    "\n*>", "\n.", "\n .*", "*>\n", "*\n", ".\n", ".\n*", "\r", "\r\n", ".\r\n", "\r\n*", "\r*", ".\r", "\x0b", "\x0c",
    "\t", "\x0b*", ".\x0b", ".\x0c*", "\n\x0c*", "\x1c", ".\x1f", "\x00", "\x7f", " *> C.\n", " 88 Q. ", "\u{80}",
];
const NAMES: [&str; 22] = [
    "A", "B", "C", "a", "b", "D", "N", "n", "GRP", "Grp", "FILLER", "filler", "X-1", "X-1", "AMOUNT", "PIC", "OCCURS",
    "5", "A.B", "*A", "A*", "CUSTOMER-NUMBER",
];
const GOOD_PICTURES: [&str; 27] = [
    "X", "X(3)", "X(5)", "XX", "A(2)", "9", "99", "9(4)", "9(5)", "9(9)", "9(10)", "S9(4)", "S9(9)", "S9(5)V99",
    "9(3)V9", "SV99", "99P", "ZZ9", "ZZ9.99", "$$$9", "--9.9", "9(3)CR", "9/9", "S", "X(0)", "9(0)", "x(2)",
];

/// The maker of inputs. `pool` holds texts to be damaged.
pub struct Maker {
    r: Random,
    pool: Vec<Vec<u8>>,
}

impl Maker {
    pub fn new(seed: u64, pool: Vec<Vec<u8>>) -> Self {
        Maker { r: Random::new(seed), pool }
    }

    fn chance(&mut self, percent: usize) -> bool {
        self.r.chance(percent, 100)
    }

    fn one<'a>(&mut self, options: &[&'a str]) -> &'a str {
        self.r.one(options)
    }

    // ------------------------------------------------------------ pictures

    fn repeat(&mut self) -> String {
        match self.r.below(11) {
            0..=3 => String::new(),
            4 => "(1)".into(),
            5 => "(2)".into(),
            6 => "(3)".into(),
            7 => "(0)".into(),
            8 => format!("({})", self.r.below(13)),
            9 => format!("(0{})", self.r.below(10)),
            _ => "(+2)".into(),
        }
    }

    fn picture_of(&mut self, symbols: &[&'static str], most: usize) -> String {
        let mut p = String::new();
        for _ in 0..self.r.within(1, most) {
            p += self.one(symbols);
            p += &self.repeat();
        }
        p
    }

    fn picture_number(&mut self) -> String {
        let sign = self.one(&["", "", "S"]);
        let whole = self.r.below(21);
        let tail = match self.r.below(8) {
            0 | 1 => String::new(),
            2 => "V9".into(),
            3 => "V99".into(),
            4 => format!("V9({})", self.r.below(10)),
            5 => "P".into(),
            6 => "PP".into(),
            _ => "V".into(),
        };
        format!("{sign}9({whole}){tail}")
    }

    fn picture_edited(&mut self) -> String {
        let zs = format!("Z({})", self.r.below(10));
        let head =
            self.one(&["", "$", "$$$", "+", "+++", "-", "---", "$$,$$", &zs, "***", "ZZ,ZZ", "+$$$"]).to_string();
        let nines = "9".repeat(self.r.below(4));
        let tail = self.one(&["", ".99", ".9(3)", "V99", ".ZZ", "BB", "/9", "0"]);
        let end = self.one(&["", "", "+", "-", "CR", "DB", "C(1)R", "D(1)B(1)", "cr", "db"]);
        head + &nines + tail + end
    }

    /// Around the limits of 31 digits, 255 bytes of mask and 65,535 symbols, and of counts.
    fn picture_limit(&mut self) -> String {
        let symbol = self.one(&SYMBOLS);
        let base = *[31usize, 31, 255, 9, 4, 128, 65_535, 65_535, 65_534, 32_768][self.r.below(10)..]
            .first()
            .expect("below 10");
        let n = base + self.r.below(4) - 1;
        let more = self.picture_of(&SYMBOLS, 2);
        let back = self.one(&["", "", "V9", "9", "CR", "-", "S", "P", "X"]);
        match self.r.below(6) {
            0 => format!("{symbol}({n})"),
            1 => format!("{symbol}({n}){more}"),
            2 => format!("{more}{symbol}({n})"),
            3 => format!("9({n}){back}"),
            4 => format!("{symbol}({}){back}", self.one(&COUNTS)),
            _ => format!("{back}{symbol}({n}){back}"),
        }
    }

    /// A picture with one or two things put in, taken out or changed.
    fn picture_odd(&mut self) -> String {
        let p = match self.r.below(3) {
            0 => self.picture_of(&SYMBOLS, 7),
            1 => self.picture_number(),
            _ => self.picture_edited(),
        };
        let mut p = p.into_bytes();
        for _ in 0..self.r.within(1, 2) {
            let i = self.r.below(p.len() + 1);
            let put = self
                .one(&[
                    "(", ")", "X", "Q", "9", ".", "C", "R", "D", "B", " ", "(2)", "(0)", "( 1 )", "(\t2\r)", "\x1c",
                    "(255)", "(256)", "(3", "3)", "()", "((2))", "\n",
                ])
                .bytes();
            let drop = self.r.below(3);
            if drop > 0 && i < p.len() {
                p.remove(i);
            }
            if drop != 1 {
                p.splice(i..i, put);
            }
        }
        String::from_utf8(p).expect("one byte a character")
    }

    fn picture_text(&mut self) -> String {
        let p = match self.r.below(9) {
            0 => self.picture_of(&SYMBOLS, 7),
            1 => self.picture_of(&SYMBOLS, 2),
            2 => self.picture_number(),
            3 => self.picture_edited(),
            4 => self.picture_odd(),
            5 => self.picture_of(&["9", "S", "V", "Z", "$", "+", "-", ".", "P"], 7),
            6 => self.picture_of(&["C", "R", "D", "B", "9"], 7),
            7 => self.picture_of(&["$", "+", "-", "9"], 8),
            _ => self.picture_of(&["X", "A", "V", "S", "P"], 4),
        };
        if self.chance(15) {
            p.to_ascii_lowercase()
        } else {
            p
        }
    }

    pub fn picture(&mut self) -> Vec<u8> {
        match self.r.below(40) {
            0 => self.picture_limit().into_bytes(),
            1 => {
                let around = self.one(&[" ", "\t", "\r\n", "\x0b\x0c", "  ", "\x1c", "\u{a0}"]);
                format!("{around}{}{around}", self.picture_text()).into_bytes()
            }
            2 => {
                let n = self.r.below(9);
                (0..n).map(|_| (self.r.next() >> 40) as u8 & 127).collect()
            }
            3 => {
                let mut p = self.picture_text().into_bytes();
                let i = self.r.below(p.len() + 1);
                p.insert(i, (self.r.next() >> 40) as u8);
                p
            }
            _ => self.picture_text().into_bytes(),
        }
    }

    // ------------------------------------------------------------ copybooks

    fn cased(&mut self, word: &str) -> String {
        match self.r.below(12) {
            0 => word.to_ascii_lowercase(),
            1 => word.bytes().map(|b| if self.r.chance(1, 2) { b.to_ascii_lowercase() } else { b } as char).collect(),
            _ => word.into(),
        }
    }

    fn name(&mut self) -> String {
        self.one(&NAMES).into()
    }

    /// A picture that is one word, mostly a good one.
    fn word_picture(&mut self) -> String {
        let p = match self.r.below(200) {
            0..=124 => self.one(&GOOD_PICTURES).into(),
            125..=159 => self.picture_number(),
            160..=179 => self.picture_edited(),
            180..=198 => self.picture_text(),
            _ => self.picture_limit(),
        };
        let p: String = p.split_ascii_whitespace().collect();
        if p.is_empty() {
            "X".into()
        } else {
            p
        }
    }

    fn count(&mut self) -> String {
        if self.chance(98) {
            self.one(&["0", "1", "2", "3", "5", "+3", "02"]).into()
        } else {
            self.one(&COUNTS).into()
        }
    }

    /// The clauses of a statement, each a list of words.
    fn clauses(&mut self, group: bool, names: &[String]) -> String {
        let mut parts: Vec<String> = Vec::new();
        if !group && self.chance(98) {
            let key = self.one(&["PIC", "PIC", "PICTURE", "PIC IS", "PICTURE IS"]);
            parts.push(format!("{key} {}", self.word_picture()));
        }
        if self.chance(if group { 5 } else { 30 }) {
            let usage = self.one(&[
                "COMP", "COMP", "COMP", "BINARY", "COMP-4", "COMPUTATIONAL-5", "COMP-3", "PACKED-DECIMAL", "DISPLAY",
                "COMP-6",
            ]);
            parts.push(format!("{}{usage}", self.one(&["", "USAGE ", "USAGE IS "])));
        }
        if self.chance(1) {
            let usage = self.one(&["COMP-1", "COMP-2", "COMPUTATIONAL-1", "COMPUTATIONAL-2"]);
            parts.retain(|part| !part.starts_with("PIC") || usage.ends_with("L-2"));
            parts.push(usage.into());
        }
        if self.chance(30) {
            parts.push(self.one(&["SYNC", "SYNCHRONIZED", "SYNC LEFT", "SYNC RIGHT"]).into());
        }
        if self.chance(20) {
            let mut part = format!("OCCURS {}", self.count());
            if self.chance(30) {
                part += &format!(" TO {}", self.count());
            }
            if self.chance(40) {
                part += " TIMES";
            }
            if self.chance(30) {
                part += &format!(" DEPENDING{} {}", self.one(&[" ON", " ON", ""]), self.name());
            }
            parts.push(part);
        }
        if !names.is_empty() && self.chance(20) {
            let target = if self.chance(92) { names[self.r.below(names.len())].clone() } else { self.name() };
            parts.push(format!("REDEFINES {}", self.cased(&target)));
        }
        if self.chance(15) {
            let side = self.one(&["", " IS", " LEADING", " IS LEADING", " TRAILING", " IS TRAILING"]);
            parts.push(format!("SIGN{side}{}", self.one(&["", " SEPARATE", " SEPARATE CHARACTER"])));
        }
        if self.chance(5) {
            parts
                .push(self.one(&["JUSTIFIED", "BLANK WHEN ZERO", "VALUE ZERO", "VALUE 'A. B'", "INDEXED BY I"]).into());
        }
        if self.chance(30) {
            self.r.shuffle(&mut parts);
        }
        if self.chance(2) && !parts.is_empty() {
            let again = parts[self.r.below(parts.len())].clone();
            parts.push(again);
        }
        parts.join(" ")
    }

    /// The statements of a sibling list; `left` is how many may still be made.
    fn siblings(&mut self, above: usize, depth: usize, left: &mut usize, out: &mut Vec<String>) {
        let mut names: Vec<String> = Vec::new();
        let level = above + self.r.within(1, 5);
        for _ in 0..self.r.within(1, 5) {
            if *left == 0 {
                break;
            }
            *left -= 1;
            let group = depth > 0 && *left > 0 && self.chance(40);
            let number = match self.r.below(100) {
                0 => format!("{level}"),
                1 => format!("+{level}"),
                2 => format!("{level:04}"),
                3 => "88".into(),
                4 => format!("{}", level - 1),
                _ => format!("{level:02}"),
            };
            if self.chance(98) {
                let name = self.name();
                let clauses = self.clauses(group, &names);
                out.push(format!("{number} {name} {clauses}").trim_end().into());
                names.push(name);
            } else {
                out.push(number);
                names.push("FILLER".into());
            }
            if group {
                self.siblings(level, depth - 1, left, out);
            }
        }
    }

    fn statements(&mut self, most: usize) -> Vec<String> {
        let mut out = Vec::new();
        let root = self.chance(50);
        if root {
            let clauses = if self.chance(20) { self.clauses(true, &[]) } else { String::new() };
            out.push(format!("01 R {clauses}").trim_end().into());
        }
        let depth = [0, 1, 2, 3, 5, 8][self.r.below(6)];
        let mut left = self.r.within(1, most);
        while left > 0 {
            self.siblings(usize::from(root), depth, &mut left, &mut out);
            if self.chance(60) {
                break;
            }
        }
        out
    }

    fn joined(statements: &[String]) -> String {
        statements.iter().map(|s| format!("{s}. ")).collect::<String>().trim_end().into()
    }

    fn nested(&mut self, most: usize) -> Vec<u8> {
        Self::joined(&self.statements(most)).into_bytes()
    }

    /// The same over lines, with every kind of white space, comments, and keywords in any case.
    fn spread(&mut self) -> Vec<u8> {
        let mut text = String::new();
        for s in self.statements(6) {
            for w in s.split(' ') {
                text += &if KEYWORDS.contains(&w) { self.cased(w) } else { w.into() };
                text += self.one(&[
                    " ", " ", " ", "  ", "\n", "\r\n", "\t", "\x0b", "\x0c", "\n   ", " \r ", " *> X. Y\n", "\n* Z.\n",
                    "\n \t* Z.\r\n",
                ]);
            }
            if self.chance(80) {
                text.truncate(text.trim_end().len());
            }
            text += self.one(&[
                ". ", ".\n", ".\n", ".\r\n", ".\t", ".*> C\n", ". *> C. D\n", " .\n", "\n.\n", ".\n\n* C\n", ".\x0c",
                ".",
            ]);
        }
        text.into_bytes()
    }

    /// Any words after a level.
    fn soup(&mut self) -> Vec<u8> {
        let mut out = Vec::new();
        for _ in 0..self.r.within(1, 3) {
            let mut words: Vec<String> = Vec::new();
            for _ in 0..self.r.within(1, 9) {
                words.push(match self.r.below(100) {
                    0..=69 => {
                        let w = self.one(&KEYWORDS);
                        self.cased(w)
                    }
                    70..=81 => self.one(&["0", "1", "2", "3", "+3", "05"]).into(),
                    _ => self.one(&["X", "S9", "9(4)", "Z9", "S9V9", "A", "B", "N"]).into(),
                });
            }
            if self.chance(70) {
                let i = self.r.below(words.len() + 1);
                words.insert(i, format!("PIC {}", self.one(&["X", "S9", "9(4)", "S9(9)"])));
            }
            out.push(format!("05 {} {}", self.one(&["A", "B", "C"]), words.join(" ")));
        }
        Self::joined(&out).into_bytes()
    }

    /// A literal, now and then without its end.
    fn literal(&mut self) -> String {
        let mark = self.one(&["'", "'", "\""]);
        let mut inside = String::new();
        for _ in 0..self.r.below(5) {
            inside += self.one(&[
                "a", "St", "4", " ", " ", "-", "3.5", ".", "*", ">", "SEPARATE", " SEPARATE ", "'", "\"", ". ", "*>",
                ".\t",
            ]);
        }
        if self.chance(90) {
            inside = inside.replace(mark, &mark.repeat(2));
        }
        let before = self.one(&["", "", "", "", "X", "5"]);
        let end = if self.chance(98) { mark } else { self.one(&["", "\n", "\r\n"]) };
        format!("{before}{mark}{inside}{end}")
    }

    /// Quotes and apostrophes, most of them in literals after VALUE.
    fn quoted(&mut self) -> Vec<u8> {
        let mut text = String::new();
        for s in self.statements(6) {
            let mut words: Vec<String> = s.split(' ').map(Into::into).collect();
            if self.chance(5) {
                let i = self.r.below(words.len());
                words[i] = self.one(&["VALUE", "value", "VALUES"]).into();
            }
            if self.chance(5) {
                let i = self.r.below(words.len());
                words[i] += self.one(&["'", "\""]);
            }
            if self.chance(60) {
                let key = self.one(&["VALUE", "VALUE", "VALUES", "VALUE IS"]);
                let mut said = vec![self.cased(key)];
                for _ in 0..self.r.within(1, 3) {
                    let plain = self.one(&["5", "ZERO", "3.5", "THRU", "5,"]).to_string();
                    said.push(if self.chance(80) { self.literal() } else { plain });
                }
                let at = if self.chance(90) { words.len() } else { words.len().min(2) };
                words.splice(at..at, said);
            }
            for w in words {
                text += &w;
                text +=
                    self.one(&[" ", " ", " ", " ", " ", " ", " ", "  ", "\n", "\r\n", "\t", " *> it's\n", "\n* 'Z.\n"]);
            }
            if self.chance(80) {
                text.truncate(text.trim_end().len());
            }
            text += self.one(&[". ", ".\n", ".\n", ".\r\n", ".*> it's\n", ". 88 C VALUE 'a' 'b'.\n", " .\n"]);
        }
        text.into_bytes()
    }

    fn folded_item(&mut self) -> String {
        let n = self.r.below(10);
        let x = format!("PIC X({n})");
        self.one(&[
            "PIC X", "PIC X(2)", &x, "PIC 9(4) COMP SYNC", "PIC 9(9) COMP", "PIC 9(10) COMP SYNC", "PIC ZZ9.9",
            "PIC S9(3) COMP-3",
        ])
        .into()
    }

    fn folded_occurs(&mut self, pool: &[&str]) -> String {
        match self.r.below(16) {
            0 => format!(" OCCURS {}", self.r.below(4)),
            1 => " OCCURS 2 TIMES".into(),
            2 => " OCCURS 1 TO 3 DEPENDING ON N".into(),
            3 => format!(" OCCURS 4 DEPENDING {}", self.r.one(pool)),
            _ => String::new(),
        }
    }

    fn folded_list(&mut self, pool: &[&str], level: usize, depth: usize, most: usize, out: &mut Vec<String>) {
        let mut seen: Vec<String> = Vec::new();
        for _ in 0..self.r.within(2, most) {
            let name = self.r.one(pool).to_string();
            let mut target = String::new();
            if !seen.is_empty() && self.chance(55) {
                let to =
                    if self.chance(93) { seen[self.r.below(seen.len())].clone() } else { self.r.one(pool).to_string() };
                target = format!(" REDEFINES {}", self.cased(&to));
            }
            let occurs = self.folded_occurs(pool);
            if depth > 0 && self.chance(35) {
                out.push(format!("{level:02} {name}{target}{occurs}"));
                let first = out.len();
                self.folded_list(pool, level + 5, depth - 1, 3, out);
                if self.chance(50) {
                    let own = if self.chance(66) { name.clone() } else { name.to_ascii_lowercase() };
                    let item = self.folded_item();
                    let below = out.get(first + 1).is_some_and(|s| s[..2] > format!("{:02}", level + 5)[..]);
                    if !below {
                        out[first] = format!("{:02} {own} {item}", level + 5);
                    }
                }
            } else {
                let item = self.folded_item();
                out.push(format!("{level:02} {name}{target} {item}{occurs}"));
            }
            seen.push(name);
        }
    }

    /// Sibling lists of few names, of which most redefine one another.
    fn folded(&mut self) -> Vec<u8> {
        let pools: [&[&str]; 5] =
            [&["A", "B"], &["A", "a", "B"], &["A", "B", "C"], &["G", "g", "A"], &["A", "B", "C", "D"]];
        let pool = pools[self.r.below(5)];
        let mut out = Vec::new();
        if self.chance(30) {
            out.push("01 R".to_string());
        }
        let depth = [0, 1, 1, 2, 3][self.r.below(5)];
        self.folded_list(pool, 5, depth, 6, &mut out);
        Self::joined(&out).into_bytes()
    }

    /// Statements with only a level beside FILLER in any case.
    fn fillers(&mut self) -> Vec<u8> {
        let mut out: Vec<String> = Vec::new();
        for _ in 0..self.r.within(2, 5) {
            let name = self.one(&["FILLER", "filler", "Filler", "A", "", ""]);
            let target = if out.is_empty() || name.is_empty() {
                ""
            } else {
                self.one(&["", "", " REDEFINES FILLER", " REDEFINES filler", " REDEFINES A"])
            };
            if name.is_empty() || self.chance(30) {
                out.push(format!("05 {name}{target}").trim_end().into());
                for _ in 0..self.r.within(1, 2) {
                    out.push(format!(
                        "10 {} PIC {}",
                        self.one(&["FILLER", "filler", "A", "B"]),
                        self.one(&["X", "X(3)"])
                    ));
                }
            } else {
                out.push(format!("05 {name}{target} PIC {}", self.one(&["X", "X(2)", "9(4) COMP SYNC"])));
            }
        }
        Self::joined(&out).into_bytes()
    }

    /// Products and sums around 2^31, and counts around 2^64.
    fn large(&mut self) -> Vec<u8> {
        let mut out: Vec<String> = Vec::new();
        if self.chance(70) {
            out.push("05 Z PIC X".into());
        }
        let mut names = vec!["Z".to_string()];
        for k in 0..self.r.within(1, 4) {
            let times = match self.r.below(8) {
                0 => self.one(&COUNTS).to_string(),
                1 => self.r.below(9).to_string(),
                _ => (LARGE[self.r.below(12)] + self.r.below(3) as u64 - 1).to_string(),
            };
            let name = format!("F{k}");
            let target = if self.chance(25) {
                format!(" REDEFINES {}", names[self.r.below(names.len())])
            } else {
                String::new()
            };
            let depending = if self.chance(20) { " DEPENDING ON N" } else { "" };
            let item = self.one(&[
                "PIC X", "PIC X(2)", "PIC X(3)", "PIC 9(4) COMP SYNC", "PIC 9(18) COMP SYNC", "PIC X(0)",
                "PIC X(65535)", "PIC 9(9) COMP SYNC",
            ]);
            if self.chance(30) {
                out.push(format!("05 {name}{target} OCCURS {times}{depending}"));
                let inner = (LARGE[self.r.below(12)] + self.r.below(3) as u64 - 1).to_string();
                out.push(format!("10 I{k} {item} OCCURS {inner}"));
                if self.chance(50) {
                    out.push(format!("10 J{k} {}", self.one(&["PIC X", "PIC 9(4) COMP SYNC", "REDEFINES F PIC X"])));
                }
            } else {
                out.push(format!("05 {name}{target} {item} OCCURS {times}{depending}"));
            }
            names.push(name);
        }
        if self.chance(50) {
            out.push(format!(
                "05 E {}",
                self.one(&["PIC X", "PIC 9(4) COMP SYNC", "PIC 9(10) COMP SYNC", "PIC X(0)", "PIC Q", ""])
            ));
        }
        Self::joined(&out).into_bytes()
    }

    /// Groups in groups, around the depth limit.
    fn deep(&mut self) -> Vec<u8> {
        let n = if self.chance(70) { self.r.within(62, 68) } else { self.r.within(2, 255) };
        let mut text = String::new();
        for k in 1..n {
            text += &format!("{k} G{}. ", if self.chance(3) { " OCCURS 2" } else { "" });
            if self.chance(5) {
                text += &format!("{} S PIC X. ", k + 1);
            }
        }
        text += &format!("{n} A PIC {}.", self.word_picture());
        if self.chance(50) {
            text += " 1 B PIC X.";
        }
        text.into_bytes()
    }

    /// Statements around 800, and texts around 65,535 bytes.
    fn many(&mut self) -> Vec<u8> {
        let mut text = String::new();
        if self.chance(20) {
            text = Self::joined(&self.statements(8));
            let n = self.r.within(65_530, 65_540);
            return text.bytes().chain(std::iter::repeat(b' ')).take(n).collect();
        }
        let n = if self.chance(70) { self.r.within(798, 803) } else { self.r.within(100, 1000) };
        let levels: &[&str] = if self.chance(60) { &["05"] } else { &["05", "05", "05", "10", "07"] };
        for k in 0..n {
            let level = self.r.one(levels);
            let target = if k > 0 && self.chance(8) {
                format!(" REDEFINES F{}", k - 1 - self.r.below(k.min(3)))
            } else {
                String::new()
            };
            let item = self.one(&["PIC X", "PIC X(3)", "PIC 9(4) COMP SYNC", "PIC ZZ9.9", "PIC S9(5)V9 COMP-3"]);
            text += &format!("{level} F{k}{target} {item}.\n");
            if self.chance(3) {
                text += "88 Q VALUE 1.\n";
            }
        }
        text.into_bytes()
    }

    fn pooled(&mut self) -> Vec<u8> {
        self.pool[self.r.below(self.pool.len())].clone()
    }

    /// Snippets put into a copybook.
    fn marked(&mut self) -> Vec<u8> {
        let mut text = if self.chance(50) && !self.pool.is_empty() { self.pooled() } else { self.nested(4) };
        for _ in 0..self.r.within(1, 3) {
            let i = self.r.below(text.len() + 1);
            let put = self.one(&SNIPPETS).bytes().filter(|&b| b != 0xc2).collect::<Vec<u8>>();
            text.splice(i..i, put);
        }
        text
    }

    /// A copybook with bytes deleted, doubled, swapped or replaced.
    fn damaged(&mut self) -> Vec<u8> {
        let mut text = match self.r.below(4) {
            0 if !self.pool.is_empty() => self.pooled(),
            1 => self.folded(),
            2 => self.spread(),
            _ => self.nested(5),
        };
        for _ in 0..self.r.within(1, 3) {
            if text.is_empty() {
                break;
            }
            let i = self.r.below(text.len());
            match self.r.below(5) {
                0 => {
                    text.remove(i);
                }
                1 => text.insert(i, text[i]),
                2 if i > 0 => text.swap(i - 1, i),
                3 => text[i] = (self.r.next() >> 40) as u8 & 127,
                _ => text[i] = text[self.r.below(text.len())],
            }
        }
        text
    }

    /// Any bytes, mostly those that copybooks are made of.
    fn raw(&mut self) -> Vec<u8> {
        let n = self.r.below(60);
        let wide = self.chance(10);
        (0..n)
            .map(|_| match self.r.below(4) {
                0 if wide => (self.r.next() >> 40) as u8,
                0 => (self.r.next() >> 40) as u8 & 127,
                1 => b"05 1A."[self.r.below(6)],
                _ => b" .PICX9*>()\n"[self.r.below(12)],
            })
            .collect()
    }

    pub fn copybook(&mut self) -> Vec<u8> {
        match self.r.below(1000) {
            0..=169 => self.nested(8),
            170..=219 => self.quoted(),
            220..=259 => self.nested(30),
            260..=459 => self.folded(),
            460..=579 => self.soup(),
            580..=689 => self.spread(),
            690..=779 => self.marked(),
            780..=904 => self.damaged(),
            905..=934 => self.fillers(),
            935..=969 => self.large(),
            970..=994 => self.raw(),
            995..=998 => self.deep(),
            _ => self.many(),
        }
    }

    /// Two of three inputs are copybooks.
    pub fn input(&mut self) -> Input {
        if self.r.below(3) == 0 {
            Input::Picture(self.picture())
        } else {
            Input::Copybook(self.copybook())
        }
    }
}
