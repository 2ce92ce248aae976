//! A reading of the rules (docs/RULES.md) of its own: it gives what the Rust does not have, that is places in the text,
//! positions of refusals and the added refusals 1, 2, 14, 24, 27, 29, 30, 40, 41 and 50, whether the Rust has an answer,
//! and the owners of bytes. Offsets, widths and kinds of a listing are taken from the Rust, never from here.

/// A part of the text; length 0 means absent.
#[derive(Clone, Copy, PartialEq, Eq, Debug, Default)]
pub struct Span {
    pub start: usize,
    pub len: usize,
}

impl Span {
    pub fn of<'a>(&self, text: &'a [u8]) -> &'a [u8] {
        &text[self.start..self.start + self.len]
    }
}

/// A refusal: its number and its position.
#[derive(Clone, Copy, PartialEq, Eq, Debug)]
pub struct Refused(pub u32, pub usize);

type Answer<T> = Result<T, Refused>;

pub const LARGEST: u128 = 2_147_483_647;
pub const MOST_STATEMENTS: usize = 800;
pub const DEEPEST: usize = 64;
const MOST_DIGITS: u128 = 31;
const LONGEST_MASK: u128 = 255;

#[derive(Clone, Copy, PartialEq, Eq, Debug)]
pub enum Usage {
    Display,
    Comp3,
    Comp,
    Comp1,
    Comp2,
}

#[derive(Clone, Copy, PartialEq, Eq, Debug)]
pub enum Sign {
    Unsigned,
    Embedded,
    Leading,
    Trailing,
}

#[derive(Clone, Debug)]
pub struct Statement {
    pub at: usize,
    pub level: u64,
    pub name: Span,
    pub picture: Span,
    /// The usage that it names with the word that says so, and the one that holds for it.
    pub named: Option<Usage>,
    pub word: Span,
    pub usage: Usage,
    pub sign: Option<Sign>,
    /// What details have of SIGN: 0 without it, else 1, 1 more for LEADING and 2 more for SEPARATE.
    pub clause: u8,
    pub sync: bool,
    pub occurs: Option<u128>,
    pub depending: Span,
    pub redefines: Span,
    pub below: Vec<usize>,
}

/// An entry of the folded listing, as far as the text says it: the statement behind it, whether it is the group that
/// stands for a base and its redefiners, whether its REDEFINES is kept, the slack before it and at the end of its
/// occurrences, its digits, those after the point and 1 for a sign, and its members.
#[derive(Clone, Debug)]
pub struct Shape {
    pub statement: usize,
    pub union: bool,
    pub redefines: bool,
    pub slack: usize,
    pub slack_at_end: usize,
    pub digits: [u8; 3],
    pub members: Vec<Shape>,
}

pub struct Reading {
    pub statements: Vec<Statement>,
    /// The record's fields, and whether the only root was dropped.
    pub fields: Vec<usize>,
    pub dropped: bool,
    /// Why the Rust has no answer, as far as the words say: a literal holds `*>` or a period that would end a
    /// statement, or is left open; or a statement names a float, or takes another usage back by DISPLAY; or a group
    /// names a usage; or an item below the fields has SYNC, or something is refused inside a group whose target is
    /// missing.
    pub no_answer: Option<&'static str>,
    /// The folded top list, or why there is none. The last check, 29 for a top-level end, needs the widths of folds,
    /// and is made on the Rust's answer (`answer::copybook`).
    pub top: Answer<Vec<Shape>>,
}

// ---------------------------------------------------------------- the entry

/// 1 and 2.
pub fn text_checks(text: &[u8]) -> Answer<()> {
    if text.len() > 65_535 {
        return Err(Refused(1, 0));
    }
    match text.iter().position(|&b| b > 127) {
        Some(p) => Err(Refused(2, p)),
        None => Ok(()),
    }
}

// ---------------------------------------------------------------- words

pub fn white(b: u8) -> bool {
    b == 32 || (9..=13).contains(&b)
}

/// The words of a text as they are found.
#[derive(Default)]
struct Words {
    /// The statements that have ended, each as its words; none is empty.
    ended: Vec<Vec<Span>>,
    /// The words of the statement so far.
    words: Vec<Span>,
    /// Whether the last word goes on, and whether VALUE was said.
    open: bool,
    value: bool,
    /// Whether a literal held `*>` or a period that would end a statement.
    harmed: bool,
}

impl Words {
    /// A byte that counts as nothing more than a byte, at its place.
    fn byte(&mut self, b: u8, place: usize) {
        if white(b) {
            self.open = false;
        } else if self.open {
            self.words.last_mut().expect("an open word").len += 1;
        } else {
            self.words.push(Span { start: place, len: 1 });
            self.open = true;
        }
    }

    /// VALUE or VALUES, third or later, is the word before this place.
    fn said_value(&self, text: &[u8]) -> bool {
        let word = self.words.get(2..).and_then(|later| later.last()).map(|w| w.of(text).to_ascii_uppercase());
        word.is_some_and(|w| w == b"VALUE" || w == b"VALUES")
    }

    /// A period that ends the statement.
    fn stop(&mut self) {
        (self.open, self.value) = (false, false);
        if !self.words.is_empty() {
            self.ended.push(std::mem::take(&mut self.words));
        }
    }

    /// The words of a line that is no comment, from its place on. 50 where a literal does not close on it.
    fn line(&mut self, text: &[u8], line: &[u8], at: usize) -> Answer<()> {
        let cut = |i: usize| line[i..].starts_with(b"*>");
        let ends = |i: usize| i == line.len() || white(line[i]) || cut(i);
        let mut i = 0;
        while i < line.len() {
            let b = line[i];
            if self.value && matches!(b, b'\'' | b'"') {
                let len = line[i + 1..].iter().position(|&m| m == b).ok_or(Refused(50, at + i))?;
                let close = i + 1 + len;
                self.harmed |= (i + 1..close).any(|j| cut(j) || line[j] == b'.' && white(line[j + 1]));
                (i..=close).for_each(|j| self.byte(line[j], at + j));
                i = close + 1;
                continue;
            }
            if cut(i) {
                break;
            }
            if b == b'.' && ends(i + 1) {
                self.stop();
            } else {
                self.byte(b, at + i);
                self.value |= white(b) && self.said_value(text);
            }
            i += 1;
        }
        self.byte(b' ', at + i);
        self.value |= self.said_value(text);
        Ok(())
    }
}

/// The statements, each as its words, and whether the Rust finds the same ones; or 50.
fn statements_words(text: &[u8]) -> Answer<(Vec<Vec<Span>>, bool)> {
    let mut found = Words::default();
    let mut at = 0;
    for line in text.split(|&b| b == 10) {
        if line.iter().find(|&&b| !white(b)) != Some(&b'*') {
            found.line(text, line, at)?;
        }
        at += line.len() + 1;
    }
    found.stop();
    Ok((found.ended, !found.harmed))
}

/// A number below the limit: digits, with a plus in front or none.
fn number(word: &[u8], limit: u128) -> Option<u128> {
    let digits = word.strip_prefix(b"+").unwrap_or(word);
    if digits.is_empty() {
        return None;
    }
    let mut n: u128 = 0;
    for &b in digits {
        if !b.is_ascii_digit() {
            return None;
        }
        n = n * 10 + u128::from(b - b'0');
        if n >= limit {
            return None;
        }
    }
    Some(n)
}

fn count(word: &[u8]) -> Option<u128> {
    number(word, 1 << 64)
}

// ---------------------------------------------------------------- statements

/// One statement from its words; nothing for a level 88. `lost` is told where its usages leave the Rust without an
/// answer.
fn statement(text: &[u8], words: &[Span], lost: &mut Option<&'static str>) -> Answer<Option<Statement>> {
    let at = words[0].start;
    let level = number(words[0].of(text), 256).ok_or(Refused(10, at))? as u64;
    if level == 88 {
        return Ok(None);
    }
    let upper: Vec<Vec<u8>> = words.iter().map(|w| w.of(text).to_ascii_uppercase()).collect();
    let is = |i: usize, key: &str| upper.get(i).is_some_and(|w| w == key.as_bytes());
    let word = |i: usize| words.get(i).copied().unwrap_or_default();
    let counted = |i: usize| words.get(i).and_then(|w| count(w.of(text)));
    let mut s = Statement {
        at,
        level,
        name: word(1),
        picture: Span::default(),
        named: None,
        word: Span::default(),
        usage: Usage::Display,
        sign: None,
        clause: 0,
        sync: false,
        occurs: None,
        depending: Span::default(),
        redefines: Span::default(),
        below: Vec::new(),
    };
    let mut i = 2;
    while i < words.len() {
        let key = String::from_utf8_lossy(&upper[i]).into_owned();
        let (named, this) = (s.named, words[i]);
        s.named = None;
        i += 1;
        match key.as_str() {
            "PIC" | "PICTURE" => {
                i += usize::from(is(i, "IS"));
                s.picture = word(i);
                i += 1;
            }
            "REDEFINES" => {
                s.redefines = word(i);
                i += 1;
            }
            "OCCURS" => {
                let mut n = counted(i).ok_or(Refused(11, at))?;
                i += 1;
                if is(i, "TO") {
                    n = counted(i + 1).ok_or(Refused(12, at))?;
                    i += 2;
                }
                i += usize::from(is(i, "TIMES"));
                if is(i, "DEPENDING") {
                    i += 1 + usize::from(is(i + 1, "ON"));
                    if i >= words.len() {
                        return Err(Refused(13, at));
                    }
                    s.depending = words[i];
                    i += 1;
                }
                s.occurs = Some(n);
            }
            "USAGE" => i += usize::from(is(i, "IS")),
            "DISPLAY" => {
                if named.is_some_and(|u| u != Usage::Display) {
                    *lost = lost.or(Some(USAGES));
                }
                s.named = Some(Usage::Display);
            }
            "COMP-1" | "COMPUTATIONAL-1" | "COMP-2" | "COMPUTATIONAL-2" => {
                *lost = Some(FLOATS);
                s.named = Some(if key.ends_with('1') { Usage::Comp1 } else { Usage::Comp2 });
            }
            "COMP-3" | "COMPUTATIONAL-3" | "PACKED-DECIMAL" => s.named = Some(Usage::Comp3),
            "COMP" | "COMPUTATIONAL" | "COMP-4" | "COMPUTATIONAL-4" | "COMP-5" | "COMPUTATIONAL-5" | "BINARY" => {
                s.named = Some(Usage::Comp)
            }
            "SIGN" => {
                i += usize::from(is(i, "IS"));
                let separate = (i..words.len()).any(|j| is(j, "SEPARATE"));
                s.clause = 1 + u8::from(is(i, "LEADING")) + 2 * u8::from(separate);
                s.sign = Some(match (separate, is(i, "LEADING")) {
                    (true, true) => Sign::Leading,
                    (true, false) => Sign::Trailing,
                    _ => Sign::Embedded,
                });
                i += 1;
            }
            "SYNC" | "SYNCHRONIZED" => {
                s.sync = true;
                i += usize::from(is(i, "LEFT") || is(i, "RIGHT"));
            }
            "VALUE" | "VALUES" => {
                s.named = named;
                break;
            }
            _ => {}
        }
        match s.named {
            Some(_) => s.word = this,
            None => s.named = named,
        }
    }
    Ok(Some(s))
}

/// The kept statements, the first refusal if there is one, and why any statement, those after a refusal included,
/// leaves the Rust without an answer.
fn statements(text: &[u8], words: &[Vec<Span>]) -> (Vec<Statement>, Answer<()>, Option<&'static str>) {
    let (mut kept, mut read, mut lost) = (Vec::new(), Ok(()), None);
    for words in words {
        match statement(text, words, &mut lost) {
            _ if read.is_err() => {}
            Err(r) => read = Err(r),
            Ok(None) => {}
            Ok(Some(s)) if kept.len() == MOST_STATEMENTS => read = Err(Refused(14, s.at)),
            Ok(Some(s)) => kept.push(s),
        }
    }
    (kept, read, lost)
}

/// The record's fields; each statement gets the list of those below it, and the usage that holds for it: its own, else
/// what holds for its parent.
fn fields(kept: &mut [Statement]) -> Vec<usize> {
    let mut roots = Vec::new();
    let mut open: Vec<usize> = Vec::new();
    for k in 0..kept.len() {
        while open.last().is_some_and(|&o| kept[o].level >= kept[k].level) {
            open.pop();
        }
        let around = open.last().map_or(Usage::Display, |&parent| kept[parent].usage);
        kept[k].usage = kept[k].named.unwrap_or(around);
        match open.last() {
            Some(&parent) => kept[parent].below.push(k),
            None => roots.push(k),
        }
        open.push(k);
    }
    match roots[..] {
        [only] if !kept[only].below.is_empty() => kept[only].below.clone(),
        _ => roots,
    }
}

// ---------------------------------------------------------------- pictures

fn trimmed(mut s: &[u8]) -> &[u8] {
    while s.first().is_some_and(|&b| white(b)) {
        s = &s[1..];
    }
    while s.last().is_some_and(|&b| white(b)) {
        s = &s[..s.len() - 1];
    }
    s
}

/// The symbols of a picture with their counts. With `limit`, 24 where they are more than that.
pub fn runs(picture: &[u8], limit: Option<u128>) -> Result<Vec<(u8, u128)>, u32> {
    let p = trimmed(picture);
    let mut out = Vec::new();
    let mut all: u128 = 0;
    let mut i = 0;
    while i < p.len() {
        let symbol = p[i].to_ascii_uppercase();
        let mut n = 1;
        i += 1;
        if p.get(i) == Some(&b'(') {
            let close = p[i..].iter().position(|&b| b == b')').ok_or(22u32)?;
            n = count(trimmed(&p[i + 1..i + close])).ok_or(23u32)?;
            i += close + 1;
        }
        all += n;
        if limit.is_some_and(|most| all > most) {
            return Err(24);
        }
        out.push((symbol, n));
    }
    Ok(out)
}

/// Whether a picture has a P, wherever it stands: there the Rust has no answer.
pub fn has_scale(picture: &[u8]) -> bool {
    picture.to_ascii_uppercase().contains(&b'P')
}

/// What an elementary item is: its width, whether SYNC aligns it, and its digits as details have them.
pub struct Elementary {
    pub width: u128,
    pub aligned: bool,
    pub digits: [u8; 3],
}

/// What a picture is; or the number of its refusal. P holds no byte of a width; the digits and the mask that 27 limits
/// count it.
pub fn picture(picture: &[u8], usage: Usage, sign: Option<Sign>) -> Result<Elementary, u32> {
    let symbols: Vec<u8> = runs(picture, Some(65_535))?.into_iter().flat_map(|(b, n)| vec![b; n as usize]).collect();
    let (mut text, mut digits, mut scaled, mut mask) = (0u128, 0u128, 0u128, 0u128);
    let (mut signed, mut edited) = (false, false);
    let (mut fraction, mut behind) = (0u128, false);
    let mut floats = [0u128; 3];
    let mut i = 0;
    while i < symbols.len() {
        let next = symbols.get(i + 1).copied();
        match symbols[i] {
            b'X' | b'A' => text += 1,
            b'9' => {
                digits += 1;
                fraction += u128::from(behind);
            }
            b'P' => scaled += 1,
            b'Z' | b'*' => {
                digits += 1;
                fraction += u128::from(behind);
                edited = true;
            }
            b'S' => signed = true,
            b'V' => behind = true,
            b'.' => (edited, behind) = (true, true),
            b',' | b'/' | b'B' | b'0' => edited = true,
            b'$' | b'+' | b'-' => {
                edited = true;
                signed |= symbols[i] != b'$';
                floats[b"$+-".iter().position(|&f| f == symbols[i]).expect("one of the three")] += 1;
            }
            b'C' if next == Some(b'R') => {
                (edited, signed) = (true, true);
                i += 1;
                mask += 1;
            }
            b'D' if next == Some(b'B') => {
                (edited, signed) = (true, true);
                i += 1;
                mask += 1;
            }
            _ => return Err(25),
        }
        mask += u128::from(!b"SV".contains(&symbols[i]));
        i += 1;
    }
    digits += floats.iter().map(|&n| n.saturating_sub(1)).sum::<u128>();
    if text > 0 {
        let plain = Elementary { width: text, aligned: false, digits: [0; 3] };
        return if digits + scaled > 0 || edited { Err(26) } else { Ok(plain) };
    }
    let masked = edited && usage == Usage::Display;
    if digits + scaled > MOST_DIGITS || masked && mask > LONGEST_MASK {
        return Err(27);
    }
    let all = (digits + scaled).max(u128::from(masked));
    let told = [all as u8, (fraction + scaled) as u8, u8::from(signed)];
    if masked {
        return Ok(Elementary { width: mask - scaled, aligned: false, digits: told });
    }
    let (width, aligned) = match usage {
        Usage::Display => {
            let separate = signed && matches!(sign, Some(Sign::Leading | Sign::Trailing));
            (digits + u128::from(separate), false)
        }
        Usage::Comp3 => (digits / 2 + 1, false),
        Usage::Comp => (
            if digits < 5 {
                2
            } else if digits < 10 {
                4
            } else {
                8
            },
            true,
        ),
        Usage::Comp1 | Usage::Comp2 => unreachable!("a float has no picture"),
    };
    Ok(Elementary { width, aligned, digits: told })
}

/// What an item without members is; or the number of its refusal.
fn elementary(text: &[u8], s: &Statement) -> Result<Elementary, u32> {
    let pictured = s.picture.len > 0;
    let float = |width| Elementary { width, aligned: true, digits: [0; 3] };
    match s.usage {
        Usage::Comp1 | Usage::Comp2 if pictured => Err(52),
        Usage::Comp1 => Ok(float(4)),
        Usage::Comp2 => Ok(float(8)),
        _ if !pictured => Err(21),
        usage => picture(s.picture.of(text), usage, s.sign),
    }
}

// ---------------------------------------------------------------- layout

/// An item of a list that was laid.
struct Item {
    shape: Shape,
    offset: u128,
    width: u128,
    times: u128,
    depending: bool,
}

impl Item {
    fn reserved(&self) -> u128 {
        if self.depending {
            0
        } else {
            self.width * self.times
        }
    }
}

/// The fewest bytes from a place to a multiple.
fn fewest(place: u128, multiple: u128) -> u128 {
    (multiple - place % multiple) % multiple
}

struct Laying<'a> {
    text: &'a [u8],
    kept: &'a [Statement],
}

impl Laying<'_> {
    fn name(&self, k: usize) -> &[u8] {
        if self.kept[k].name.len == 0 {
            b"FILLER"
        } else {
            self.kept[k].name.of(self.text)
        }
    }

    /// What the place of an item in the record is a multiple of.
    fn alignment(&self, k: usize) -> u128 {
        let s = &self.kept[k];
        let may_align = s.sync && s.below.is_empty() && s.redefines.len == 0;
        match elementary(self.text, s) {
            Ok(item) if may_align && item.aligned => item.width,
            _ => 1,
        }
    }

    /// The largest alignment in a list, at any depth.
    fn largest_alignment(&self, list: &[usize]) -> u128 {
        let of = |&k: &usize| self.alignment(k).max(self.largest_alignment(&self.kept[k].below));
        list.iter().map(of).max().unwrap_or(1)
    }

    /// The items of a list, not folded, and how wide it is. It starts at that byte of the record.
    fn list(&self, list: &[usize], depth: usize, base: u128) -> Answer<(Vec<Item>, u128)> {
        if depth > DEEPEST {
            return Err(Refused(20, self.kept[list[0]].at));
        }
        let mut items: Vec<Item> = Vec::new();
        let (mut cursor, mut reach) = (0u128, 0u128);
        for &k in list {
            let s = &self.kept[k];
            let plain = Elementary { width: 0, aligned: false, digits: [0; 3] };
            let item = match s.below.is_empty() {
                true => elementary(self.text, s).map_err(|n| Refused(n, s.at))?,
                false => plain,
            };
            let redefines = s.redefines.len > 0;
            let offset = if redefines {
                let target = s.redefines.of(self.text);
                let earlier = items.iter().rev().find(|i| self.name(i.shape.statement).eq_ignore_ascii_case(target));
                earlier.ok_or(Refused(28, s.at))?.offset
            } else {
                cursor + fewest(base + cursor, self.alignment(k))
            };
            let slack = if redefines { 0 } else { (offset - cursor) as usize };
            let (mut members, mut width, mut at_end) = (Vec::new(), item.width, 0);
            if !s.below.is_empty() {
                let (inner, inside) = self.list(&s.below, depth + 1, base + offset)?;
                members = self.fold(inner)?.into_iter().map(|i| i.shape).collect();
                if s.occurs.is_some() && s.depending.len == 0 {
                    at_end = fewest(inside, self.largest_alignment(&s.below));
                }
                width = inside + at_end;
            }
            let (digits, slack_at_end) = (item.digits, at_end as usize);
            let shape = Shape { statement: k, union: false, redefines, slack, slack_at_end, digits, members };
            let item = Item { shape, offset, width, times: s.occurs.unwrap_or(1), depending: s.depending.len > 0 };
            let end = offset + item.reserved();
            if [item.times, offset, width, width * item.times, end].iter().any(|&n| n > LARGEST) {
                return Err(Refused(29, s.at));
            }
            if !redefines {
                cursor = end;
            }
            reach = reach.max(end);
            items.push(item);
        }
        Ok((items, reach))
    }

    /// Whether alignment leaves the Rust an answer: no item below the fields has SYNC, and nothing is refused inside a
    /// group whose target is missing.
    fn plain_slack(&self, fields: &[usize]) -> bool {
        fields.iter().all(|&k| self.unsynced(&self.kept[k].below)) && self.none_lost(fields, 0)
    }

    fn unsynced(&self, list: &[usize]) -> bool {
        list.iter().all(|&k| !self.kept[k].sync && self.unsynced(&self.kept[k].below))
    }

    fn none_lost(&self, list: &[usize], depth: usize) -> bool {
        list.iter().enumerate().all(|(i, &k)| {
            let s = &self.kept[k];
            let target = s.redefines.of(self.text);
            let is_found = || list[..i].iter().any(|&earlier| self.name(earlier).eq_ignore_ascii_case(target));
            let is_laid = || {
                let laid = self.list(&s.below, depth + 1, 0);
                s.below.is_empty() || laid.and_then(|(items, _)| self.fold(items)).is_ok()
            };
            (s.redefines.len == 0 || is_found() || is_laid()) && self.none_lost(&s.below, depth + 1)
        })
    }

    /// Each base with its redefiners as one group.
    fn fold(&self, items: Vec<Item>) -> Answer<Vec<Item>> {
        let mut out: Vec<Item> = Vec::new();
        // (upper-case name, place in `out`), the latest last
        let mut bases: Vec<(Vec<u8>, usize)> = Vec::new();
        for mut item in items {
            let s = &self.kept[item.shape.statement];
            if !item.shape.redefines {
                bases.push((self.name(item.shape.statement).to_ascii_uppercase(), out.len()));
                out.push(item);
                continue;
            }
            let target = s.redefines.of(self.text).to_ascii_uppercase();
            let Some(&(_, at)) = bases.iter().rev().find(|(name, _)| *name == target) else {
                out.push(item);
                continue;
            };
            let base = &mut out[at];
            if item.offset < base.offset {
                return Err(Refused(30, s.at));
            }
            let own = base.shape.statement;
            let folded = base.shape.members.iter().any(|m| self.name(m.statement) == self.name(own));
            item.shape.redefines = false;
            if !folded {
                let first = Shape { union: false, redefines: false, ..base.shape.clone() };
                base.shape.members = vec![first];
            }
            (base.shape.union, base.shape.slack, base.shape.slack_at_end) = (true, 0, 0);
            base.shape.members.push(item.shape);
        }
        Ok(out)
    }
}

pub fn read(text: &[u8]) -> Reading {
    let refused = |statements, no_answer, r| {
        let fields = Vec::new();
        Reading { statements, fields, dropped: false, no_answer, top: Err(r) }
    };
    if let Err(r) = text_checks(text) {
        return refused(Vec::new(), None, r);
    }
    let (words, plain) = match statements_words(text) {
        Ok(found) => found,
        Err(r) => return refused(Vec::new(), Some(LITERALS), r),
    };
    let (mut kept, read, lost) = statements(text, &words);
    let no_answer = if !plain { Some(LITERALS) } else { lost };
    if let Err(r) = read {
        return refused(kept, no_answer, r);
    }
    let fields = fields(&mut kept);
    let on_group = kept.iter().any(|s| s.named.is_some() && !s.below.is_empty());
    let no_answer = no_answer.or(on_group.then_some(USAGES));
    let dropped = fields.first().is_some_and(|&k| k > 0);
    let laying = Laying { text, kept: &kept };
    let no_answer = no_answer.or((!laying.plain_slack(&fields)).then_some(ALIGNMENT));
    let folded = laying.list(&fields, 0, 0).and_then(|(items, _)| laying.fold(items));
    let top = folded.map(|items| items.into_iter().map(|i| i.shape).collect());
    Reading { statements: kept, fields, dropped, no_answer, top }
}

// ---------------------------------------------------------------- the owner rule

/// What lays a byte: a piece or slack, with the number of its entry, and how many bytes it lays.
pub struct Laid {
    pub slack: bool,
    pub entry: usize,
    pub len: u128,
}

/// More are not laid.
const MOST_LAID: usize = 20_000;

/// What leaves the Rust without an answer.
const LITERALS: &str = "has no answer: literals";
const USAGES: &str = "has no answer: usages";
const FLOATS: &str = "has no answer: floats";
const SCALES: &str = "has no answer: P";
const ALIGNMENT: &str = "has no answer: alignment";

impl Reading {
    /// Why the Rust has no answer: its words, or an elementary item whose picture has a P.
    pub fn no_answer(&self, text: &[u8]) -> Option<&'static str> {
        let scaled = || self.statements.iter().any(|s| s.below.is_empty() && has_scale(s.picture.of(text)));
        let laid = !matches!(self.top, Err(Refused(1..=14, _)));
        self.no_answer.or_else(|| (laid && scaled()).then_some(SCALES))
    }

    /// A kept REDEFINES or DEPENDING ON, a dropped root's own aside.
    pub fn overlaid(&self) -> bool {
        let kept = &self.statements[usize::from(self.dropped)..];
        kept.iter().any(|s| s.redefines.len > 0 || s.depending.len > 0)
    }

    /// The pieces and the slack of an accepted record that is not overlaid, in order; nothing where they are too many
    /// to lay.
    pub fn laid(&self, text: &[u8]) -> Option<Vec<Laid>> {
        let mut out = Vec::new();
        self.lay(text, &self.fields, 0, &mut out)?;
        Some(out)
    }

    /// Lays a list from a place of the record, and answers the place after it. Without REDEFINES no list is folded, so
    /// entries are numbered as statements.
    fn lay(&self, text: &[u8], list: &[usize], from: u128, out: &mut Vec<Laid>) -> Option<u128> {
        let laying = Laying { text, kept: &self.statements };
        let mut place = from;
        for &k in list {
            let s = &self.statements[k];
            let entry = k - usize::from(self.dropped);
            let slack = |len, out: &mut Vec<Laid>| {
                out.push(Laid { slack: true, entry, len });
                len
            };
            place += slack(fewest(place, laying.alignment(k)), out);
            for _ in 0..s.occurs.unwrap_or(1) {
                if out.len() > MOST_LAID {
                    return None;
                }
                if s.below.is_empty() {
                    let len = elementary(text, s).expect("an accepted item").width;
                    out.push(Laid { slack: false, entry, len });
                    place += len;
                    continue;
                }
                let start = place;
                place = self.lay(text, &s.below, start, out)?;
                if s.occurs.is_some() {
                    place += slack(fewest(place - start, laying.largest_alignment(&s.below)), out);
                }
            }
        }
        Some(place)
    }
}
