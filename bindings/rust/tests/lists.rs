//! The lists of layouts that crates/test_lists replays, through this crate: the bytes of every listing are made again
//! from its entries, so that an entry has all that the listing says and its names are the very places of the text; the
//! details of every entry go with it; every refusal is told.

use copybook::{Details, Entry, FieldKind, Layout, Reader, Refusal};
use std::fs;

/// A case: a text, and the listing, or the number and position of the refusal.
struct Case {
    text: Vec<u8>,
    answer: Result<Vec<u8>, (u32, usize)>,
}

/// A text of a list: `%` and two hexadecimal digits stand for any byte, `%` alone for the empty text.
fn decoded(word: &str) -> Vec<u8> {
    if word == "%" {
        return Vec::new();
    }
    let mut parts = word.split('%');
    let mut text = parts.next().unwrap().as_bytes().to_vec();
    for part in parts {
        text.push(u8::from_str_radix(&part[..2], 16).unwrap());
        text.extend(part[2..].bytes());
    }
    text
}

fn case(line: &str) -> Case {
    let words: Vec<&str> = line.strip_suffix('.').unwrap().split(' ').collect();
    let numbers: Vec<usize> = words[1..].iter().map(|n| n.parse().unwrap()).collect();
    let answer = match numbers[0] {
        1 => Ok(numbers[2..].iter().map(|&n| u8::try_from(n).unwrap()).collect()),
        _ => Err((numbers[1] as u32, numbers[2])),
    };
    Case { text: decoded(words[0]), answer }
}

fn cases(list: &str) -> Vec<Case> {
    let path = format!("{}/../../crates/test_lists/data/layout/{list}.txt", env!("CARGO_MANIFEST_DIR"));
    let lines = fs::read_to_string(path).unwrap();
    lines.lines().filter(|line| !line.starts_with('*')).map(case).collect()
}

/// The bytes of a listing, made from what a layout says.
struct Made<'t> {
    text: &'t [u8],
    bytes: Vec<u8>,
}

impl Made<'_> {
    fn four(&mut self, n: usize) {
        self.bytes.extend(u32::try_from(n).unwrap().to_le_bytes());
    }

    /// Start and length of a word that is borrowed from the text.
    fn word(&mut self, word: Option<&str>) {
        let (start, len) = word.map_or((0, 0), |w| (w.as_ptr() as usize - self.text.as_ptr() as usize, w.len()));
        self.four(start);
        self.four(len);
    }

    fn details(&mut self, kind: FieldKind) {
        match kind {
            FieldKind::Text => {}
            FieldKind::Int { signed, sign } => self.bytes.extend([u8::from(signed), sign.number()]),
            FieldKind::Binary { signed } => self.bytes.push(u8::from(signed)),
            FieldKind::Decimal { precision, scale, repr, sign } => {
                self.bytes.extend([precision, scale, repr.number(), sign.number()]);
            }
            FieldKind::Edited { precision, scale, signed, picture } => {
                self.bytes.extend([precision, scale, u8::from(signed)]);
                self.word(Some(picture));
            }
            FieldKind::Group { members } => self.four(members),
            FieldKind::Float { bits } => self.bytes.push(bits),
        }
    }

    fn entry(&mut self, e: &Entry) {
        self.bytes.push(e.kind.number());
        self.word(e.name);
        self.four(e.offset);
        self.four(e.width);
        self.bytes.push(u8::from(e.occurs.is_some()));
        self.four(e.occurs.unwrap_or(0));
        self.word(e.depending_on);
        self.word(e.redefines);
        self.details(e.kind);
    }
}

fn made_again(text: &[u8], layout: &Layout) -> Vec<u8> {
    let mut made = Made { text, bytes: vec![0] };
    made.four(layout.record_len());
    made.bytes.push(u8::from(layout.variable()));
    made.four(layout.top_len());
    layout.entries().for_each(|e| made.entry(&e));
    made.bytes
}

/// The details are of the entries: as many; the place of an entry in the record is that of the group around it, and its
/// own offset; below it are all that follow and are deeper; a fold has a member of its name, and no words of its own.
fn check_details(text: &[u8], layout: &Layout, details: &Details) {
    let entries: Vec<Entry> = layout.entries().collect();
    assert_eq!(details.len(), entries.len());
    let mut around: Vec<u64> = Vec::new();
    for (e, d) in entries.iter().zip(details.iter()) {
        assert_eq!(e.depth, d.depth);
        around.truncate(e.depth);
        assert_eq!(d.first, around.last().unwrap_or(&0) + e.offset as u64);
        around.push(d.first);
        let deeper = entries[e.number + 1..].iter().take_while(|later| later.depth > e.depth);
        assert_eq!(d.below, deeper.count());
        assert!(d.slack as u64 <= d.first);
        let level = text[d.position..].iter().take_while(|b| b.is_ascii_alphanumeric() || **b == b'+');
        assert_eq!(std::str::from_utf8(&text[d.position..][..level.count()]).unwrap().parse(), Ok(d.level));
        if d.folded {
            assert!(matches!(e.kind, FieldKind::Group { members: 2.. }), "{e:?}");
            assert_eq!((d.slack, d.picture, d.redefines, d.depending_on), (0, None, None, None));
            let members = entries[e.number + 1..][..d.below].iter().filter(|m| m.depth == e.depth + 1);
            let name = |e: &Entry| e.name.unwrap_or("FILLER").to_owned();
            assert!({ members }.any(|m| name(m) == name(e)), "{e:?}");
            continue;
        }
        assert_eq!(d.depending_on.map(|w| w.word), e.depending_on);
        assert!(e.redefines.is_none() || d.redefines.map(|w| w.word) == e.redefines);
        let picture = d.picture.map(|w| w.word);
        match e.kind {
            FieldKind::Group { .. } => {}
            FieldKind::Edited { picture: listed, .. } => assert_eq!(picture, Some(listed)),
            FieldKind::Float { .. } => assert_eq!(picture, None),
            _ => assert!(picture.is_some()),
        }
    }
}

/// Line and column lead back to the position.
fn check_line(text: &[u8], r: &Refusal) {
    let before: usize = text.split(|&b| b == b'\n').take(r.line - 1).map(|line| line.len() + 1).sum();
    assert_eq!(before + r.column - 1, r.position);
    assert!(!text[before..r.position].contains(&b'\n'));
}

/// What is told of a refusal has no place left open, and its words are of the text.
fn check_told(text: &[u8], r: &Refusal) {
    let told = r.told(text);
    assert!(!told.sentence.contains(['{', '}']) || text.contains(&b'{') || text.contains(&b'}'), "{}", told.sentence);
    assert!(!told.excerpt().is_empty());
    if let Some(word) = told.word {
        assert_eq!(text[word.range()], *word.word.as_bytes());
        assert!(word.start >= r.position);
    }
    let named = matches!(r.number, 10 | 22..=28 | 30);
    assert!(!named || told.word.is_some(), "{}", told.of_file("a copybook"));
}

fn check(reader: &mut Reader, case: &Case) {
    match (reader.layout_and_details(&case.text), &case.answer) {
        (Ok((layout, details)), Ok(listing)) => {
            assert_eq!(layout.listing(), listing);
            assert_eq!(made_again(&case.text, &layout), *listing);
            check_details(&case.text, &layout, &details);
        }
        (Err(r), Err((number, position))) => {
            assert_eq!((r.number, r.position), (*number, *position));
            check_line(&case.text, &r);
            check_told(&case.text, &r);
        }
        (found, _) => panic!("{found:?} for {}", String::from_utf8_lossy(&case.text)),
    }
}

#[test]
fn lists_of_the_layout_test() {
    let mut reader = Reader::new();
    let mut counts = [0, 0];
    for list in ["document", "layouts1", "layouts2", "layouts3", "layouts4"] {
        for case in cases(list) {
            check(&mut reader, &case);
            counts[usize::from(case.answer.is_err())] += 1;
        }
    }
    println!("{} layouts, {} refusals", counts[0], counts[1]);
    assert!(counts[0] > 1000 && counts[1] > 1000, "the lists have {counts:?}");
}
