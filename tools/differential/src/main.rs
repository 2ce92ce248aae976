//! The original Rust and the product, through its C interface and through its drop-ins for the Rust, compared on
//! generated inputs. `tools/differential/run` builds and starts it:
//!
//!     differential COUNT SEED [WRITTEN]
//!
//! WRITTEN holds inputs as tools/inputs prints them, one to a line; they come first, and are damaged to make others.
//! The rest of COUNT is made from SEED (`inputs`).
//!
//! A copybook must get the bytes of listing and of details that the Rust's answer comes to by their formats (`answer`),
//! or the number of refusal that its error means. Places in the text, positions, levels and slack, which the Rust does
//! not have, are those of a reading of the rules that shares no code with the product (`reading`); so are the added
//! refusals 1, 2, 14, 24, 27, 29, 30, 50 and 52: an input with one is left out of the comparison with the Rust, and
//! counted, but number and position are checked. So is a copybook in which a literal after VALUE holds a period that
//! would end a statement, or `*>`: there the Rust has no answer, and `tools/compare quoted` compares every byte. So is
//! one in which a group names a usage, DISPLAY stands after another usage word, or COMP-1 or COMP-2 names a float: its
//! refusal and its owners are checked, and `tools/compare usages` and `floats` compare every byte. So is one in which an
//! item below the fields of the record has SYNC, or something is refused inside a group whose target is missing: its
//! refusal and its owners are checked, and `tools/compare aligned` compares every byte. So is an input with
//! P in a picture, which holds a byte in the Rust and none here: its refusals, the widths of pictures and the owners of
//! copybooks are checked, and `tools/compare pictures` compares all else. The Rust has no byte owner: owners are
//! compared, for some copybooks, with the bytes laid one by one by the reading. The masks of the edited pictures of a
//! listing are compared too, and the record check. A picture is compared under every usage and sign, and its mask under
//! every usage.
//!
//! Both drop-ins (`drop_in`), the module and the file in the original's own crate, must give the Rust's own layout,
//! field by field, of every accepted copybook, the Rust's kind of every accepted picture, and errors that say what the
//! Rust's say; where the Rust has no answer, both must give the same.
//!
//! With each call (`calls`): the output keeps its bytes after a refusal and past what is written, for outputs that are
//! longer, exact and too short (31); lent work memory is full of numbers before and zero after; an answer that is too
//! short keeps its numbers; nothing beside the buffers is touched.
//!
//! The exit status is 1 if anything differs; the smallest input that does is printed in hex, with what differs.

mod answer;
mod calls;
#[allow(dead_code)] // the calls for cards are compared by `tools/compare cards`
#[path = "../../../bindings/rust/src/declared.rs"]
mod declared;
mod drop_in;
mod inputs;
mod reading;

use answer::{Expected, Listing, Pictured};
use declared::{copybook_details, copybook_layout};
use fixedformat_core::FieldKind;
use inputs::{Input, Maker, Random};
use reading::Refused;
use std::collections::BTreeMap;
use std::{env, fs, panic, process};

type Found<T> = std::result::Result<T, String>;

/// How often each kind of answer was seen.
type Counts = BTreeMap<(&'static str, u32, String), u64>;

const BOOKS: &str = "copybooks";
const DETAILS: &str = "copybooks asked for details";
const DROP_IN: &str = "copybooks, by both drop-ins beside the Rust's own layout";
const SHORT: &str = "copybook calls with too short an output";
const LITTLE: &str = "copybook calls with too little work memory";
const LEFT: &str = "copybooks left out";
const OWNERS: &str = "owners, by the reading alone";
const CHECKS: &str = "record checks";
const PICTURES: &str = "picture answers";
const PICTURES_LEFT: &str = "picture answers left out";
const MASKS: &str = "masks";
const RANGE: &str = "usages and signs out of range";

struct Run {
    counts: Counts,
}

fn said(number: u32) -> String {
    if number == 0 {
        "accepted".into()
    } else {
        format!("refused {number}")
    }
}

/// The refusal that a call gave is the expected one.
fn same_refusal(got: &calls::Returned, want: Refused, needed: usize) -> Found<()> {
    if got.number != want.0 {
        return Err(format!("number {} where {} is due", got.number, want.0));
    }
    match &got.answer {
        Some(a) if a[..2] != [want.1 as u64, needed as u64] => {
            Err(format!("position and needed length {a:?} where {:?} is due", (want.1, needed)))
        }
        Some(a) if a[2..].iter().any(|&n| n != 0) => Err(format!("numbers {a:?} of a refusal")),
        _ => Ok(()),
    }
}

fn same_bytes(got: &calls::Returned, bytes: &[u8], want: &[u8]) -> Found<()> {
    if got.number != 0 {
        return Err(format!("number {} where {} bytes are due", got.number, want.len()));
    }
    if got.answer.as_ref().is_some_and(|a| a[1] != 0) {
        return Err("a second number of an accepted call that is not 0".into());
    }
    if bytes != want {
        let at = bytes.iter().zip(want).take_while(|(a, b)| a == b).count();
        let lengths = format!("{} bytes where {} are due", bytes.len(), want.len());
        return Err(format!("{lengths}; the first that differs is {at}\n  got  {}\n  want {}", hex(bytes), hex(want)));
    }
    Ok(())
}

/// As much work memory as is asked for, or more.
fn enough_work(r: &mut Random) -> usize {
    calls::ENOUGH_WORK + if r.chance(1, 4) { r.below(40) } else { 0 }
}

fn utf8(text: &[u8]) -> Found<&str> {
    std::str::from_utf8(text).map_err(|e| e.to_string())
}

impl Run {
    fn count(&mut self, what: &'static str, number: u32, more: &str) {
        *self.counts.entry((what, number, format!("{}{more}", said(number)))).or_default() += 1;
    }

    fn written(&mut self, r: &mut Random, picture: &[u8], usage: u8, mask: &[u8]) -> Found<()> {
        let spare = r.below(9);
        if !mask.is_empty() {
            let room = r.below(mask.len());
            let (got, _) = calls::mask(r, picture, usage, room, None)?;
            same_refusal(&got, Refused(31, 0), mask.len()).map_err(|e| format!("mask: {e}"))?;
            self.count(MASKS, 31, "");
        }
        let (got, bytes) = calls::mask(r, picture, usage, mask.len() + spare, Some(mask.len()))?;
        same_bytes(&got, &bytes, mask).map_err(|e| format!("mask: {e}"))?;
        self.count(MASKS, 0, if mask.is_empty() { ", no mask" } else { "" });
        Ok(())
    }

    fn copybook(&mut self, r: &mut Random, text: &[u8]) -> Found<()> {
        self.little_work(r, text)?;
        let reading = reading::read(text);
        match answer::copybook(text, &reading)? {
            Expected::Refused(want, said) => {
                self.refused(r, text, want)?;
                self.count(BOOKS, want.0, "");
                drop_in::refused(utf8(text)?, &said)?;
                self.count(DROP_IN, want.0, ", and says what the Rust says");
                drop_in::told(text, &reading, want)
            }
            Expected::Added(want, how) => {
                self.refused(r, text, want)?;
                self.count(LEFT, want.0, &format!(" (the Rust {how})"));
                if let Ok(text) = utf8(text) {
                    drop_in::added(text, want)?;
                    drop_in::alike(text)?;
                }
                drop_in::told(text, &reading, want)
            }
            Expected::Accepted(how) => {
                // 29 for a top-level end needs the width of a fold, which the reading does not have
                let number = drop_in::number(text);
                if number != 0 && number != 29 {
                    return Err(format!("number {number} where a listing is due"));
                }
                self.count(LEFT, number, &format!(" (the Rust {how})"));
                drop_in::alike(utf8(text)?)?;
                match reading.laid(text) {
                    Some(laid) if number == 0 && !reading.overlaid() => {
                        self.owners(r, text, laid.iter().map(|l| l.len as u64).sum())
                    }
                    _ => Ok(()),
                }
            }
            Expected::Listing(want) => {
                self.accepted(r, text, &want)?;
                self.count(BOOKS, 0, "");
                drop_in::layout(utf8(text)?, &want.layout)?;
                self.count(DROP_IN, 0, ", the same field by field");
                Ok(())
            }
        }
    }

    /// Sometimes a call with too little work memory: 3, or 1 or 2 before it.
    fn little_work(&mut self, r: &mut Random, text: &[u8]) -> Found<()> {
        if r.chance(1, 50) {
            let less = calls::ENOUGH_WORK - 1 - if r.chance(1, 2) { r.below(calls::ENOUGH_WORK) } else { 0 };
            let want = reading::text_checks(text).err().unwrap_or(Refused(3, 0));
            let room = r.below(200);
            let call = if r.chance(1, 2) { copybook_layout } else { copybook_details };
            let (got, _) = calls::written(call, r, text, less, room, None)?;
            same_refusal(&got, want, 0)?;
            self.count(LITTLE, want.0, "");
        }
        Ok(())
    }

    /// Every call refuses the copybook.
    fn refused(&mut self, r: &mut Random, text: &[u8], want: Refused) -> Found<()> {
        let (work, room) = (enough_work(r), r.below(600));
        let (got, _) = calls::written(copybook_layout, r, text, work, room, None)?;
        same_refusal(&got, want, 0)?;
        if r.chance(1, 4) {
            let (got, _) = calls::written(copybook_details, r, text, work, room, None)?;
            same_refusal(&got, want, 0).map_err(|e| format!("details: {e}"))?;
            self.count(DETAILS, want.0, "");
        }
        self.owner_refused(r, text, want)
    }

    /// Every call accepts the copybook, with the answers that are due.
    fn accepted(&mut self, r: &mut Random, text: &[u8], want: &Listing) -> Found<()> {
        self.bytes(r, text, copybook_layout, &want.bytes)?;
        self.bytes(r, text, copybook_details, &want.details).map_err(|e| format!("details: {e}"))?;
        self.count(DETAILS, 0, "");
        for (span, mask) in &want.masks {
            self.written(r, span.of(text), 0, mask.as_bytes())?;
        }
        self.record_checks(r, want.layout.record_len, want.layout.variable)?;
        if r.chance(1, 4) {
            self.owners(r, text, want.layout.record_len as u64)?;
        }
        Ok(())
    }

    /// A call writes these bytes, and sometimes before that refuses an output that is too short for them.
    fn bytes(&mut self, r: &mut Random, text: &[u8], call: calls::Written, want: &[u8]) -> Found<()> {
        let (work, long) = (enough_work(r), want.len());
        if long > 0 && r.chance(1, 8) {
            let room = if r.chance(1, 2) { long - 1 } else { r.below(long) };
            let (got, _) = calls::written(call, r, text, work, room, None)?;
            same_refusal(&got, Refused(31, 0), long)?;
            self.count(SHORT, 31, "");
        }
        let spare = if r.chance(1, 2) { 0 } else { r.below(100) };
        let (got, bytes) = calls::written(call, r, text, work, long + spare, Some(long))?;
        same_bytes(&got, &bytes, want)
    }

    /// The owner refuses what the layout refuses.
    fn owner_refused(&mut self, r: &mut Random, text: &[u8], want: Refused) -> Found<()> {
        if r.chance(1, 4) {
            let position = r.below(50) as u64;
            let got = calls::owner(r, text, position, calls::ENOUGH_WORK)?;
            same_refusal(&got, want, 0).map_err(|e| format!("owner: {e}"))?;
            self.count(OWNERS, want.0, "");
        }
        Ok(())
    }

    /// The owners of some bytes of an accepted record.
    fn owners(&mut self, r: &mut Random, text: &[u8], record_len: u64) -> Found<()> {
        let reading = reading::read(text);
        let laid = if reading.overlaid() { None } else { reading.laid(text) };
        if let Some(laid) = &laid {
            let all: u128 = laid.iter().map(|l| l.len).sum();
            if all != u128::from(record_len) {
                return Err(format!("owner: {all} bytes are laid where the record has {record_len}"));
            }
        }
        let (any, last) = (r.below(record_len as usize + 2) as u64, u64::MAX - r.below(2) as u64);
        let mut positions = vec![0, record_len.saturating_sub(1), record_len, any, last];
        // the last byte of some slack, which is rare
        let mut ends = Vec::new();
        laid.iter().flatten().fold(0, |at, l| {
            if l.slack && l.len > 0 {
                ends.push(at + l.len as u64 - 1);
            }
            at + l.len as u64
        });
        if !ends.is_empty() {
            positions.push(ends[r.below(ends.len())]);
        }
        for position in positions {
            let named = |e: String| format!("owner of {position}: {e}");
            let refusal = if reading.overlaid() { Some(40) } else { (position >= record_len).then_some(41) };
            if refusal.is_none() && laid.is_none() {
                continue;
            }
            let got = calls::owner(r, text, position, calls::ENOUGH_WORK).map_err(named)?;
            if let Some(number) = refusal {
                same_refusal(&got, Refused(number, 0), 0).map_err(named)?;
                self.count(OWNERS, number, "");
                continue;
            }
            let laid = laid.as_ref().expect("laid").iter();
            let placed = laid.scan(0, |next, l| {
                let at = *next;
                *next += l.len as u64;
                Some((at, l))
            });
            let found = { placed }.find(|(at, l)| position < at + l.len as u64);
            let (at, l) = found.expect("a position below the record length");
            let want = if l.slack { [1, l.entry as u64, 0, 0] } else { [0, l.entry as u64, at, position - at] };
            if got.number != 0 || got.answer.as_ref().is_some_and(|a| a[..] != want) {
                let (number, answer) = (got.number, got.answer);
                return Err(named(format!("number {number}, answer {answer:?}, where {want:?} is due")));
            }
            self.count(OWNERS, 0, if l.slack { ", slack" } else { ", a piece" });
        }
        Ok(())
    }

    fn record_checks(&mut self, r: &mut Random, record_len: usize, variable: bool) -> Found<()> {
        for len in [record_len.saturating_sub(1), record_len, record_len + 1, r.below(2 * record_len + 2)] {
            let mark = if variable { r.within(1, 255) as u8 } else { 0 };
            let got = calls::record_check(record_len as u64, mark, len as u64);
            let said = answer::record_check(record_len, variable, len);
            let want = said.as_ref().map_or_else(|e| e.number(), |()| 0);
            if got != want {
                return Err(format!("record check of {record_len}, {variable}, {len}: {got} where {want} is due"));
            }
            drop_in::record_check(record_len, variable, len, &said)?;
            self.count(CHECKS, got, "");
        }
        Ok(())
    }

    fn picture(&mut self, r: &mut Random, text: &[u8]) -> Found<()> {
        for usage in 0..3 {
            for sign in 0..5 {
                let got = calls::picture(r, text, usage, sign)?;
                let named = |e: String| format!("usage {usage}, sign {sign}: {e}");
                let expected = answer::picture(text, usage.into(), sign.into()).map_err(named)?;
                let refused = match expected {
                    Pictured::Numbers(numbers, kind) => {
                        if got.number != 0 || got.answer.as_ref().is_some_and(|a| a[..] != numbers) {
                            let (number, answer) = (got.number, got.answer);
                            return Err(named(format!("number {number}, answer {answer:?}, where {numbers:?} is due")));
                        }
                        self.count(PICTURES, 0, "");
                        if sign == 0 {
                            let mask = if let FieldKind::Edited { mask, .. } = &kind { mask.as_bytes() } else { &[] };
                            self.written(r, text, usage, mask).map_err(named)?;
                        }
                        let want = (kind, numbers[1] as usize);
                        drop_in::picture(utf8(text)?, usage.into(), sign.into(), &want).map_err(named)?;
                        continue;
                    }
                    Pictured::Refused(want, said) => {
                        drop_in::picture_refused(utf8(text)?, usage.into(), sign.into(), &said).map_err(named)?;
                        self.count(PICTURES, want.0, "");
                        want
                    }
                    Pictured::Added(want) => {
                        self.count(PICTURES_LEFT, want.0, if reading::has_scale(text) { ", with P" } else { "" });
                        want
                    }
                    Pictured::Width(width) => {
                        if got.number != 0 || got.answer.as_ref().is_some_and(|a| a[1] != width) {
                            let (number, answer) = (got.number, got.answer);
                            let got = format!("number {number}, answer {answer:?}");
                            return Err(named(format!("{got}, where width {width} is due")));
                        }
                        self.count(PICTURES_LEFT, 0, ", with P");
                        continue;
                    }
                };
                same_refusal(&got, refused, 0).map_err(named)?;
                if sign == 0 {
                    let room = r.below(40);
                    let (got, _) = calls::mask(r, text, usage, room, None)?;
                    same_refusal(&got, refused, 0).map_err(|e| format!("mask: {e}")).map_err(named)?;
                    self.count(MASKS, refused.0, "");
                }
            }
        }
        self.out_of_range(r, text)
    }

    /// 255, and nothing touched.
    fn out_of_range(&mut self, r: &mut Random, text: &[u8]) -> Found<()> {
        // the first number out of range half the time, beside numbers in range and not
        let above = |r: &mut Random, first: usize| if r.chance(1, 2) { first } else { r.within(first, 255) };
        let (usage, sign) = match r.below(3) {
            0 => (above(r, 3), r.below(5)),
            1 => (r.below(3), above(r, 5)),
            _ => (above(r, 3), above(r, 5)),
        };
        let got = calls::picture(r, text, usage as u8, sign as u8)?;
        if got.number != 255 {
            return Err(format!("usage {usage}, sign {sign}: number {} where 255 is due", got.number));
        }
        self.count(RANGE, 255, "");
        let usage = above(r, 3) as u8;
        let (got, _) = calls::mask(r, text, usage, 30, None)?;
        if got.number != 255 {
            return Err(format!("mask, usage {usage}: number {} where 255 is due", got.number));
        }
        self.count(RANGE, 255, "");
        Ok(())
    }

    /// Compares one input. The buffers that are lent follow from the seed.
    fn compare(&mut self, input: &Input, seed: u64) -> Found<()> {
        let mut r = Random::new(seed);
        match input {
            Input::Copybook(text) => self.copybook(&mut r, text),
            Input::Picture(text) => self.picture(&mut r, text),
        }
    }
}

fn hex(bytes: &[u8]) -> String {
    bytes.iter().map(|b| format!("{b:02x}")).collect()
}

fn from_hex(word: &str) -> Vec<u8> {
    (0..word.len()).step_by(2).map(|i| u8::from_str_radix(&word[i..i + 2], 16).expect("hex")).collect()
}

/// The inputs that tools/inputs printed.
fn written_inputs(file: &str) -> Vec<Input> {
    let text = fs::read_to_string(file).unwrap_or_else(|e| panic!("{file}: {e}"));
    let made = text.lines().map(|line| {
        let words: Vec<&str> = line.split(' ').collect();
        match words[..] {
            ["C"] => Input::Copybook(Vec::new()),
            ["C", hex] => Input::Copybook(from_hex(hex)),
            ["P", _, _] => Input::Picture(Vec::new()),
            ["P", _, _, hex] => Input::Picture(from_hex(hex)),
            _ => panic!("{file}: {line}"),
        }
    });
    made.collect()
}

/// A smaller input that still differs, by leaving out parts of it.
fn shrunk(mut input: Input, seed: u64) -> (Input, String) {
    let differs = |i: &Input| Run { counts: Counts::new() }.compare(i, seed).err();
    let mut why = differs(&input).unwrap_or_else(|| "differs only now and then".into());
    let mut size = input.text().len();
    while size > 0 {
        let mut at = 0;
        while at < input.text().len() {
            let text = input.text();
            let end = (at + size).min(text.len());
            let less = [&text[..at], &text[end..]].concat();
            let tried = match input {
                Input::Copybook(_) => Input::Copybook(less),
                Input::Picture(_) => Input::Picture(less),
            };
            match differs(&tried) {
                Some(e) => (input, why) = (tried, e),
                None => at += size,
            }
        }
        size /= 2;
    }
    (input, why)
}

fn show(what: &str, input: &Input, why: &str) {
    let kind = match input {
        Input::Copybook(_) => "copybook",
        Input::Picture(_) => "picture",
    };
    println!("{what}: {kind} {}\n  {:?}\n  {why}", hex(input.text()), String::from_utf8_lossy(input.text()));
}

fn main() {
    let words: Vec<String> = env::args().skip(1).collect();
    let (count, seed) = match (words.first().map(|w| w.parse::<u64>()), words.get(1).map(|w| w.parse::<u64>())) {
        (Some(Ok(count)), Some(Ok(seed))) => (count, seed),
        _ => {
            eprintln!("usage: differential COUNT SEED [WRITTEN]");
            process::exit(2);
        }
    };
    // The Rust panics where its sums wrap; that is counted, not shown.
    panic::set_hook(Box::new(|_| {}));
    let written = words.get(2).map_or(Vec::new(), |file| written_inputs(file));
    let short = |i: &&Input| matches!(i, Input::Copybook(t) if (1..2000).contains(&t.len()));
    let pool = written.iter().filter(short).map(|i| i.text().to_vec()).collect();
    let mut maker = Maker::new(seed, pool);
    let mut run = Run { counts: Counts::new() };
    let mut made = [0u64; 2];
    let mut different: Vec<(Input, u64)> = Vec::new();
    let mut differences = 0u64;
    for k in 0..count {
        let input = written.get(k as usize).cloned().unwrap_or_else(|| maker.input());
        made[usize::from(matches!(input, Input::Picture(_)))] += 1;
        let lending = seed.wrapping_mul(0x9e37_79b9).wrapping_add(k);
        if run.compare(&input, lending).is_err() {
            differences += 1;
            if different.len() < 1000 {
                different.push((input, lending));
            }
        }
        if (k + 1) % 100_000 == 0 {
            eprintln!("{} of {count} inputs, {differences} differences", k + 1);
        }
    }
    let first = written.len().min(count as usize);
    println!("{} copybooks and {} pictures (seed {seed}; {first} written ones)", made[0], made[1]);
    let mut last = "";
    for ((what, _, kind), n) in &run.counts {
        if *what != last {
            let all: u64 = run.counts.iter().filter(|((w, _, _), _)| w == what).map(|(_, n)| n).sum();
            println!("{what}: {all}");
            last = what;
        }
        println!("    {kind}: {n}");
    }
    println!("{differences} differences");
    if differences > 0 {
        different.sort_by_key(|(i, _)| i.text().len());
        let (input, lending) = different[0].clone();
        let why = run.compare(&input, lending).err().unwrap_or_else(|| "differs only now and then".into());
        show("smallest", &input, &why);
        let (small, why) = shrunk(input, lending);
        show("made smaller", &small, &why);
        process::exit(1);
    }
}
