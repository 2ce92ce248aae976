//! How fast the product is beside the original Rust, in this one program, on the same inputs. `tools/benchmark/run`
//! builds and starts it; docs/BENCHMARKS.md says what its tables mean. They are printed as Markdown.
//!
//! The product is called through the Rust binding with buffers that are lent once, and through the binding's drop-in
//! for the Rust. A time is the processor time of one call, the best of ROUNDS rounds; a round calls each side in turn,
//! so often that it takes at least ROUND seconds. Before an input is measured, both sides must accept it, and agree on
//! the record length or the width.

mod inputs;

use fixedformat_core::{copybook, numbers};
use inputs::{Shape, OWNED, SHAPES, SIZES};
use product::{fixedformat, lent, Form, SignKind, Usage};
use product::{ALL_SUBSETS, LONGEST_LISTING, LONGEST_MASK, MOST_ITEMS, WORK};
use std::hint::black_box;

const ROUNDS: usize = 15;
const ROUND: f64 = 0.01;

// ---------------------------------------------------------------- timing

/// Seconds of processor time that this thread has had, so that what else the machine does counts as little as can be.
fn processor_time() -> f64 {
    /// `struct timespec` and CLOCK_THREAD_CPUTIME_ID of x86-64 Linux, for which the library is made.
    #[repr(C)]
    struct Time {
        seconds: i64,
        nanoseconds: i64,
    }
    const THREAD: i32 = 3;
    extern "C" {
        fn clock_gettime(clock: i32, time: *mut Time) -> i32;
    }
    let mut time = Time { seconds: 0, nanoseconds: 0 };
    // SAFETY: `time` is good for one such struct.
    assert_eq!(unsafe { clock_gettime(THREAD, &mut time) }, 0);
    time.seconds as f64 + time.nanoseconds as f64 / 1e9
}

/// Seconds for so many calls.
fn seconds(call: &mut dyn FnMut(), times: u64) -> f64 {
    let start = processor_time();
    for _ in 0..times {
        call();
    }
    processor_time() - start
}

/// How many calls take a round.
fn calls_in_a_round(call: &mut dyn FnMut()) -> u64 {
    let mut times = 1;
    while seconds(call, times) < ROUND {
        times *= 2;
    }
    times
}

/// Microseconds for a call of each side.
fn best<const N: usize>(mut sides: [&mut dyn FnMut(); N]) -> [f64; N] {
    let times = sides.each_mut().map(|side| calls_in_a_round(side));
    let mut least = [f64::INFINITY; N];
    for _ in 0..ROUNDS {
        for i in 0..N {
            least[i] = least[i].min(seconds(sides[i], times[i]) / times[i] as f64 * 1e6);
        }
    }
    least
}

// ---------------------------------------------------------------- the listing

/// What is lent to the product, once.
struct Buffers {
    work: Vec<u32>,
    out: Vec<u8>,
}

impl Buffers {
    fn new() -> Buffers {
        Buffers { work: vec![0; WORK], out: vec![0; LONGEST_LISTING] }
    }

    fn layout<'t>(&mut self, text: &'t str) -> product::Layout<'t, '_> {
        lent::layout(text.as_bytes(), &mut self.work, &mut self.out).unwrap_or_else(|r| panic!("{r}"))
    }
}

/// Both sides accept the copybook, with the same record length.
fn check_copybook(text: &str, lent: &mut Buffers) {
    let original = copybook::parse(text).unwrap_or_else(|e| panic!("{e}"));
    let layout = lent.layout(text);
    assert_eq!((layout.record_len(), layout.top_len()), (original.record_len, original.fields.len()));
}

/// Microseconds for a copybook: the Rust's `parse`, our listing, our listing with every entry read from it, and the
/// drop-in's `parse`.
struct Measured {
    shape: &'static Shape,
    size: usize,
    bytes: usize,
    rust: f64,
    ours: f64,
    read: f64,
    drop_in: f64,
}

impl Measured {
    fn new(shape: &'static Shape, size: usize) -> Measured {
        let text = &shape.text(size)[..];
        let (mut a, mut b) = (Buffers::new(), Buffers::new());
        check_copybook(text, &mut a);
        let [rust, ours, read, drop_in] = best([
            &mut || drop(black_box(copybook::parse(black_box(text)))),
            &mut || drop(black_box(a.layout(black_box(text)))),
            &mut || b.layout(black_box(text)).entries().for_each(|entry| _ = black_box(entry)),
            &mut || drop(black_box(fixedformat::parse(black_box(text)))),
        ]);
        Measured { shape, size, bytes: text.len(), rust, ours, read, drop_in }
    }

    /// How many times as fast as the Rust the listing is.
    fn ratio(&self) -> f64 {
        self.rust / self.ours
    }

    /// How many times as fast as the Rust the drop-in is.
    fn drop_in_ratio(&self) -> f64 {
        self.rust / self.drop_in
    }
}

fn listings() -> Vec<Measured> {
    println!("## The listing, beside `parse`\n");
    println!("| Copybook | Statements | Bytes | Rust, µs | Ours, µs | Rust / ours | Ours with the entries read, µs |");
    println!("|---|---|---|---|---|---|---|");
    let mut all = Vec::new();
    for shape in &SHAPES {
        for size in shape.sizes() {
            let m = Measured::new(shape, size);
            print!("| {} | {size} | {} | {:.2} | {:.2} |", shape.name, m.bytes, m.rust, m.ours);
            println!(" {:.2} | {:.2} |", m.ratio(), m.read);
            all.push(m);
        }
    }
    all
}

fn drop_ins(all: &[Measured]) {
    println!("\n## The drop-in, beside `parse`: the tree of fields made and dropped on both sides\n");
    println!("| Copybook | Statements | Rust, µs | Drop-in, µs | Rust / drop-in |");
    println!("|---|---|---|---|---|");
    for m in all {
        let (name, ratio) = (m.shape.name, m.drop_in_ratio());
        println!("| {name} | {} | {:.2} | {:.2} | {ratio:.2} |", m.size, m.rust, m.drop_in);
    }
}

fn growth(all: &[Measured]) {
    println!("\n## How the cost grows, as time at 800 statements / time at 100\n");
    println!("| Copybook | Rust | Ours |");
    println!("|---|---|---|");
    let at = |size: usize| all.iter().filter(move |m| m.size == size);
    for (small, large) in at(100).zip(at(800)) {
        println!("| {} | {:.1} | {:.1} |", small.shape.name, large.rust / small.rust, large.ours / small.ours);
    }
}

/// A goal: of which copybooks, and how many times as fast as the Rust.
struct Goal {
    what: &'static str,
    of: fn(&Measured) -> bool,
    ratio: fn(&Measured) -> f64,
    least: f64,
}

const GOALS: [Goal; 6] = [
    Goal { what: "every copybook", of: |_| true, ratio: Measured::ratio, least: 1.0 },
    Goal { what: "every copybook of 800", of: |m| m.size == 800, ratio: Measured::ratio, least: 3.0 },
    Goal { what: "the first four, 5", of: |m| m.shape.plain && m.size == 5, ratio: Measured::ratio, least: 2.5 },
    Goal { what: "the first four, 100", of: |m| m.shape.plain && m.size == 100, ratio: Measured::ratio, least: 5.0 },
    Goal { what: "the first four, 800", of: |m| m.shape.plain && m.size == 800, ratio: Measured::ratio, least: 5.0 },
    Goal { what: "the drop-in, every one of 100", of: |m| m.size == 100, ratio: Measured::drop_in_ratio, least: 3.0 },
];

fn goals(all: &[Measured]) {
    println!("\n## Goals\n");
    println!("| Copybooks | Goal, Rust / ours | Least seen | |");
    println!("|---|---|---|---|");
    for Goal { what, of, ratio, least } in GOALS {
        let seen = all.iter().filter(|m| of(m)).min_by(|a, b| ratio(a).total_cmp(&ratio(b))).expect("some copybook");
        let met = if ratio(seen) >= least { "met" } else { "missed" };
        println!("| {what} | {least} | {:.2}, {} of {} | {met} |", ratio(seen), seen.shape.name, seen.size);
    }
}

// ---------------------------------------------------------------- cards

/// Microseconds for the listing of a copybook of this form.
fn listed(form: Form, text: &[u8], lent: &mut Buffers) {
    let layout = lent::layout_of(form, black_box(text), &mut lent.work, &mut lent.out);
    drop(black_box(layout.unwrap_or_else(|r| panic!("{r}"))));
}

/// Copybooks on cards, beside what is seen of them as free text.
fn cards() {
    println!("\n## Cards, beside the same copybook as free text\n");
    println!("| Copybook | Statements | Bytes | Cards, µs | Free text, µs | Cards / free text |");
    println!("|---|---|---|---|---|---|");
    for size in SIZES {
        let shape = &SHAPES[0];
        let cards = inputs::on_cards(&shape.text(size));
        let (text, seen) = (cards.as_bytes(), inputs::seen_of(&cards));
        let (mut a, mut b) = (Buffers::new(), Buffers::new());
        let [cards, free] =
            best([&mut || listed(Form::Cards, text, &mut a), &mut || listed(Form::Free, seen.as_bytes(), &mut b)]);
        assert_eq!(a.out, b.out);
        print!("| {} | {size} | {} | {cards:.2} |", shape.name, text.len());
        println!(" {free:.2} | {:.2} |", cards / free);
    }
}

// ---------------------------------------------------------------- pictures

/// A picture: the Rust's `parse_pic`, and our picture answer; of an edited picture our mask too, since the Rust's
/// answer holds it.
fn picture(text: &str, usage: Usage, sign: Option<SignKind>) {
    let u = numbers::USAGES[usize::from(usage.number())];
    let s = sign.and_then(|sign| numbers::SIGNS[usize::from(sign.number()) + 1]);
    let original = || copybook::parse_pic(black_box(text), u, s).unwrap_or_else(|e| panic!("{e}"));
    let ours = || product::picture(black_box(text.as_bytes()), usage, sign).unwrap_or_else(|r| panic!("{r}"));
    assert_eq!(ours().width, original().1);
    let edited = matches!(ours().kind, product::FieldKind::Edited { .. });
    let mut out = [0; LONGEST_MASK];
    let [rust, ours] = best([&mut || drop(black_box(original())), &mut || {
        black_box(ours());
        if edited {
            let _ = black_box(lent::mask(black_box(text.as_bytes()), usage, &mut out));
        }
    }]);
    let mask = if edited { ", with its mask" } else { "" };
    println!("| `{text}` {usage:?}{mask} | {rust:.3} | {ours:.3} | {:.2} |", rust / ours);
}

fn pictures() {
    println!("\n## The picture answer, beside `parse_pic`\n");
    println!("| Picture | Rust, µs | Ours, µs | Rust / ours |");
    println!("|---|---|---|---|");
    for (text, usage, sign) in inputs::PICTURES {
        picture(text, usage, sign);
    }
}

// ---------------------------------------------------------------- the byte owner

/// Microseconds to find the owner of the record's last byte.
fn last_owner(text: &str) -> (usize, f64) {
    let mut lent = Buffers::new();
    let length = lent.layout(text).record_len();
    let [time] = best([&mut || {
        let owner = lent::owner(black_box(text.as_bytes()), length - 1, &mut lent.work);
        black_box(owner.unwrap_or_else(|r| panic!("{r}")));
    }]);
    (length, time)
}

fn owners() {
    println!("\n## The byte owner, of the record's last byte\n");
    println!("| Copybook | Statements | Record, bytes | Ours, µs |");
    println!("|---|---|---|---|");
    for shape in &SHAPES[..OWNED] {
        for n in SIZES {
            let (length, time) = last_owner(&shape.text(n));
            println!("| {} | {n} | {length} | {time:.2} |", shape.name);
        }
    }
    for (expected, text) in inputs::RECORDS {
        let (length, time) = last_owner(text);
        assert_eq!(length, expected);
        println!("| three items | 4 | {length} | {time:.2} |");
    }
}

// ---------------------------------------------------------------- the extract

/// 16 items of so many bytes.
fn sixteen(width: impl Fn(usize) -> usize) -> String {
    (0..MOST_ITEMS).map(|i| format!("05 I{i} PIC X({}).\n", width(i))).collect()
}

/// Microseconds to look at so many subsets of 16 items, where about a part of their bytes may be chosen.
fn extracted(text: &str, quarters: usize, budget: u64) -> f64 {
    let mut lent = Buffers::new();
    let weights: Vec<u32> = (0..MOST_ITEMS as u32).map(|i| i * 389 % 1000 + 1).collect();
    let limit = (lent.layout(text).record_len() * quarters / 4) as u64;
    let [time] = best([&mut || {
        let chosen = lent::extract(black_box(text.as_bytes()), &weights, limit, budget, &mut lent.work);
        black_box(chosen.unwrap_or_else(|r| panic!("{r}")));
    }]);
    time
}

fn extracts() {
    println!("\n## The extract, of 16 items\n");
    println!("| Widths | Limit | 1 subset, µs | 65,536 subsets, µs | A subset, ns |");
    println!("|---|---|---|---|---|");
    let widths: [(&str, &dyn Fn(usize) -> usize); 2] = [("alike", &|_| 10), ("different", &|i| i * 37 % 61 + 1)];
    for (name, width) in widths {
        for quarters in 1..=4 {
            let text = sixteen(width);
            let (one, all) = (extracted(&text, quarters, 1), extracted(&text, quarters, ALL_SUBSETS));
            let each = (all - one) * 1e3 / (ALL_SUBSETS - 1) as f64;
            println!("| {name} | {quarters}/4 of the record | {one:.2} | {all:.1} | {each:.2} |");
        }
    }
}

fn main() {
    let all = listings();
    drop_ins(&all);
    growth(&all);
    goals(&all);
    cards();
    pictures();
    owners();
    extracts();
}
