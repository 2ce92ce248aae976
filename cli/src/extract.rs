//! `copybook extract`: which top-level columns to send where a record may have so many bytes.

use crate::files::Source;
use crate::help::{Opt, ANY_BYTES};
use crate::{files, nearest, refusals, Arguments, Command, Failure, Status};
use copybook::{Entry, Extract, Layout, Refusal, ALL_SUBSETS, MOST_ITEMS};
use std::ffi::OsStr;
use std::io::{self, Write};

pub const COMMAND: Command = Command {
    name: "extract",
    summary: "which top-level columns fit into so many bytes, the heaviest choice",
    usage: "FILE --limit BYTES [--budget CHOICES] [--any-bytes] WEIGHT... | NAME=WEIGHT...",
    about: "\
Which of up to 16 top-level columns to send where a record may have so many BYTES: those that fit and weigh the most.
Each has a weight from 1 to 1,000, and its width with all its occurrences:

    chosen COUNT of ALL columns, BYTES of LIMIT bytes, weight WEIGHT of ALL
    tried CHOICES of ALL choices: none that fits weighs more
    entry NUMBER NAME first FIRST width WIDTH weight WEIGHT

The last line comes once for each chosen column: its number in the layout, from 0, its first byte in the record, and its
width. Where not all choices were tried, the line before says by how much one that fits may outweigh this one at most.

The weights stand in the order of the columns, or each with the column's name, case aside, in any order, where no two
columns have that name.
",
    options: &[
        Opt::valued(LIMIT, "BYTES", "how many bytes the chosen columns may have together"),
        Opt::valued(BUDGET, "CHOICES", "how many choices are tried, where time matters; all of them if it is left out"),
        ANY_BYTES,
    ],
    notes: "\
A choice is a number in binary, in which the lowest bit stands for the first column; they are tried from 0 up, and of
equally heavy ones the first is taken.

FILE is - for standard input. A copybook with REDEFINES or DEPENDING ON is refused (40), and so are more than 16 columns
or another number of weights (58), a weight outside its range (59) and a budget of 0 (60).
",
    run,
};

const LIMIT: &str = "--limit";
const BUDGET: &str = "--budget";

/// The refusal of a REDEFINES or a DEPENDING ON, and that of too many columns or another number of weights.
const OVERLAID: u32 = 40;
const WRONG_NUMBER: u32 = 58;

/// A number of digits alone; one of more digits than a number has is the largest.
fn number(word: &str) -> Option<u64> {
    (!word.is_empty() && word.bytes().all(|b| b.is_ascii_digit())).then(|| word.parse().unwrap_or(u64::MAX))
}

/// A weight; one that is too large for a number is too large for a weight.
fn weight(word: &str) -> Option<u32> {
    number(word).map(|n| n.try_into().unwrap_or(u32::MAX))
}

/// The number that an option has.
fn option(arguments: &Arguments, name: &str) -> Result<Option<u64>, Failure> {
    let read = |word: &str| match number(word) {
        None => Err(Failure::Misuse(format!("{name} {word} is no number: digits alone, from 0"))),
        n => Ok(n),
    };
    arguments.value(name).map_or(Ok(None), read)
}

/// The weights as they are written: in the order of the items, or by name.
enum Weights {
    InOrder(Vec<u32>),
    ByName(Vec<(String, u32)>),
}

impl Weights {
    fn read(words: &[String]) -> Result<Weights, Failure> {
        let wrong = |word: &str| Failure::Misuse(format!("{word} is neither a WEIGHT nor NAME=WEIGHT"));
        let named = |word: &String| {
            let (name, value) = word.rsplit_once('=').ok_or_else(|| wrong(word))?;
            Ok((name.to_owned(), weight(value).ok_or_else(|| wrong(word))?))
        };
        if words.iter().any(|word| word.contains('=')) {
            return Ok(Weights::ByName(words.iter().map(named).collect::<Result<_, Failure>>()?));
        }
        let plain = |word: &String| weight(word).ok_or_else(|| wrong(word));
        Ok(Weights::InOrder(words.iter().map(plain).collect::<Result<_, Failure>>()?))
    }

    /// The weights in the order of the items.
    fn of(&self, items: &[Entry]) -> Result<Vec<u32>, Failure> {
        match self {
            Weights::InOrder(weights) => Ok(weights.clone()),
            // too many items are refused, whatever they are called
            Weights::ByName(_) if items.len() > MOST_ITEMS => Ok(Vec::new()),
            Weights::ByName(named) => in_order(named, items),
        }
    }
}

/// The weights of items that are named.
fn in_order(named: &[(String, u32)], items: &[Entry]) -> Result<Vec<u32>, Failure> {
    let same = |a: &str, b: &str| a.eq_ignore_ascii_case(b);
    for (i, (name, _)) in named.iter().enumerate() {
        match items.iter().filter(|item| same(called(item), name)).count() {
            0 => {
                let meant = nearest::question(name, items.iter().map(called));
                return Err(Failure::Misuse(format!("no top-level column is called {name}{meant}")));
            }
            1 => {}
            n => {
                let why =
                    format!("{n} top-level columns are called {name}: give the weights in the order of the columns");
                return Err(Failure::Misuse(why));
            }
        }
        if named[..i].iter().any(|(other, _)| same(other, name)) {
            return Err(Failure::Misuse(format!("two weights for {name}")));
        }
    }
    let find = |item: &Entry| named.iter().find(|(name, _)| same(called(item), name)).map(|(_, weight)| *weight);
    let missing = |item: &Entry| Failure::Misuse(format!("no weight for {}", called(item)));
    items.iter().map(|item| find(item).ok_or_else(|| missing(item))).collect()
}

fn called<'t>(entry: &Entry<'t>) -> &'t str {
    entry.name.unwrap_or("FILLER")
}

/// What the command line asks.
struct Asked<'a> {
    file: &'a OsStr,
    weights: Weights,
    limit: u64,
    budget: u64,
}

impl Asked<'_> {
    fn read(arguments: &Arguments) -> Result<Asked<'_>, Failure> {
        let Some((file, words)) = arguments.operands.split_first() else {
            return Err(Failure::Misuse("a FILE, then a weight for each top-level column".into()));
        };
        let words: Vec<String> = words.iter().map(|word| word.to_string_lossy().into_owned()).collect();
        let weights = Weights::read(&words)?;
        let Some(limit) = option(arguments, LIMIT)? else {
            return Err(Failure::Misuse(format!("{LIMIT} BYTES says how many bytes may be chosen")));
        };
        Ok(Asked { file, weights, limit, budget: option(arguments, BUDGET)?.unwrap_or(ALL_SUBSETS) })
    }

    /// The weights in the order of the items, and the choice.
    fn answer(&self, text: &[u8], items: &[Entry]) -> Result<Result<(Vec<u32>, Extract), Refusal>, Failure> {
        let ask = |weights: &[u32]| copybook::extract(text, weights, self.limit, self.budget);
        // this is refused whatever the weights are called
        if let Some(refusal) = ask(&[]).err().filter(|refusal| refusal.number == OVERLAID) {
            return Ok(Err(refusal));
        }
        let weights = self.weights.of(items)?;
        let chosen = ask(&weights);
        Ok(chosen.map(|chosen| (weights, chosen)))
    }
}

/// Prints that there are too many columns, or not as many weights as columns, with both numbers.
fn wrong_number(refusal: &Refusal, asked: &Asked, items: &[Entry], source: &Source) -> Result<Status, Failure> {
    let given = match &asked.weights {
        Weights::InOrder(weights) => weights.len(),
        Weights::ByName(weights) => weights.len(),
    };
    let (columns, s) = (items.len(), if given == 1 { "" } else { "s" });
    let what = match columns > MOST_ITEMS {
        true => format!("{columns} top-level columns, and a choice is of {MOST_ITEMS} at most"),
        false => format!("{given} weight{s} for {columns} top-level columns"),
    };
    files::write(|out| refusals::line(refusal, out))?;
    say!("{}: {what}\n    {}", source.name, refusal.advice());
    Ok(Status::Refused)
}

/// The items at the top.
fn items<'t>(layout: &Layout<'t, '_>) -> Vec<Entry<'t>> {
    layout.entries().filter(|entry| entry.depth == 0).collect()
}

/// How many choices were tried of how many, and what may be missed.
fn tried(answer: &Extract, columns: usize) -> String {
    let (tried, all) = (answer.examined, 1u64 << columns);
    let missed = match answer.off {
        0 => "none that fits weighs more".into(),
        off => format!("one that fits may weigh up to {off} more"),
    };
    format!("tried {tried} of {all} choices: {missed}")
}

fn write(items: &[Entry], weights: &[u32], limit: u64, answer: &Extract, out: &mut dyn Write) -> io::Result<()> {
    let chosen: Vec<(&Entry, &u32)> =
        items.iter().zip(weights).enumerate().filter(|(i, _)| answer.has(*i)).map(|(_, pair)| pair).collect();
    let bytes: u64 = chosen.iter().map(|(entry, _)| entry.reserved_width() as u64).sum();
    let (count, columns, total) = (chosen.len(), items.len(), weights.iter().map(|&w| u64::from(w)).sum::<u64>());
    let weight = answer.weight;
    writeln!(out, "chosen {count} of {columns} columns, {bytes} of {limit} bytes, weight {weight} of {total}")?;
    writeln!(out, "{}", tried(answer, columns))?;
    for (entry, weight) in chosen {
        let (number, first, width) = (entry.number, entry.offset, entry.reserved_width());
        let name = copybook::escaped(called(entry));
        writeln!(out, "entry {number} {name} first {first} width {width} weight {weight}")?;
    }
    Ok(())
}

fn run(arguments: &Arguments) -> Result<Status, Failure> {
    let asked = Asked::read(arguments)?;
    let source = files::read(Some(asked.file), arguments)?;
    let layout = match copybook::layout(&source.text) {
        Ok(layout) => layout,
        Err(refusal) => return refusals::not_laid_out(&refusal, &source),
    };
    let status = refusals::doubts(&layout, &source, copybook::Form::Free, true);
    let items = items(&layout);
    match asked.answer(&source.text, &items)? {
        Ok((weights, answer)) => files::write(|out| write(&items, &weights, asked.limit, &answer, out))?,
        Err(refusal) if refusal.number == WRONG_NUMBER => return wrong_number(&refusal, &asked, &items, &source),
        Err(refusal) => return refusals::print(&refusal, &source),
    }
    Ok(status)
}
