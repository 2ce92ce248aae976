//! The calls of `copybook_c`, each with lent buffers that stand between guards. What a call may not touch is checked
//! here: the guards, the answer where it is too short, the output after a refusal and past what was written, and work
//! memory, which must be zero.

use crate::declared::*;
use crate::inputs::Random;

pub const ENOUGH_WORK: usize = 16_384;
const GUARD: usize = 8;

/// A lent buffer with guards on both sides, and what it held before.
struct Lent<T> {
    cells: Vec<T>,
    before: Vec<T>,
    len: usize,
}

impl<T: Copy + PartialEq> Lent<T> {
    fn new(len: usize, mut make: impl FnMut(usize) -> T) -> Self {
        let cells: Vec<T> = (0..len + 2 * GUARD).map(&mut make).collect();
        Lent { before: cells.clone(), cells, len }
    }

    fn pointer(&mut self) -> *mut T {
        self.cells[GUARD..].as_mut_ptr()
    }

    fn now(&self) -> &[T] {
        &self.cells[GUARD..GUARD + self.len]
    }

    /// The guards, and everything of the buffer from `kept` on, are as before.
    fn kept_from(&self, kept: usize, what: &str) -> Result<(), String> {
        let at = GUARD + kept;
        if self.cells[..GUARD] != self.before[..GUARD] || self.cells[at..] != self.before[at..] {
            return Err(format!("{what} was touched where it may not be"));
        }
        Ok(())
    }
}

/// What a call returned, and the numbers of its answer where it was lent room for them.
pub struct Returned {
    pub number: u32,
    pub answer: Option<Vec<u64>>,
}

/// The lent answer: mostly with room, sometimes too short.
fn lent_answer(r: &mut Random, writes: usize) -> Lent<u64> {
    let len = if r.chance(1, 16) { r.below(writes) } else { writes + r.below(3) };
    let seed = r.next();
    Lent::new(len, |i| seed ^ i as u64)
}

fn answered(answer: &Lent<u64>, writes: usize, number: u32) -> Result<Returned, String> {
    let room = answer.len >= writes && number != 255;
    answer.kept_from(if room { writes } else { 0 }, "the answer")?;
    Ok(Returned { number, answer: room.then(|| answer.now()[..writes].to_vec()) })
}

/// The output after a call: what was written, or nothing where it was refused.
fn output(out: &Lent<u8>, returned: &Returned, long: Option<usize>) -> Result<Vec<u8>, String> {
    if returned.number != 0 {
        out.kept_from(0, "the output of a refusal")?;
        return Ok(Vec::new());
    }
    let n = match (&returned.answer, long) {
        (Some(a), _) => a[0] as usize,
        (None, Some(n)) => n,
        (None, None) => return Err("accepted, against what is expected".into()),
    };
    if n > out.len {
        return Err(format!("{n} bytes in an output of {}", out.len));
    }
    out.kept_from(n, "the output")?;
    Ok(out.now()[..n].to_vec())
}

/// A call that answers a copybook in bytes.
pub type Written = unsafe extern "C" fn(*const u8, usize, *mut u32, usize, *mut u8, usize, *mut u64, usize) -> u32;

/// Such a call with so much work memory and output. `long` is how many bytes are expected, if some are.
pub fn written(
    call: Written,
    r: &mut Random,
    text: &[u8],
    work_len: usize,
    room: usize,
    long: Option<usize>,
) -> Result<(Returned, Vec<u8>), String> {
    let seed = r.next() | 1;
    let mut work = Lent::new(work_len, |i| (seed >> (i % 13)) as u32 ^ i as u32);
    let mut out = Lent::new(room, |i| (seed >> (i % 23)) as u8 ^ i as u8);
    let mut answer = lent_answer(r, 2);
    let text_copy = text.to_vec();
    let (w, o, a) = (work.pointer(), out.pointer(), answer.pointer());
    let number = unsafe { call(text.as_ptr(), text.len(), w, work.len, o, out.len, a, answer.len) };
    if text != text_copy {
        return Err("the text was changed".into());
    }
    if work.now().iter().any(|&n| n != 0) {
        return Err(format!("work memory is not zero after number {number}"));
    }
    work.kept_from(work_len, "the memory beside work memory")?;
    let returned = answered(&answer, 2, number)?;
    let bytes = output(&out, &returned, long)?;
    Ok((returned, bytes))
}

pub fn picture(r: &mut Random, text: &[u8], usage: u8, sign: u8) -> Result<Returned, String> {
    let mut answer = lent_answer(r, 7);
    let number = unsafe { copybook_picture(text.as_ptr(), text.len(), usage, sign, answer.pointer(), answer.len) };
    answered(&answer, 7, number)
}

pub fn mask(
    r: &mut Random,
    text: &[u8],
    usage: u8,
    room: usize,
    long: Option<usize>,
) -> Result<(Returned, Vec<u8>), String> {
    let seed = r.next();
    let mut out = Lent::new(room, |i| (seed >> (i % 23)) as u8 ^ i as u8);
    let mut answer = lent_answer(r, 2);
    let (o, a) = (out.pointer(), answer.pointer());
    let number = unsafe { copybook_mask(text.as_ptr(), text.len(), usage, o, out.len, a, answer.len) };
    let returned = answered(&answer, 2, number)?;
    let bytes = output(&out, &returned, long)?;
    Ok((returned, bytes))
}

pub fn owner(r: &mut Random, text: &[u8], position: u64, work_len: usize) -> Result<Returned, String> {
    let seed = r.next() | 1;
    let mut work = Lent::new(work_len, |i| (seed >> (i % 13)) as u32 ^ i as u32);
    let mut answer = lent_answer(r, 4);
    let (w, a) = (work.pointer(), answer.pointer());
    let number = unsafe { copybook_owner(text.as_ptr(), text.len(), position, w, work.len, a, answer.len) };
    if work.now().iter().any(|&n| n != 0) {
        return Err(format!("owner: work memory is not zero after number {number}"));
    }
    work.kept_from(work_len, "the memory beside work memory")?;
    answered(&answer, 4, number)
}

pub fn record_check(record_len: u64, variable: u8, len: u64) -> u32 {
    unsafe { copybook_check_record(record_len, variable, len) }
}
