//! The calls of include/copybook.h. A Rust slice is what they ask for: its pointer is good for its elements and
//! aligned, and a `&mut` slice overlaps nothing else that is lent.

use crate::declared::*;
use crate::{Extract, Facts, FieldKind, Form, Key, NumRepr, Owner, Picture, Refusal, SignKind, Usage};

/// The number in a question for the sign of a SIGN clause, if there is one.
fn sign_asked(sign: Option<SignKind>) -> u8 {
    sign.map_or(0, |sign| sign.number() + 1)
}

/// The parameters of `copybook_layout` and of every call that answers a copybook in bytes.
type Written = unsafe extern "C" fn(*const u8, usize, *mut u32, usize, *mut u8, usize, *mut u64, usize) -> u32;

/// The number of bytes that a call for a copybook says it has written, or its refusal.
fn counted(form: Form, number: u32, answer: [u64; 2], text: &[u8]) -> Result<usize, Refusal> {
    let [first, second] = answer.map(|n| n as usize);
    match number {
        0 => Ok(first),
        _ => Err(Refusal::of_copybook(form, number, first, second, text)),
    }
}

/// The number of bytes written to `out`, by the call for the form.
fn written(
    form: Form,
    free: Written,
    cards: Written,
    text: &[u8],
    work: &mut [u32],
    out: &mut [u8],
) -> Result<usize, Refusal> {
    let call = if form == Form::Cards { cards } else { free };
    let (mut answer, w, m) = ([0; 2], work.len(), out.len());
    // SAFETY: slices, see above.
    let number = unsafe {
        call(text.as_ptr(), text.len(), work.as_mut_ptr(), w, out.as_mut_ptr(), m, answer.as_mut_ptr(), answer.len())
    };
    counted(form, number, answer, text)
}

/// The number of bytes of the listing.
pub fn layout(form: Form, text: &[u8], work: &mut [u32], out: &mut [u8]) -> Result<usize, Refusal> {
    written(form, copybook_layout, copybook_layout_cards, text, work, out)
}

/// The number of bytes of the details.
pub fn details(form: Form, text: &[u8], work: &mut [u32], out: &mut [u8]) -> Result<usize, Refusal> {
    written(form, copybook_details, copybook_details_cards, text, work, out)
}

/// The number of bytes of the words.
pub fn words(form: Form, text: &[u8], work: &mut [u32], out: &mut [u8]) -> Result<usize, Refusal> {
    written(form, copybook_words, copybook_words_cards, text, work, out)
}

/// The number of bytes of an entry's reasons.
pub fn reasons(form: Form, text: &[u8], entry: usize, work: &mut [u32], out: &mut [u8]) -> Result<usize, Refusal> {
    let call = if form == Form::Cards { copybook_reasons_cards } else { copybook_reasons };
    let (mut answer, entry, w, m) = ([0; 2], entry as u64, work.len(), out.len());
    let (work, out) = (work.as_mut_ptr(), out.as_mut_ptr());
    // SAFETY: slices, see above.
    let number = unsafe { call(text.as_ptr(), text.len(), entry, work, w, out, m, answer.as_mut_ptr(), answer.len()) };
    counted(form, number, answer, text)
}

pub fn owner(form: Form, text: &[u8], position: usize, work: &mut [u32]) -> Result<Owner, Refusal> {
    let call = if form == Form::Cards { copybook_owner_cards } else { copybook_owner };
    let (mut answer, position, w) = ([0; 4], position as u64, work.len());
    // SAFETY: slices, see above.
    let number =
        unsafe { call(text.as_ptr(), text.len(), position, work.as_mut_ptr(), w, answer.as_mut_ptr(), answer.len()) };
    let [case, entry, first, place] = answer.map(|n| n as usize);
    match (number, case) {
        (0, 0) => Ok(Owner::Piece { entry, first, place }),
        (0, _) => Ok(Owner::Slack { entry }),
        _ => Err(Refusal::of_copybook(form, number, case, entry, text)),
    }
}

pub fn extract(text: &[u8], weights: &[u32], limit: u64, budget: u64, work: &mut [u32]) -> Result<Extract, Refusal> {
    let (mut answer, w) = ([0; 4], work.len());
    // SAFETY: slices, see above.
    let number = unsafe {
        copybook_extract(
            text.as_ptr(),
            text.len(),
            weights.as_ptr(),
            weights.len(),
            limit,
            budget,
            work.as_mut_ptr(),
            w,
            answer.as_mut_ptr(),
            answer.len(),
        )
    };
    let [subset, weight, examined, off] = answer;
    match number {
        0 => Ok(Extract { subset, weight, examined, off }),
        _ => Err(Refusal::of_copybook(Form::Free, number, subset as usize, weight as usize, text)),
    }
}

/// The key of a set of copybooks, or the number of the refusal.
pub fn key(texts: &[u8], lengths: &[u64], name: &[u8], work: &mut [u32]) -> Result<Key, u32> {
    let (mut answer, w) = ([0; 2], work.len());
    let (work, lent, stated) = (work.as_mut_ptr(), (texts.as_ptr(), texts.len()), (lengths.as_ptr(), lengths.len()));
    // SAFETY: slices, see above.
    let number = unsafe {
        let (answer, k) = (answer.as_mut_ptr(), answer.len());
        copybook_key(lent.0, lent.1, stated.0, stated.1, name.as_ptr(), name.len(), work, w, answer, k)
    };
    match number {
        0 => Ok(Key { offset: answer[0] as usize, width: answer[1] as usize }),
        _ => Err(number),
    }
}

/// The numbers that `copybook_picture` answers after kind and width.
struct Numbers<'t> {
    picture: &'t [u8],
    signed: u64,
    sign: u64,
    precision: u64,
    scale: u64,
    storage: u64,
}

impl<'t> Facts<'t> for Numbers<'t> {
    fn signed(&mut self) -> bool {
        self.signed != 0
    }

    fn sign(&mut self) -> SignKind {
        SignKind::of_number(self.sign).expect("a sign of the library")
    }

    fn precision(&mut self) -> u8 {
        self.precision as u8
    }

    fn scale(&mut self) -> u8 {
        self.scale as u8
    }

    fn repr(&mut self) -> NumRepr {
        NumRepr::of_number(self.storage).expect("a storage of the library")
    }

    fn picture(&mut self) -> &'t str {
        std::str::from_utf8(self.picture).expect("an accepted picture is ASCII")
    }

    fn members(&mut self) -> usize {
        unreachable!("no picture is a group")
    }

    fn bits(&mut self) -> u8 {
        unreachable!("a float has no picture")
    }
}

pub fn picture(picture: &[u8], usage: Usage, sign: Option<SignKind>) -> Result<Picture<'_>, Refusal> {
    let (mut answer, usage, sign) = ([0; 7], usage.number(), sign_asked(sign));
    // SAFETY: slices, see above.
    let number =
        unsafe { copybook_picture(picture.as_ptr(), picture.len(), usage, sign, answer.as_mut_ptr(), answer.len()) };
    let [first, second, signed, sign, precision, scale, storage] = answer;
    if number != 0 {
        return Err(Refusal::of_picture(number, first as usize, second as usize, picture));
    }
    let mut numbers = Numbers { picture, signed, sign, precision, scale, storage };
    Ok(Picture { kind: FieldKind::read(first, &mut numbers), width: second as usize })
}

/// The number of bytes written to `out`.
pub fn mask(picture: &[u8], usage: Usage, out: &mut [u8]) -> Result<usize, Refusal> {
    let (mut answer, usage, m) = ([0; 2], usage.number(), out.len());
    // SAFETY: slices, see above.
    let number = unsafe {
        copybook_mask(picture.as_ptr(), picture.len(), usage, out.as_mut_ptr(), m, answer.as_mut_ptr(), answer.len())
    };
    match number {
        0 => Ok(answer[0] as usize),
        _ => Err(Refusal::of_picture(number, answer[0] as usize, answer[1] as usize, picture)),
    }
}

pub fn check_record_len(record_len: usize, variable: bool, len: usize) -> Result<(), Refusal> {
    // SAFETY: numbers alone.
    match unsafe { copybook_check_record(record_len as u64, u8::from(variable), len as u64) } {
        0 => Ok(()),
        number => Err(Refusal::without_place(number, 0)),
    }
}
