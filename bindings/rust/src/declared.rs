//! What include/copybook.h declares; tools/differential takes this file too.

/// Declares calls: names that have the same parameters, that for free text first, and the parameters.
macro_rules! calls {
    ($($($name:ident),+: $parameters:tt;)+) => {
        extern "C" {
            $($(pub fn $name $parameters -> u32;)+)+
        }
    };
}

calls! {
    copybook_layout, copybook_layout_cards, copybook_details, copybook_details_cards, copybook_words,
    copybook_words_cards: (
        text: *const u8,
        n: usize,
        work: *mut u32,
        w: usize,
        out: *mut u8,
        m: usize,
        answer: *mut u64,
        k: usize,
    );
    copybook_reasons, copybook_reasons_cards: (
        text: *const u8,
        n: usize,
        number: u64,
        work: *mut u32,
        w: usize,
        out: *mut u8,
        m: usize,
        answer: *mut u64,
        k: usize,
    );
    copybook_owner, copybook_owner_cards: (
        text: *const u8,
        n: usize,
        position: u64,
        work: *mut u32,
        w: usize,
        answer: *mut u64,
        k: usize,
    );
    copybook_extract: (
        text: *const u8,
        n: usize,
        weights: *const u32,
        c: usize,
        limit: u64,
        budget: u64,
        work: *mut u32,
        w: usize,
        answer: *mut u64,
        k: usize,
    );
    copybook_key: (
        texts: *const u8,
        n: usize,
        lengths: *const u64,
        c: usize,
        name: *const u8,
        l: usize,
        work: *mut u32,
        w: usize,
        answer: *mut u64,
        k: usize,
    );
    copybook_picture: (pic: *const u8, n: usize, usage: u8, sign: u8, answer: *mut u64, k: usize);
    copybook_mask: (pic: *const u8, n: usize, usage: u8, out: *mut u8, m: usize, answer: *mut u64, k: usize);
    copybook_check_record: (record_len: u64, variable: u8, len: u64);
}
