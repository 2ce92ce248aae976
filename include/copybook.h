/*
 * What the columns of a COBOL copybook are: the C interface of the crate `copybook_c`. C99, or C++.
 *
 * made/ has the library that the proved crate gives, for x86-64-v2 Linux and for aarch64 Linux; link it beside a
 * program, with nothing but the C library (it calls memcpy and memset). tools/install puts both where pkg-config finds
 * them; examples/c shows how they are used. made/wasm64 has it as a WebAssembly module with a memory of 64 bits, which
 * imports nothing and exports its memory and the calls; examples/wasm shows how.
 *
 * Each call returns 0 if it accepts, or the number of its refusal, and writes the rest of its answer to `answer`:
 * always as many numbers as its comment says. Where `answer` has fewer (k), it is not touched, and the returned number
 * still holds. After a refusal, `answer` holds
 *     answer[0]  a position in the text (0 where the refusal has none)
 *     answer[1]  the length that `out` needs, for refusal 31; else 0
 * and 0 in the places after these.
 *
 * A call changes no byte of `out` if it refuses, and none past the bytes that it writes. It keeps nothing between
 * calls, and needs no initialisation; calls on different buffers may run at the same time. It takes no memory but
 * stack: with 800 statements, at the deepest nesting that is accepted, 66 levels, 133 KB were measured, and 198 KB for
 * cards, whose text is copied there. How much is not proved; COPYBOOK_STACK bytes leave room for a thread's start.
 *
 * Buffers. A slice is handed over as a pointer and the number of its elements. What is proved holds if
 *   - the pointer is good for that many elements during the call, and aligned for its type (4 bytes for `work`, 8 for
 *     `lengths` and `answer`);
 *   - `work`, `out` and `answer` overlap neither each other nor the text, and nothing else writes to a buffer while the
 *     call runs.
 * None of this is checked, and the kit's guides say nothing more of pointers that come from C. Every access is proved
 * to be inside its buffer, so one of 0 elements is neither read nor written, and its pointer may be null; any other
 * must not be null.
 *
 * The calls are proved. The inline functions at the end, which read their answers, are not.
 */
#ifndef COPYBOOK_H
#define COPYBOOK_H

#include <stddef.h>
#include <stdint.h>
#include <string.h>

#ifdef __cplusplus
extern "C" {
#endif

/* The version of the library that this header goes with. */
#define COPYBOOK_VERSION "0.1.0"

/* The limits; in brackets stands the refusal of what is past them. `work` must have COPYBOOK_WORK numbers; a
   call keeps nothing there: it asks for so many (3), and leaves zeros. */
/* made by tools/papers --write: limits */
/* The most bytes of a text (1). */
#define COPYBOOK_MOST_BYTES 65535
/* The fewest numbers of 32 bits that work memory has (3). */
#define COPYBOOK_WORK 16384
/* The most statements that are kept (14). */
#define COPYBOOK_MOST_STATEMENTS 800
/* The depth of the deepest list; the record's fields are at 0 (20). */
#define COPYBOOK_DEEPEST 64
/* The most symbols of a picture (24). */
#define COPYBOOK_MOST_SYMBOLS 65535
/* The most digits of a number, P included (27). */
#define COPYBOOK_MOST_DIGITS 31
/* The most bytes of a mask (27). */
#define COPYBOOK_LONGEST_MASK 255
/* The largest count of OCCURS, aligned cursor, size or end (29). */
#define COPYBOOK_LARGEST 2147483647
/* The most top-level items that an extract is chosen from (58). */
#define COPYBOOK_MOST_ITEMS 16
/* The smallest weight of an item (59). */
#define COPYBOOK_LEAST_WEIGHT 1
/* The largest weight of an item (59). */
#define COPYBOOK_MOST_WEIGHT 1000
/* The fewest copybooks of a set (56). */
#define COPYBOOK_FEWEST_IN_SET 2
/* The most copybooks of a set (56). */
#define COPYBOOK_MOST_IN_SET 16
/* end of limits */

/* How many bytes of stack are enough for every call. */
#define COPYBOOK_STACK 229376

/* How many numbers `answer` needs. */
#define COPYBOOK_LAYOUT_ANSWER 2
#define COPYBOOK_DETAILS_ANSWER 2
#define COPYBOOK_PICTURE_ANSWER 7
#define COPYBOOK_MASK_ANSWER 2
#define COPYBOOK_OWNER_ANSWER 4
#define COPYBOOK_REASONS_ANSWER 2
#define COPYBOOK_WORDS_ANSWER 2
#define COPYBOOK_EXTRACT_ANSWER 4
#define COPYBOOK_KEY_ANSWER 2

/* Numbers returned. COPYBOOK_REFUSALS says what each means and what to do, and docs/REFUSALS.md when it is given. */
enum copybook_number {
    COPYBOOK_OK = 0,

    /* made by tools/papers --write: numbers */
    /* the text, and what is lent; a byte over 127 has its position */
    COPYBOOK_TEXT_TOO_LONG = 1,
    COPYBOOK_BYTE_NOT_ASCII = 2,
    COPYBOOK_WORK_TOO_SHORT = 3,

    /* a statement; from here to 30 the position is that of its first word */
    COPYBOOK_LEVEL = 10,
    COPYBOOK_OCCURS_COUNT = 11,
    COPYBOOK_OCCURS_TO = 12,
    COPYBOOK_DEPENDING_NAME = 13,
    COPYBOOK_TOO_MANY = 14,

    /* a list of siblings; the position is that of its first statement */
    COPYBOOK_TOO_DEEP = 20,

    /* an item; the picture calls give 22 to 27 too, with position 0; 29 may also be of a fold, at its base, or of
       the record, at the item that ends too late */
    COPYBOOK_NO_PICTURE = 21,
    COPYBOOK_PICTURE_OPEN = 22,
    COPYBOOK_PICTURE_REPEAT = 23,
    COPYBOOK_PICTURE_TOO_LONG = 24,
    COPYBOOK_PICTURE_SYMBOL = 25,
    COPYBOOK_PICTURE_MIXED = 26,
    COPYBOOK_PICTURE_DIGITS = 27,
    COPYBOOK_REDEFINES_TARGET = 28,
    COPYBOOK_TOO_LARGE = 29,

    /* folding; the position is that of the redefiner */
    COPYBOOK_REDEFINES_BEFORE = 30,

    /* `out`; answer[1] says how long it must be */
    COPYBOOK_OUT_TOO_SHORT = 31,

    /* the owner; 40 is the extract's too */
    COPYBOOK_OVERLAID = 40,
    COPYBOOK_PAST_RECORD = 41,

    /* the record check */
    COPYBOOK_RECORD_TOO_SHORT = 42,

    /* the text, after 3 and before 10; the position is that of the opening mark */
    COPYBOOK_LITERAL_OPEN = 50,

    /* cards, after 3 and before 50; the position is that of the byte in column 7 */
    COPYBOOK_INDICATOR = 51,

    /* an item, in the place of 21 and with its position */
    COPYBOOK_FLOAT_PICTURE = 52,

    /* the reasons of an entry, before 31 */
    COPYBOOK_PAST_LISTING = 53,

    /* a key: 56 before any reading, 57 after it */
    COPYBOOK_NO_SET = 56,
    COPYBOOK_NO_KEY = 57,

    /* the extract, after 40 */
    COPYBOOK_EXTRACT_ITEMS = 58,
    COPYBOOK_EXTRACT_WEIGHT = 59,
    COPYBOOK_EXTRACT_BUDGET = 60,
    /* end of numbers */

    COPYBOOK_NO_SUCH_NUMBER = 255 /* a usage or a sign that is none; nothing is touched */
};

/* The refusals: what was found, and what to do. Expands R(number, found, advice) for each. */
/* made by tools/papers --write: texts */
#define COPYBOOK_REFUSALS(R) \
    R(COPYBOOK_TEXT_TOO_LONG, "the text has more than 65,535 bytes", \
      "split the copybook by record; a copybook with more than one record is one record per call anyway") \
    R(COPYBOOK_BYTE_NOT_ASCII, "a byte over 127", \
      "copybooks are ASCII here: write that character in ASCII, a plain blank or quote for a typographic one") \
    R(COPYBOOK_WORK_TOO_SHORT, "fewer than 16,384 numbers of work memory were lent", \
      "lend 16,384 numbers of 32 bits") \
    R(COPYBOOK_LEVEL, "a statement does not start with a level from 0 to 255", \
      "look for a period that ends a statement too early, or a line that should be a comment") \
    R(COPYBOOK_OCCURS_COUNT, "OCCURS is not followed by a count", \
      "write the count as digits") \
    R(COPYBOOK_OCCURS_TO, "TO is not followed by a count", \
      "write the upper bound as digits") \
    R(COPYBOOK_DEPENDING_NAME, "DEPENDING has no name after it", \
      "name the item that holds the count") \
    R(COPYBOOK_TOO_MANY, "more than 800 statements, level 88 not counted", \
      "split the record's description, or drop what is not needed") \
    R(COPYBOOK_TOO_DEEP, "groups nested deeper than 64", \
      "flatten the groups; levels in fixed columns are sometimes read as ever deeper ones") \
    R(COPYBOOK_NO_PICTURE, "an item without members has no picture", \
      "give it a PICTURE; an item that should have members needs them at a higher level number") \
    R(COPYBOOK_PICTURE_OPEN, "a `(` in a picture without its `)`", \
      "close the bracket") \
    R(COPYBOOK_PICTURE_REPEAT, "no count between `(` and `)`", \
      "write the count as digits") \
    R(COPYBOOK_PICTURE_TOO_LONG, "a picture of more than 65,535 symbols", \
      "use OCCURS") \
    R(COPYBOOK_PICTURE_SYMBOL, "a symbol that no picture has", \
      "the symbols are X A 9 S V P Z * , . / B 0 $ + - CR DB; N, G and E are not taken") \
    R(COPYBOOK_PICTURE_MIXED, "text mixed with digits or editing", \
      "X and A stand alone: describe the parts as items of their own") \
    R(COPYBOOK_PICTURE_DIGITS, "more than 31 digits, or an edited mask of more than 255 bytes", \
      "IBM's longest numbers have 31 digits: look for a typing error") \
    R(COPYBOOK_REDEFINES_TARGET, "REDEFINES names no earlier item of the same list", \
      "the target must stand before it, under the same group") \
    R(COPYBOOK_TOO_LARGE, "a count, an offset, a width, a size or an end above 2,147,483,647", \
      "look at the counts of the groups around it") \
    R(COPYBOOK_REDEFINES_BEFORE, "a redefiner starts before the item that it is folded under", \
      "two siblings share a name: give them names of their own") \
    R(COPYBOOK_OUT_TOO_SHORT, "the lent output is shorter than the answer; the needed length is answered", \
      "lend that many bytes and call again") \
    R(COPYBOOK_OVERLAID, "the byte owner or an extract was asked of a copybook with a REDEFINES or a DEPENDING ON", \
      "items of such a record share bytes, or vary in length; read the layout") \
    R(COPYBOOK_PAST_RECORD, "the position is not below the record length", \
      "the layout's first line has the record length") \
    R(COPYBOOK_RECORD_TOO_SHORT, "a record is shorter than its layout, and not variable", \
      "the record is cut off, or it is of another layout") \
    R(COPYBOOK_LITERAL_OPEN, "a literal after VALUE is not closed on its line", \
      "close it on its line by the mark that opens it; within it that mark is written twice") \
    R(COPYBOOK_INDICATOR, "a card's column 7 holds none of the four indicators", \
      "a blank marks code, * or / a comment, D a debugging line; a continued line (-) must be written as one") \
    R(COPYBOOK_FLOAT_PICTURE, "an item of COMP-1 or COMP-2, its own or its group's, has a picture", \
      "a float has none: drop the picture, or name another usage") \
    R(COPYBOOK_PAST_LISTING, "the entry's number is past the listing", \
      "entries are numbered from 0 in the order of the layout, the record's own line not counted") \
    R(COPYBOOK_NO_SET, "there are not 2 to 16 copybooks, or their stated lengths do not add up to the bytes lent", \
      "a key is for 2 to 16 copybooks: lend all of their bytes, and state the length of each") \
    R(COPYBOOK_NO_KEY, "the copybooks have no common key of that name", \
      "each needs one top-level column of that name, no group, without OCCURS or REDEFINES, all in one place") \
    R(COPYBOOK_EXTRACT_ITEMS, "more than 16 top-level columns, or another number of weights than of columns", \
      "give one weight for each top-level column, in their order; of a longer record take a copybook of fewer") \
    R(COPYBOOK_EXTRACT_WEIGHT, "a weight outside 1 to 1,000", \
      "weights count against each other alone: scale them into that range") \
    R(COPYBOOK_EXTRACT_BUDGET, "a budget of 0 choices", \
      "have one choice of columns tried, at least; 65,536 are all that there can be")
/* end of texts */

/* Kinds: the first byte of each entry of a listing, and answer[0] of a picture. */
enum copybook_kind {
    COPYBOOK_RECORD = 0, /* in a listing, first and once */
    COPYBOOK_TEXT = 1,
    COPYBOOK_INT = 2,
    COPYBOOK_BINARY = 3, /* big-endian */
    COPYBOOK_DECIMAL = 4,
    COPYBOOK_EDITED = 5,
    COPYBOOK_GROUP = 6, /* in a listing */
    COPYBOOK_FLOAT = 7  /* in a listing; COMP-1 and COMP-2, big-endian */
};

/* Usages that a picture is asked with; COMP-1 and COMP-2 have no picture. */
enum copybook_usage { COPYBOOK_DISPLAY = 0, COPYBOOK_COMP_3 = 1, COPYBOOK_COMP = 2 };

/* Signs that a picture is asked with. */
enum copybook_sign {
    COPYBOOK_SIGN_NONE = 0,
    COPYBOOK_SIGN_UNSIGNED = 1,
    COPYBOOK_SIGN_EMBEDDED = 2,
    COPYBOOK_SIGN_LEADING_SEPARATE = 3,
    COPYBOOK_SIGN_TRAILING_SEPARATE = 4
};

/* Signs as answers give them, in a listing and for a picture. */
enum copybook_has_sign {
    COPYBOOK_UNSIGNED = 0,
    COPYBOOK_EMBEDDED = 1,
    COPYBOOK_LEADING_SEPARATE = 2,
    COPYBOOK_TRAILING_SEPARATE = 3
};

/* Storage of a decimal. */
enum copybook_storage { COPYBOOK_STORAGE_DISPLAY = 0, COPYBOOK_STORAGE_COMP_3 = 1, COPYBOOK_STORAGE_ZONED = 2 };

/* ---------------------------------------------------------------- the calls */

/* made by tools/papers --write: sets of refusals */
/*
 * Refusals that several calls have, in the order in which they are looked for:
 *   the reader's refusals  1 to 3; on cards 51; 50; 10 to 14; 20 to 30, with 52 in the place of 21
 *   a picture's refusals   1, 2; 22 to 27
 */
/* end of sets of refusals */

/*
 * The layout listing of the copybook in `text`, written to `out`.
 *
 * `work` must have COPYBOOK_WORK numbers; whatever it holds, all of it is zero after every call, also after a refusal.
 * answer[0] is the number of bytes written, answer[1] is 0. Refusals: the reader's, then 31.
 *
 * The listing: one byte of kind, then a body whose length the kind fixes. Numbers are little-endian, 4 bytes unless
 * said. copybook_next reads it.
 *   COPYBOOK_RECORD   record length; variable (1 byte, 0 or 1); number of top-level entries. 10 bytes in all
 *   every other kind  name start and length; offset; width; occurs mark (1 byte) and occurs count; DEPENDING ON name
 *                     start and length; REDEFINES name start and length (38 bytes with the kind); then, by kind:
 *   COPYBOOK_TEXT     nothing
 *   COPYBOOK_INT      signed, sign (1 byte each)
 *   COPYBOOK_BINARY   signed (1)
 *   COPYBOOK_DECIMAL  precision, scale, storage, sign (1 each)
 *   COPYBOOK_EDITED   precision, scale, signed (1 each), picture start and length
 *   COPYBOOK_GROUP    number of members, which follow in order
 *   COPYBOOK_FLOAT    bits, 32 or 64 (1)
 * Starts point into `text`. Length 0 means absent, and an absent name means FILLER; absent places hold 0. Offsets count
 * from the start of the list that the entry stands in.
 *
 * A listing has at most 2 entries for each statement, of at most 49 bytes each: an `out` of COPYBOOK_LONGEST_LISTING
 * bytes is never too short.
 */
#define COPYBOOK_LONGEST_LISTING (10 + COPYBOOK_MOST_STATEMENTS * 2 * 49)

uint32_t copybook_layout(const uint8_t *text, size_t n, uint32_t *work, size_t w, uint8_t *out, size_t m,
                         uint64_t *answer, size_t k);

/* What a SIGN clause says, in details; COPYBOOK_CLAUSE_TRAILING also where it has neither word. */
enum copybook_sign_clause {
    COPYBOOK_CLAUSE_TRAILING = 1,
    COPYBOOK_CLAUSE_LEADING = 2,
    COPYBOOK_CLAUSE_SEPARATE_TRAILING = 3,
    COPYBOOK_CLAUSE_SEPARATE_LEADING = 4
};

/*
 * What the listing does not say of its record and of its entries, written to `out`: COPYBOOK_DETAILS_HEAD bytes, then
 * COPYBOOK_DETAIL bytes for each entry, in the order of the listing, COPYBOOK_RECORD left out. `work`, the answer and
 * the refusals are those of copybook_layout.
 *
 * Numbers are little-endian. The head has of the root that was dropped, the record's own statement, the position (4
 * bytes), the level (1), and start and length of its name (8), all 0 where none was dropped; and the number of entries
 * (4).
 *
 * An entry has the position of its statement (4 bytes); its level (1); its depth, 0 at the top (1); 1 for a group that
 * the folding of REDEFINES made (1); the number of entries below it (4); its first byte in the record, in the first
 * occurrence of each group around it (8); the slack bytes directly before it (4); start and length of its picture, of
 * its REDEFINES and of its DEPENDING ON, as the statement has them (8 each, 0 where absent); the slack bytes at the end
 * of each of its occurrences, which its width counts (4); of a number, an edited one too, the digits, those after the
 * point, and 1 if the picture has a sign (1 each), 0 of any other; start and length of the word that names the usage
 * that holds: its own last one, or that of the nearest group above that names one, a dropped root included (8, 0 where
 * none does); and what its own SIGN clause says (1): copybook_sign_clause, or 0. A group made by folding has its base's
 * position and level, and 0 for both slacks and for all of its clauses.
 *
 * Every group made by folding has two statements for itself, its base and that one's first redefiner: an `out` of
 * COPYBOOK_LONGEST_DETAILS bytes is never too short.
 */
#define COPYBOOK_DETAILS_HEAD 17
#define COPYBOOK_DETAIL 63
#define COPYBOOK_LONGEST_DETAILS \
    (COPYBOOK_DETAILS_HEAD + (COPYBOOK_MOST_STATEMENTS + COPYBOOK_MOST_STATEMENTS / 2) * COPYBOOK_DETAIL)

uint32_t copybook_details(const uint8_t *text, size_t n, uint32_t *work, size_t w, uint8_t *out, size_t m,
                          uint64_t *answer, size_t k);

/*
 * The same two for a copybook on cards, COBOL's reference format. Columns are bytes. Columns 1 to 6 and those after 72
 * are ignored; column 7 is an indicator: a blank for code, * or / for a comment, D for a debugging line, which is
 * dropped; a carriage return that ends a line is no column, and a line shorter than 7 columns is blank. What is left is
 * read as free text is, and starts and positions point into `cards`. Refusals: the reader's, 51 with them, then 31.
 */
uint32_t copybook_layout_cards(const uint8_t *cards, size_t n, uint32_t *work, size_t w, uint8_t *out, size_t m,
                               uint64_t *answer, size_t k);

uint32_t copybook_details_cards(const uint8_t *cards, size_t n, uint32_t *work, size_t w, uint8_t *out, size_t m,
                                uint64_t *answer, size_t k);

/* Kinds of reasons: the first byte of each. */
enum copybook_reason {
    COPYBOOK_FIRST = 1,  /* first in its list */
    COPYBOOK_AFTER = 2,  /* directly after the sibling named, the latest earlier one without REDEFINES */
    COPYBOOK_ALIGNS = 3, /* so many slack bytes for alignment */
    COPYBOOK_OVER = 4,   /* laid over the redefined item named */
    COPYBOOK_INSIDE = 5  /* inside the group named */
};

/*
 * Why an entry of the listing stands where it does, written to `out`: COPYBOOK_REASON bytes for each reason. Entries
 * are numbered from 0 in the order of the listing, COPYBOOK_RECORD not counted. `work` and the answer are those of
 * copybook_layout. Refusals: the reader's, then 53, 31.
 *
 * Numbers are little-endian: the reason's kind (1 byte); start and length of the named item's name in `text` (4 each, 0
 * where no item is named, or one without a name); the bytes that it adds (4): 0 for COPYBOOK_FIRST and COPYBOOK_INSIDE,
 * the sibling's offset and what it reserves for COPYBOOK_AFTER, the redefined item's offset for COPYBOOK_OVER.
 *
 * The item's placing reason (COPYBOOK_FIRST, COPYBOOK_AFTER or COPYBOOK_OVER) comes first, then COPYBOOK_ALIGNS if it
 * has slack, then for each group outward COPYBOOK_INSIDE and the group's own reasons. A root that is dropped gives
 * none; items are named as the copybook has them, and a group made by folding has its base's reasons. The bytes added
 * up are the entry's first byte in the record; their sum may pass 32 bits, though none of them does.
 *
 * An item stands in at most COPYBOOK_DEEPEST groups: an `out` of COPYBOOK_LONGEST_REASONS bytes is never too short.
 */
#define COPYBOOK_REASON 13
#define COPYBOOK_LONGEST_REASONS ((2 + COPYBOOK_DEEPEST * 2) * COPYBOOK_REASON)

uint32_t copybook_reasons(const uint8_t *text, size_t n, uint64_t entry, uint32_t *work, size_t w, uint8_t *out,
                          size_t m, uint64_t *answer, size_t k);

/* The same for a copybook on cards. */
uint32_t copybook_reasons_cards(const uint8_t *cards, size_t n, uint64_t entry, uint32_t *work, size_t w, uint8_t *out,
                                size_t m, uint64_t *answer, size_t k);

/*
 * The words of a copybook as the reader has them, statement by statement, written to `out`: also where what they say is
 * refused by other calls. `work` and the answer are those of copybook_layout. Refusals: 1 to 3; on cards 51; 50; 31.
 *
 * Of each statement that has words, in the text's order, level 88 and those that cannot be read among them; numbers are
 * little-endian, 4 bytes: how many words it has; the position of the period that ends it, or `n` where none does; then
 * start and length of each word in `text`. Words stand in order, none over another, and none holds white space: in a
 * literal that does, each part is a word.
 *
 * A word and a period have 8 bytes each here and at least one in the text, and a last statement may lack its period: an
 * `out` of COPYBOOK_LONGEST_WORDS(n) bytes is never too short.
 */
#define COPYBOOK_LONGEST_WORDS(n) (((n) + 1) * 8)

uint32_t copybook_words(const uint8_t *text, size_t n, uint32_t *work, size_t w, uint8_t *out, size_t m,
                        uint64_t *answer, size_t k);

/* The same for a copybook on cards, of what is read of them. */
uint32_t copybook_words_cards(const uint8_t *cards, size_t n, uint32_t *work, size_t w, uint8_t *out, size_t m,
                              uint64_t *answer, size_t k);

/*
 * One key for a family of records: the column of the `l` bytes of `name` in a set of `c` copybooks in free text, which
 * stand one after the other in the `n` bytes of `texts`; `lengths` says how many bytes each has. A set has
 * COPYBOOK_FEWEST_IN_SET to COPYBOOK_MOST_IN_SET copybooks. To `answer`, 2 numbers: the key's offset and its width, in
 * the records of all of them.
 *
 * Each copybook has exactly one entry of that name at the top of its listing, letter case aside (an absent name means
 * FILLER). It is no group and has neither OCCURS nor REDEFINES, and no entry before it in the listing, at any depth,
 * has a DEPENDING ON. All agree in offset, width, kind and what the listing says of the kind, but for the place of an
 * edited item's picture: its mask is compared. The name is only compared, and may be any bytes.
 *
 * `work` as for copybook_layout. Refusals: 56; then the reader's of the first copybook that has one, the position
 * counted in that copybook; then 57.
 */
uint32_t copybook_key(const uint8_t *texts, size_t n, const uint64_t *lengths, size_t c, const uint8_t *name, size_t l,
                      uint32_t *work, size_t w, uint64_t *answer, size_t k);

/*
 * Kind, its details and width of one picture, with a usage and a sign. To `answer`, 7 numbers:
 *     kind, width, signed, sign (copybook_has_sign), precision, scale, storage
 * each 0 where the kind has none: text has none of the five; int has signed and sign; binary signed; decimal sign,
 * precision, scale and storage; edited signed, precision and scale. Refusals: 255, else a picture's.
 */
uint32_t copybook_picture(const uint8_t *pic, size_t n, uint8_t usage, uint8_t sign, uint64_t *answer, size_t k);

/*
 * The upper-case mask of a picture that is edited under DISPLAY, written to `out`; of any other, 0 bytes. answer[0] is
 * the number of bytes written, answer[1] is 0. A mask has at most COPYBOOK_LONGEST_MASK bytes. It keeps P, which holds
 * no byte of the item: without P it is as long as the item is wide. Refusals: 255, else a picture's, then 31.
 */
uint32_t copybook_mask(const uint8_t *pic, size_t n, uint8_t usage, uint8_t *out, size_t m, uint64_t *answer,
                       size_t k);

/* answer[0] of copybook_owner. */
enum copybook_owned { COPYBOOK_PIECE = 0, COPYBOOK_SLACK = 1 };

/*
 * Which entry of the listing has the byte at `position` of the record. To `answer`, 4 numbers:
 *     COPYBOOK_PIECE, the entry's number, the first byte of that piece (one occurrence of the item), the place of the
 *     byte inside it; or
 *     COPYBOOK_SLACK, the number of the item that the slack precedes, or of the group at whose end it stands, 0, 0
 * Entries are numbered from 0 in the order of the listing, COPYBOOK_RECORD not counted. `work` as for copybook_layout.
 * Refusals: the reader's, then 40, 41.
 */
uint32_t copybook_owner(const uint8_t *text, size_t n, uint64_t position, uint32_t *work, size_t w, uint64_t *answer,
                        size_t k);

/* The same for a copybook on cards. */
uint32_t copybook_owner_cards(const uint8_t *cards, size_t n, uint64_t position, uint32_t *work, size_t w,
                              uint64_t *answer, size_t k);

/*
 * An extract that fits: of the top-level items of the copybook in free text, the heaviest choice whose reserved widths
 * (width times OCCURS count) sum to at most `limit` bytes. `weights` has a weight for each of them, from
 * COPYBOOK_LEAST_WEIGHT to COPYBOOK_MOST_WEIGHT, in the order of the listing; c is their number, at most
 * COPYBOOK_MOST_ITEMS. Subsets of the items are numbered in binary, the first item being the lowest bit, and looked at
 * from number 0 up, `budget` of them or all. To `answer`, 4 numbers:
 *     the number of the heaviest fitting subset among them, the earliest if equal; its weight; how many were looked at;
 *     how far off it is at most: 0 if all were, else what all items that fit alone weigh more
 * No choice there is outweighs the one found by more than that. `work` as for copybook_layout; `weights` is only read,
 * and is aligned to 4 bytes. Refusals: the reader's, then 40, 58, 59, 60.
 */
uint32_t copybook_extract(const uint8_t *text, size_t n, const uint32_t *weights, size_t c, uint64_t limit,
                          uint64_t budget, uint32_t *work, size_t w, uint64_t *answer, size_t k);

/*
 * Whether a record of `len` bytes is long enough for a layout of `record_len` bytes: COPYBOOK_OK, or
 * COPYBOOK_RECORD_TOO_SHORT where it is shorter and `variable` is 0. Any other `variable` means a record of variable
 * length, of which `record_len` is only the least.
 */
uint32_t copybook_check_record(uint64_t record_len, uint8_t variable, uint64_t len);

/* ---------------------------------------------------------------- reading answers */

/* A part of the text; length 0 means absent. */
struct copybook_span {
    uint32_t start, length;
};

/* An entry of a listing. What its kind does not have is 0. */
struct copybook_entry {
    uint32_t number;                   /* in the listing, from 0: the one that copybook_owner names */
    enum copybook_kind kind;
    struct copybook_span name;         /* absent means FILLER */
    uint32_t offset;                   /* from the start of the list that it stands in */
    uint32_t width;                    /* of one occurrence */
    int has_occurs;                    /* 1 if it has OCCURS */
    uint32_t occurs;                   /* the count; of a table DEPENDING ON an item its largest */
    struct copybook_span depending_on; /* the name after DEPENDING ON */
    struct copybook_span redefines;    /* the name after REDEFINES, if it is folded under no base */
    int is_signed;
    enum copybook_has_sign sign;
    unsigned precision, scale;
    enum copybook_storage storage;
    struct copybook_span picture;      /* of an edited item; with details of every item that has one */
    uint32_t members;                  /* of a group; they follow */
    unsigned bits;                     /* of a float: 32 or 64 */

    /* from the details; 0 without them */
    uint32_t position;                 /* of the statement's first word */
    unsigned level, depth;
    int folded;                        /* 1 for a group that the folding of REDEFINES made */
    uint32_t below;                    /* how many entries follow that are below it, at any depth */
    uint64_t first;                    /* its first byte in the record */
    uint32_t slack;                    /* the slack bytes directly before it */
    struct copybook_span overlays;     /* the name after REDEFINES, folded or not */
    uint32_t slack_at_end;             /* the slack bytes at the end of each of its occurrences */
    unsigned digits, after_point;      /* of a number, and */
    int has_sign;                      /* 1 if its picture has a sign */
    struct copybook_span usage;        /* the word that names the usage that holds for it */
    unsigned sign_clause;              /* copybook_sign_clause, or 0 without one */
};

/* A listing and its details that are being read: the record, and what is left of the bytes. */
struct copybook_reader {
    uint32_t record_length; /* the least one if the record is variable */
    int variable;           /* 1 if a table DEPENDING ON an item makes its length vary */
    uint32_t top;           /* number of entries at the top */
    uint32_t number;        /* of the next entry */

    /* from the details: the record's own statement; 0 without them, or where the copybook has none */
    uint32_t position;
    unsigned level;
    struct copybook_span name; /* absent means FILLER */

    const uint8_t *listing, *listing_end;
    const uint8_t *details, *details_end;
};

static inline uint32_t copybook_four(const uint8_t *p)
{
    return p[0] | (uint32_t)p[1] << 8 | (uint32_t)p[2] << 16 | (uint32_t)p[3] << 24;
}

static inline struct copybook_span copybook_span_at(const uint8_t *p)
{
    struct copybook_span span;
    span.start = copybook_four(p);
    span.length = copybook_four(p + 4);
    return span;
}

/* How many bytes of a listing follow the 38 that every entry has. */
static inline size_t copybook_after(uint8_t kind)
{
    switch (kind) {
    case COPYBOOK_INT:
        return 2;
    case COPYBOOK_BINARY:
    case COPYBOOK_FLOAT:
        return 1;
    case COPYBOOK_DECIMAL:
    case COPYBOOK_GROUP:
        return 4;
    case COPYBOOK_EDITED:
        return 11;
    default:
        return 0;
    }
}

/* What follows the 38 bytes, by kind. */
static inline void copybook_read_kind(const uint8_t *p, struct copybook_entry *entry)
{
    switch (entry->kind) {
    case COPYBOOK_INT:
        entry->is_signed = p[0];
        entry->sign = (enum copybook_has_sign)p[1];
        break;
    case COPYBOOK_BINARY:
        entry->is_signed = p[0];
        break;
    case COPYBOOK_DECIMAL:
        entry->precision = p[0];
        entry->scale = p[1];
        entry->storage = (enum copybook_storage)p[2];
        entry->sign = (enum copybook_has_sign)p[3];
        break;
    case COPYBOOK_EDITED:
        entry->precision = p[0];
        entry->scale = p[1];
        entry->is_signed = p[2];
        entry->picture = copybook_span_at(p + 3);
        break;
    case COPYBOOK_GROUP:
        entry->members = copybook_four(p);
        break;
    case COPYBOOK_FLOAT:
        entry->bits = p[0];
        break;
    default:
        break;
    }
}

static inline void copybook_read_details(const uint8_t *p, struct copybook_entry *entry)
{
    entry->position = copybook_four(p);
    entry->level = p[4];
    entry->depth = p[5];
    entry->folded = p[6];
    entry->below = copybook_four(p + 7);
    entry->first = copybook_four(p + 11) | (uint64_t)copybook_four(p + 15) << 32;
    entry->slack = copybook_four(p + 19);
    entry->picture = copybook_span_at(p + 23);
    entry->overlays = copybook_span_at(p + 31);
    entry->slack_at_end = copybook_four(p + 47);
    entry->digits = p[51];
    entry->after_point = p[52];
    entry->has_sign = p[53];
    entry->usage = copybook_span_at(p + 54);
    entry->sign_clause = p[62];
}

/*
 * Starts to read a listing of n bytes, as copybook_layout wrote it, with m bytes of details, as copybook_details wrote
 * them for the same text; without details (null and 0) the entries have none.
 */
static inline struct copybook_reader copybook_read(const uint8_t *listing, size_t n, const uint8_t *details, size_t m)
{
    struct copybook_reader reader;
    memset(&reader, 0, sizeof reader);
    reader.record_length = copybook_four(listing + 1);
    reader.variable = listing[5];
    reader.top = copybook_four(listing + 6);
    reader.listing = listing + 10;
    reader.listing_end = listing + n;
    if (m > 0) {
        reader.position = copybook_four(details);
        reader.level = details[4];
        reader.name = copybook_span_at(details + 5);
        reader.details = details + COPYBOOK_DETAILS_HEAD;
        reader.details_end = details + m;
    }
    return reader;
}

/* Reads the next entry, a group before its members: 1, or 0 where there is none left. */
static inline int copybook_next(struct copybook_reader *reader, struct copybook_entry *entry)
{
    const uint8_t *p = reader->listing;
    if (p == reader->listing_end)
        return 0;
    memset(entry, 0, sizeof *entry);
    entry->number = reader->number++;
    entry->kind = (enum copybook_kind)p[0];
    entry->name = copybook_span_at(p + 1);
    entry->offset = copybook_four(p + 9);
    entry->width = copybook_four(p + 13);
    entry->has_occurs = p[17];
    entry->occurs = copybook_four(p + 18);
    entry->depending_on = copybook_span_at(p + 22);
    entry->redefines = copybook_span_at(p + 30);
    copybook_read_kind(p + 38, entry);
    reader->listing = p + 38 + copybook_after(p[0]);
    if (reader->details != reader->details_end) {
        copybook_read_details(reader->details, entry);
        reader->details += COPYBOOK_DETAIL;
    }
    return 1;
}

/* What was found, of the number of a refusal; an empty text for a number that is none. */
static inline const char *copybook_found(uint32_t number)
{
#define COPYBOOK_CASE(name, found, advice) \
    case name:                             \
        return found;
    switch (number) {
        COPYBOOK_REFUSALS(COPYBOOK_CASE)
    default:
        return "";
    }
#undef COPYBOOK_CASE
}

/* What to do about it. */
static inline const char *copybook_advice(uint32_t number)
{
#define COPYBOOK_CASE(name, found, advice) \
    case name:                             \
        return advice;
    switch (number) {
        COPYBOOK_REFUSALS(COPYBOOK_CASE)
    default:
        return "";
    }
#undef COPYBOOK_CASE
}

/* Line and column of a position in a text of n bytes, from 1. Lines end at byte 10; columns are bytes. */
static inline void copybook_line_column(const uint8_t *text, size_t n, uint64_t position, size_t *line, size_t *column)
{
    size_t i;
    *line = 1;
    *column = 1;
    for (i = 0; i < n && i < position; i++) {
        if (text[i] == 10) {
            ++*line;
            *column = 1;
        } else {
            ++*column;
        }
    }
}

#ifdef __cplusplus
}
#endif

#endif
