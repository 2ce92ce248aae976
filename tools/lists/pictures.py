"""Pictures with the Rust's answers, or with P those of the reading; and those with an answer that the Rust cannot give,
written by hand.
"""

import collections
import itertools

import beside_rust
from lists.cases import SEED, escaped, refused
from makers import copybooks, written
from makers.inputs import Input
from readings.picture import (BINARY, COMP, COMP3, DECIMAL, DISPLAY, EDITED, INT, STORED_COMP3, STORED_DISPLAY,
                              STORED_ZONED, TEXT)

NONE, UNSIGNED, EMBEDDED, LEADING, TRAILING = range(5)
ROOM = 300

PICTURES = 2600
SYMBOLS = written.SYMBOLS
FLOATS = [float_ * n + tail for float_ in ("$", "+", "-") for n in (1, 2, 3, 12)
          for tail in ("", "9", ".99", ",$$$", "9.99CR", "+", "-")]
HALVES = [c + a + r + b for c, r in ("CR", "DB", "cr", "Db")
          for a in ("", "(0)", "(1)", "(2)", "(+1)", "( 1 )") for b in ("", "(0)", "(1)", "(2)")]
ZEROS = [s + "(0)" for s in SYMBOLS] + [s + "(0)9" for s in SYMBOLS] + ["X" + s + "(0)" for s in SYMBOLS]
COUNTS = [s + f"({n})" for s in "X9ZSPV$" for n in (0, 1, 4, 5, 9, 10, 17, 18, 19, 30, 31, 32, 33, 38, 254, 255, 256,
                                                    65534, 65535, 65536, 2**32, 2**64 - 1, 2**64, 2**64 + 3,
                                                    10 * 2**64)]


def picture_inputs():
    """Every symbol and pair of symbols; floats; CR and DB split by repeats; zero repeats; counts; stray brackets; white
    space; lower case; every usage and sign; then random ones."""
    m = copybooks.Maker(SEED)
    pairs = [a + b for a, b in itertools.product(SYMBOLS, repeat=2)]
    for text in itertools.chain(written.alone(), pairs, FLOATS, HALVES, ZEROS, COUNTS, written.PICTURES,
                                written.SPACED):
        yield text, m.usage(), m.sign()
    for text in written.EVERY:
        yield from ((text, usage, sign) for usage in range(3) for sign in range(5))
    while True:
        yield m.picture()[1:]


def pictures(oracle):
    """The pictures that no added refusal stops, with the Rust's answers; with P, those of the reading."""
    inputs = {}
    for text, usage, sign in picture_inputs():
        i = Input(text.encode("latin-1"), usage, sign, "")
        inputs.setdefault(i[:3], i)
        if len(inputs) == PICTURES * 6 // 5:
            break
    inputs = list(inputs.values())
    cases = []
    kinds = collections.Counter()
    for i, answer in zip(inputs, oracle.ask(inputs)):
        if not beside_rust.expected(i, answer) and answer[0] in (0, 1) and len(cases) < PICTURES:
            plain = beside_rust.has_answer(i)
            made = answer if plain else beside_rust.reading(i)
            cases.append([i.usage, i.sign, escaped(i.text), *made])
            kinds[("" if plain else "P, ") + (f"kind {made[2]}" if made[0] else f"refused {made[1]}")] += 1
    print(", ".join(f"{k}: {n}" for k, n in sorted(kinds.items())))
    return cases


# ---------------------------------------------------------------- written by hand


def masked(mask):
    return [1, len(mask), *mask.encode()]


def edited(width, precision, scale, signed, mask, room=ROOM):
    """Width, kind and mask of an edited picture; 31 where the mask has no room."""
    written_mask = masked(mask) if len(mask) <= room else refused(31, 0, len(mask))
    return [1, width, EDITED, precision, scale, signed], written_mask


def plain(width, *kind):
    """Width and kind of a picture that has no mask."""
    return [1, width, *kind], masked("")


def both(number, position=0):
    return refused(number, position), refused(number, position)


# Usage, sign, picture, room, and the answers of `parse_pic` and `mask`.
BY_HAND = [
    # 31 digits pass and 32 are refused, P holds no byte
    (DISPLAY, NONE, "9(31)", ROOM, *plain(31, INT, 0, 0)),
    (DISPLAY, NONE, "9(32)", ROOM, *both(27)),
    (COMP, NONE, "9(31)", ROOM, *plain(8, BINARY, 0)),
    (COMP, NONE, "9(32)", ROOM, *both(27)),
    (COMP3, NONE, "9(31)", ROOM, *plain(16, DECIMAL, 31, 0, STORED_COMP3, 1)),
    (COMP3, NONE, "9(32)", ROOM, *both(27)),
    (DISPLAY, NONE, "9(255)", ROOM, *both(27)),
    (DISPLAY, NONE, "9(256)", ROOM, *both(27)),
    (COMP3, NONE, "9(257)", ROOM, *both(27)),
    (DISPLAY, NONE, "99P", ROOM, *plain(2, DECIMAL, 3, 1, STORED_DISPLAY, 0)),
    # P: precision and scale count it, no width does, and the mask keeps it
    (DISPLAY, LEADING, "99P", ROOM, *plain(2, DECIMAL, 3, 1, STORED_DISPLAY, 0)),
    (COMP3, NONE, "99P", ROOM, *plain(2, DECIMAL, 3, 1, STORED_COMP3, 1)),
    (COMP, NONE, "99P", ROOM, *plain(2, BINARY, 0)),
    (DISPLAY, NONE, "P(3)9", ROOM, *plain(1, DECIMAL, 4, 3, STORED_DISPLAY, 0)),
    (DISPLAY, NONE, "VP9", ROOM, *plain(1, DECIMAL, 2, 2, STORED_DISPLAY, 0)),
    (DISPLAY, NONE, "S9P(4)", ROOM, *plain(1, DECIMAL, 5, 4, STORED_ZONED, 1)),
    (DISPLAY, UNSIGNED, "S9P(4)", ROOM, *plain(1, DECIMAL, 5, 4, STORED_DISPLAY, 0)),
    (DISPLAY, EMBEDDED, "S9P(4)", ROOM, *plain(1, DECIMAL, 5, 4, STORED_ZONED, 1)),
    (DISPLAY, LEADING, "S9P(4)", ROOM, *plain(2, DECIMAL, 5, 4, STORED_DISPLAY, 2)),
    (DISPLAY, TRAILING, "S9P(4)", ROOM, *plain(2, DECIMAL, 5, 4, STORED_DISPLAY, 3)),
    (COMP3, NONE, "S9P(4)", ROOM, *plain(1, DECIMAL, 5, 4, STORED_COMP3, 1)),
    (DISPLAY, NONE, "P", ROOM, *plain(0, DECIMAL, 1, 1, STORED_DISPLAY, 0)),
    (COMP3, NONE, "P", ROOM, *plain(1, DECIMAL, 1, 1, STORED_COMP3, 1)),
    (COMP, NONE, "P", ROOM, *plain(2, BINARY, 0)),
    (COMP, NONE, "9(4)P", ROOM, *plain(2, BINARY, 0)),
    (COMP, NONE, "9(5)P", ROOM, *plain(4, BINARY, 0)),
    (COMP, NONE, "9(9)P", ROOM, *plain(4, BINARY, 0)),
    (COMP, NONE, "9(10)P", ROOM, *plain(8, BINARY, 0)),
    (DISPLAY, NONE, "ZZ9P", 4, *edited(3, 4, 1, 0, "ZZ9P")),
    (DISPLAY, NONE, "ZZ9P", 3, *edited(3, 4, 1, 0, "ZZ9P", 3)),
    (DISPLAY, NONE, "zp(2)9.9", ROOM, *edited(4, 5, 3, 0, "ZPP9.9")),
    (COMP, NONE, "ZZ9P", 0, *plain(2, BINARY, 0)),
    (DISPLAY, NONE, "B(253)9P", ROOM, *edited(254, 2, 1, 0, "B" * 253 + "9P")),
    (DISPLAY, NONE, "B(254)9P", ROOM, *both(27)),
    (DISPLAY, NONE, "9(30)P", ROOM, *plain(30, DECIMAL, 31, 1, STORED_DISPLAY, 0)),
    (DISPLAY, NONE, "9(30)PP", ROOM, *both(27)),
    (DISPLAY, NONE, "XP", ROOM, *both(26)),
    # over 31 digits, however they are said
    (DISPLAY, NONE, "S9(31)", ROOM, *plain(31, DECIMAL, 31, 0, STORED_ZONED, 1)),
    (DISPLAY, LEADING, "S9(31)", ROOM, *plain(32, INT, 1, 2)),
    (DISPLAY, NONE, "S9(32)", ROOM, *both(27)),
    (DISPLAY, NONE, "9(31)V9", ROOM, *both(27)),
    (DISPLAY, NONE, "9(30)V9", ROOM, *plain(31, DECIMAL, 31, 1, STORED_DISPLAY, 0)),
    (DISPLAY, NONE, "9(31)P", ROOM, *both(27)),
    (DISPLAY, NONE, "P(31)", ROOM, *plain(0, DECIMAL, 31, 31, STORED_DISPLAY, 0)),
    (DISPLAY, NONE, "P(32)", ROOM, *both(27)),
    (COMP, NONE, "$(32)", ROOM, *plain(8, BINARY, 0)),
    (COMP, NONE, "$(33)", ROOM, *both(27)),
    (DISPLAY, NONE, "+(32)", ROOM, *edited(32, 31, 0, 1, "+" * 32)),
    (DISPLAY, NONE, "-(33)", ROOM, *both(27)),
    (DISPLAY, NONE, "$(17)+(17)", ROOM, *both(27)),
    (DISPLAY, NONE, "$(16)+(16)9", ROOM, *edited(33, 31, 0, 1, "$" * 16 + "+" * 16 + "9")),
    (DISPLAY, NONE, "*(31)", ROOM, *edited(31, 31, 0, 0, "*" * 31)),
    (COMP3, NONE, "*(32)", ROOM, *both(27)),
    (COMP, NONE, "B(256)9", ROOM, *plain(2, BINARY, 0)),
    (DISPLAY, NONE, "X(32)", ROOM, *plain(32, TEXT)),
    (DISPLAY, NONE, "X(256)", ROOM, *plain(256, TEXT)),
    # a mask of 255 and of 256
    (DISPLAY, NONE, "Z(31)", ROOM, *edited(31, 31, 0, 0, "Z" * 31)),
    (DISPLAY, NONE, "Z(32)", ROOM, *both(27)),
    (DISPLAY, NONE, "B(255)", ROOM, *edited(255, 1, 0, 0, "B" * 255)),
    (DISPLAY, NONE, "B(256)", ROOM, *both(27)),
    (DISPLAY, NONE, "9,(254)", ROOM, *edited(255, 1, 0, 0, "9" + "," * 254)),
    (DISPLAY, NONE, "9,(255)", ROOM, *both(27)),
    (DISPLAY, NONE, "0(252)9CR", ROOM, *edited(255, 1, 0, 1, "0" * 252 + "9CR")),
    (DISPLAY, NONE, "0(253)9CR", ROOM, *both(27)),
    (DISPLAY, NONE, "S(65279)V(1)/(255)", ROOM, *edited(255, 1, 0, 1, "/" * 255)),
    (DISPLAY, NONE, "S(65279)V(1)/(256)", ROOM, *both(24)),
    (DISPLAY, NONE, "S(65278)V(1)/(256)", ROOM, *both(27)),
    # 65,535 symbols and one more, during expansion: before a symbol that is none and before a text mixed with digits,
    # after a bad count
    (DISPLAY, NONE, "X(65535)", ROOM, *plain(65535, TEXT)),
    (DISPLAY, NONE, "X(65536)", ROOM, *both(24)),
    (DISPLAY, NONE, "X(65535)X(0)", ROOM, *plain(65535, TEXT)),
    (DISPLAY, NONE, "X(65535)X", ROOM, *both(24)),
    (DISPLAY, NONE, "X(18446744073709551615)", ROOM, *both(24)),
    (DISPLAY, NONE, "XX(18446744073709551615)", ROOM, *both(24)),
    (DISPLAY, NONE, "X(18446744073709551616)", ROOM, *both(23)),
    (DISPLAY, NONE, "Q(65535)", ROOM, *both(25)),
    (DISPLAY, NONE, "Q(65536)", ROOM, *both(24)),
    (DISPLAY, NONE, "QX(65536)", ROOM, *both(24)),
    (DISPLAY, NONE, "9(65536)", ROOM, *both(24)),
    (DISPLAY, NONE, "9X(65534)", ROOM, *both(26)),
    (DISPLAY, NONE, "9X(65535)", ROOM, *both(24)),
    (DISPLAY, NONE, "X(A)X(65536)", ROOM, *both(23)),
    (DISPLAY, NONE, "X(65536)X(A)", ROOM, *both(24)),
    (DISPLAY, NONE, "X(65536)X(", ROOM, *both(24)),
    (DISPLAY, NONE, "X(X(65536", ROOM, *both(22)),
    # a byte over 127, at its position
    (DISPLAY, NONE, "\x80", ROOM, *both(2, 0)),
    (DISPLAY, NONE, "9(3)\xff", ROOM, *both(2, 4)),
    (DISPLAY, NONE, "X( \x80\x81", ROOM, *both(2, 3)),
    (DISPLAY, NONE, "Q\x7f", ROOM, *both(25)),
    # the output: as long as the mask, one byte short, none at all
    (DISPLAY, NONE, "ZZ9.99", 6, *edited(6, 5, 2, 0, "ZZ9.99")),
    (DISPLAY, NONE, "ZZ9.99", 5, *edited(6, 5, 2, 0, "ZZ9.99", 5)),
    (DISPLAY, NONE, "zz9v.99b", 0, *edited(7, 5, 2, 0, "ZZ9.99B", 0)),
    (DISPLAY, NONE, "zz9v.99b", 7, *edited(7, 5, 2, 0, "ZZ9.99B")),
    (DISPLAY, NONE, "$$$9", 4, *edited(4, 3, 0, 0, "$$$9")),
    (DISPLAY, NONE, "B(255)", 254, *edited(255, 1, 0, 0, "B" * 255, 254)),
    (DISPLAY, NONE, "Z(0).(0)", 0, *plain(0, INT, 0, 0)),
    (DISPLAY, NONE, "9(4)", 0, *plain(4, INT, 0, 0)),
    (COMP, NONE, "ZZ9.99", 0, *plain(4, BINARY, 0)),
    (COMP3, NONE, "ZZ9.99", 0, *plain(3, DECIMAL, 5, 2, STORED_COMP3, 1)),
    (DISPLAY, NONE, "Z(32)", 0, *both(27)),
    (DISPLAY, NONE, "ZX", 0, *both(26)),
    (DISPLAY, NONE, "", 0, *plain(0, INT, 0, 0)),
    # widths under every usage and sign
    (COMP, NONE, "9(4)", ROOM, *plain(2, BINARY, 0)),
    (COMP, NONE, "9(5)", ROOM, *plain(4, BINARY, 0)),
    (COMP, NONE, "9(9)", ROOM, *plain(4, BINARY, 0)),
    (COMP, NONE, "9(10)", ROOM, *plain(8, BINARY, 0)),
    (COMP3, NONE, "S", ROOM, *plain(1, DECIMAL, 0, 0, STORED_COMP3, 1)),
    (COMP3, NONE, "9(5)", ROOM, *plain(3, DECIMAL, 5, 0, STORED_COMP3, 1)),
    (DISPLAY, TRAILING, "S9(4)", ROOM, *plain(5, INT, 1, 3)),
    (DISPLAY, LEADING, "9(4)", ROOM, *plain(4, INT, 0, 0)),
]


def by_hand():
    return [[usage, sign, escaped(text.encode("latin-1")), room, *picture, *mask] for usage, sign, text, room, picture,
            mask in BY_HAND]
