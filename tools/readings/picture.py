"""A picture's kind, width and mask: docs/RULES.md 4.

`pictured(..)` is for an item of a copybook; `answer(..)` and `mask_answer(..)` are what the calls for a picture by
itself have to answer.
"""

import re
from typing import NamedTuple

from readings import Refused
from readings.reader import MOST_BYTES, WHITE

MOST_SYMBOLS, MOST_DIGITS, LONGEST_MASK = 65535, 31, 255
DISPLAY, COMP3, COMP, COMP1, COMP2 = range(5)
TEXT, INT, BINARY, DECIMAL, EDITED, GROUP, FLOAT = range(1, 8)
UNSIGNED, EMBEDDED, LEADING, TRAILING = range(4)
STORED_DISPLAY, STORED_COMP3, STORED_ZONED = range(3)


class Pictured(NamedTuple):
    """What an elementary item holds: its kind with the details of that, and its width; of a number the digits, those
    after the point, and whether it has a sign."""
    kind: int
    details: list
    width: int
    digits: tuple = (0, 0, 0)


def runs(picture, at):
    """The symbols, in upper case, each with what `(n)` after it says."""
    i = 0
    while i < len(picture):
        symbol, count = picture[i:i + 1].upper(), 1
        i += 1
        if picture[i:i + 1] == b"(":
            close = picture.find(b")", i)
            if close < 0:
                raise Refused(22, at)
            number = picture[i + 1:close].strip(WHITE)
            if not re.fullmatch(rb"\+?[0-9]+", number) or int(number) >= 2 ** 64:
                raise Refused(23, at)
            count, i = int(number), close + 1
        yield symbol, count


def symbols(picture, at):
    """The symbols, each as often as it stands."""
    out = b""
    for symbol, count in runs(picture, at):
        if len(out) + count > MOST_SYMBOLS:
            raise Refused(24, at)
        out += symbol * count
    return out


def mask(out):
    """The symbols without S and V."""
    return bytes(b for b in out if b not in b"SV")


def pictured(picture, usage, sign, at):
    """What an item with this picture holds."""
    out = symbols(picture, at)
    if re.sub(rb"CR|DB|[XA9ZP*VS.,/B0$+-]", b"", out):
        raise Refused(25, at)
    whole, _, fraction = out.replace(b"V", b".").partition(b".")

    def count(part, of):
        return sum(part.count(b"%c" % s) for s in of)

    # Each of `$`, `+`, `-` adds its count less one, or 0, to the digits before the point; P is a fraction digit.
    before = count(whole, b"9Z*") + sum(max(0, out.count(s) - 1) for s in (b"$", b"+", b"-"))
    after = count(fraction, b"9Z*") + out.count(b"P")
    digits = before + after
    stored = digits - out.count(b"P")
    edited = count(out, b"Z*.,/B0$+-CD") > 0
    signed = count(out, b"S+-CD") > 0
    chars = count(out, b"XA")
    if chars:
        if digits or edited:
            raise Refused(26, at)
        return Pictured(TEXT, [], chars)
    masked = edited and usage == DISPLAY
    if digits > MOST_DIGITS or masked and len(mask(out)) > LONGEST_MASK:
        raise Refused(27, at)
    # P holds no byte: a width counts the digits, or the mask, without it.
    if masked:
        told = max(1, digits), after, signed
        return Pictured(EDITED, [*told], len(mask(out)) - out.count(b"P"), told)
    told = digits, after, signed
    if usage == COMP3:
        return Pictured(DECIMAL, [digits, after, STORED_COMP3, EMBEDDED], stored // 2 + 1, told)
    if usage == COMP:
        return Pictured(BINARY, [signed], 2 if stored <= 4 else 4 if stored <= 9 else 8, told)
    sign = sign if signed else UNSIGNED
    width = stored + (sign in (LEADING, TRAILING))
    zoned = sign == EMBEDDED
    if after or zoned:
        return Pictured(DECIMAL, [digits, after, STORED_ZONED if zoned else STORED_DISPLAY, sign], width, told)
    return Pictured(INT, [signed, sign], width, told)


def answer(picture: bytes, usage: int, sign: int) -> tuple[list[int], bytes]:
    """What the picture call has to answer, as numbers, and the mask: `1 WIDTH KIND DETAILS`, or a refusal. Sign 0 is
    none, and the others are a number above those here."""
    wide = [at for at, byte in enumerate(picture) if byte > 127]
    if len(picture) > MOST_BYTES:
        return [0, 1, 0, 0], b""
    if wide:
        return [0, 2, wide[0], 0], b""
    picture = picture.strip(WHITE)
    try:
        kind, details, width, _ = pictured(picture, usage, sign - 1 if sign else EMBEDDED, 0)
    except Refused as r:
        return r.numbers(), b""
    return [1, width, kind, *map(int, details)], mask(symbols(picture, 0)) if kind == EDITED else b""


def mask_answer(due: list[int], mask: bytes, room: int) -> list[int]:
    """What the mask call has to answer in so much room, where the picture call answers that."""
    if not due[0]:
        return due
    return [1, *mask] if len(mask) <= room else [0, 31, 0, len(mask)]
