"""Texts at the limits: the longest and one byte more, and work memory that is short, with the same readings."""

from lists.cases import escaped, refused
from lists.pictures import both, plain
from readings import details, extract, layout, owner, reader, reasons
from readings.picture import DISPLAY, TEXT

NONE, ROOM = 0, 300
WORK, MOST = 16384, 65535  # the work memory that a call needs, and the most bytes of a text
MORE_WORK = 17000
TAIL = "5 A PIC X(7)"


def ended(length, tail, byte=" "):
    """A text of this length, all of one byte before its end: how many these are, and the end."""
    return length - len(tail), tail, (byte * (length - len(tail)) + tail).encode("latin-1")


def lent(work, made):
    """The answer with so much work memory: 3 where it is short, after 1 and 2."""
    return refused(3) if work < WORK and made[:2] not in ([0, 1], [0, 2]) else made


def limit_texts():
    """Work memory, and a text: the longest and one byte more, a byte over 127 at its end, nothing."""
    for text in (ended(MOST, TAIL), ended(MOST + 1, TAIL + " "), ended(MOST, "\x80"), ended(0, "")):
        yield from ((work, *text) for work in (WORK, WORK - 1))
    yield MORE_WORK, *ended(0, "")


def limits(read, before=(), after=()):
    """Cases with these numbers before and after the text."""
    return [[work, blanks, *before, escaped(tail.encode("latin-1")), *after, *lent(work, read(text))]
            for work, blanks, tail, text in limit_texts()]


def picture_limits():
    """65,535 bytes and one more, right and wrong; a picture needs no work memory."""
    cases = ((ended(MOST, "", "X"), plain(MOST, TEXT)), (ended(MOST + 1, "", "X"), both(1)),
             (ended(MOST, "\x80", "X"), both(2, MOST - 1)), (ended(MOST + 1, "\x80X", "X"), both(1)),
             (ended(MOST, "(", "X"), both(22)), (ended(MOST + 1, "Q", "X"), both(1)))
    return [[0, count, DISPLAY, NONE, escaped(tail.encode("latin-1")), ROOM, *picture, *mask]
            for (count, tail, _), (picture, mask) in cases]


def owner_limits():
    texts = ((WORK - 1, "5 A PIC X."), (WORK - 1, "5\x80"), (MORE_WORK, "5 A PIC X."))
    return [[work, 0, escaped(text.encode("latin-1")), 0, *lent(work, owner.answer(text.encode("latin-1"), 0))]
            for work, text in texts]


def key_limits():
    """The first copybook of blanks, its length at the limit and one more; 56 before 3, 3 before 57, 2 before 3."""
    key, n = "5 A PIC X.", 10
    cases = ((WORK, MOST, (MOST, n), key, [0, 57, 0, 0]), (WORK, MOST + 1, (MOST + 1, n), key, [0, 1, 0, 0]),
             (WORK - 1, MOST + 1, (MOST + 1, n), key, [0, 1, 0, 0]), (WORK - 1, 0, (n, n), key * 2, [0, 3, 0, 0]),
             (WORK - 1, 0, (n, n + 1), key * 2, [0, 56, 0, 0]), (WORK - 1, 0, (2, n), "5\x80" + key, [0, 2, 1, 0]),
             (WORK - 1, 0, (n, 2), key + "5\x80", [0, 3, 0, 0]), (MORE_WORK, 0, (n, n), key * 2, [1, 0, 1]))
    return [[work, blanks, len(lengths), *lengths, escaped(texts.encode("latin-1")), "A", *answer]
            for work, blanks, lengths, texts, answer in cases]


def limit_lists():
    """Each folder with its limits."""
    yield "picture", picture_limits()
    yield "reader", limits(reader.answer)[:8]
    yield "layout", limits(layout.answer)
    yield "owner", owner_limits()
    yield "details", limits(details.answer, before=[0])
    yield "reasons", limits(lambda text: reasons.answer(text, 0), before=[0, 0])
    yield "extract", limits(lambda text: extract.answer(text, (1,), 7, 2), after=[1, 1, 7, 2])
    yield "key", key_limits()
