"""Sets of copybooks with their key, by the reading; the first ones have answers by hand, which are compared."""

from lists.cases import SEED, counted, escaped, same
from makers.keys import Maker
from readings.key import NO_KEY, NO_SET, answer

KEYS, SMALL = 400, 400  # sets, and how many bytes a generated one has at most

REGISTER = ["01 FISH. 05 REG-NO PIC 9(6). 05 TAG PIC X(5).", "01 TANK. 05 reg-no PIC 999999. 05 ID PIC X(3).",
            "05 Reg-No PIC 9(6) DISPLAY. 05 SIRE PIC 9(6) COMP."]
PLAIN = "05 K PIC X(2). 05 A PIC X."


def whole(name, answer, *texts):
    """A set whose lengths add up."""
    return "".join(texts), tuple(map(len, texts)), name, answer


def sizes():
    """Sets of 0, 1, 2, 16, 17 and 32; of 2 with a copybook of no bytes."""
    for n, answer in ((0, NO_SET), (1, NO_SET), (2, [1, 0, 2]), (3, [1, 0, 2]), (16, [1, 0, 2]), (17, NO_SET),
                      (32, NO_SET)):
        yield whole("K", answer, *[PLAIN] * n)
    yield whole("K", NO_KEY, PLAIN, "")
    yield whole("", NO_KEY, "", "")
    yield whole("K", NO_KEY, *[PLAIN] * 15, "05 K PIC X(3).")


def lengths():
    """Lengths that do not add up, and that do so after 2^64; a copybook that ends where another begins."""
    n, bytes_lent = len(PLAIN), PLAIN * 2
    for stated in ((n, n + 1), (n, n - 1), (n - 1, n), (2 * n, 2 * n), (2 ** 64 - 1, 2 * n + 1), (2 ** 63, 2 ** 63),
                   (2 ** 64 - 1, 1), (0, 0)):
        yield bytes_lent, stated, "K", NO_SET
    yield bytes_lent, (n, n, 0), "K", NO_KEY
    yield bytes_lent, (15, 2 * n - 15), "K", NO_KEY  # the first is `05 K PIC X(2).` and a blank
    yield "", (2 ** 63, 2 ** 63), "K", NO_SET
    yield "\x80", (1, 1), "K", NO_SET


def agreed():
    """Sets with a key: any case of the name, an absent name, pictures written otherwise, what may stand after it."""
    for name in ("REG-NO", "reg-no", "rEG-nO"):
        yield whole(name, [1, 0, 6], *REGISTER)
    yield whole("FILLER", [1, 0, 4], "01 R COMP-1. 05. 05 B.", "05 filler COMP-1.")
    for offset, width, texts in (
        (0, 3, ("05 K PIC ZZ9.", "05 K PIC Z(2)9.", "05 k PIC z(02)9.")), (1, 3, ("05 A PIC X. 05 K PIC $$9.",) * 2),
        (8, 8, ("05 A PIC X. 05 K COMP-2 SYNC.", "05 A PIC X(8). 05 K COMP-2.")),
        (2, 2, ("05 G. 10 K PIC X(2). 05 K PIC X(2).", "05 A PIC X. 05 C PIC X. 05 K PIC A(2).")),
        (1, 2, ("05 A PIC X. 05 B REDEFINES A PIC X. 05 K PIC X(2).", "05 A OCCURS 1 PIC X. 05 K PIC X(2).")),
        (0, 2, (PLAIN, "05 K PIC X(2). 05 T OCCURS 2 DEPENDING ON N PIC X.")),
        (0, 2, (PLAIN, "01 R OCCURS 2 DEPENDING ON N. 05 K PIC X(2).")),
        (0, 2, (PLAIN, "01 K OCCURS 9. 05 K PIC X(2).")),
    ):
        yield whole("K", [1, offset, width], *texts)


def differing():
    """Sets without a key: what no key is in one of two copybooks, in either order, and what they must agree in."""
    for text in ("05 A PIC X(2).", "05 K PIC X(2). 05 k PIC X.", "05 G. 10 K PIC X(2). 05 Z PIC X.",
                 "05 K. 10 A PIC X(2). 05 Z PIC X.", "05 K PIC X(2) OCCURS 1.", "05 K PIC X(2) OCCURS 0.",
                 "05 K PIC X(2). 05 B REDEFINES K PIC X.", "05 A PIC X(2). 05 K REDEFINES A PIC X(2).",
                 "05 T OCCURS 2 DEPENDING ON N PIC X. 05 K PIC X(2).",
                 "05 G. 10 T OCCURS 2 DEPENDING ON N PIC X. 05 K PIC X(2).", "05 A PIC X. 05 K PIC X(2).",
                 "05 K PIC X(3).", "05 K PIC 9(2).", "05 K PIC 9(3) COMP-3."):
        yield whole("K", NO_KEY, PLAIN, text)
        yield whole("K", NO_KEY, text, PLAIN)
    for one, other in (("ZZ9", "Z99"), ("ZZ9", "SZZ9"), ("ZZ9.9", "ZZ9,9"), ("S9(4) COMP", "9(4) COMP"),
                       ("9(3)V9", "99V99"), ("S9(3) SIGN LEADING SEPARATE", "S9(3) SIGN TRAILING SEPARATE"),
                       ("9(4)", "9(3)V9"), ("9(4) COMP-3", "9(5) COMP-3")):
        yield whole("K", NO_KEY, f"05 K PIC {one}.", f"05 K PIC {other}.")


def refused():
    """The first copybook that the reader refuses, wherever it stands, before 57 and after 56."""
    none = "05 A PIC X."
    for answer, *texts in (
        ([0, 21, 12, 0], PLAIN, "05 K PIC X. 05 B."), ([0, 21, 12, 0], "05 K PIC X. 05 B.", PLAIN),
        ([0, 10, 1, 0], none, none, " XX."), ([0, 10, 1, 0], none, " XX.", "05 B."),
        ([0, 50, 17, 0], none, "05 K PIC X VALUE 'open"), ([0, 2, 0, 0], PLAIN, "\x80", "05 B."),
        ([0, 52, 0, 0], PLAIN, "05 K COMP-1 PIC X."), ([0, 28, 0, 0], none, "05 K REDEFINES Q PIC X."),
    ):
        yield whole("K", answer, *texts)
    yield whole("K", NO_SET, "05 B.")
    yield "05 B.05 B.", (5, 6), "K", NO_SET


WRITTEN = [*sizes(), *lengths(), *agreed(), *differing(), *refused()]


# ---------------------------------------------------------------- the list


def keys():
    """Those of WRITTEN first."""
    questions, maker = {}, Maker(SEED)
    for texts, lengths, name, due in WRITTEN:
        question = texts.encode("latin-1"), lengths, name.encode("latin-1")
        questions[question] = same(question, due, answer(*question))
    while len(questions) < KEYS:
        question = maker.lent()
        if len(question[0]) <= SMALL and len(question[2]) <= SMALL and question not in questions:
            questions[question] = answer(*question)
    rows = [[len(lengths), *lengths, escaped(texts), escaped(name), *made]
            for (texts, lengths, name), made in questions.items()]
    return counted(rows, questions.values())
