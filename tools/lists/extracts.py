"""Questions for an extract with their answers, by the reading; the first have answers by hand, which are compared."""

from lists.cases import SEED, counted, escaped, same
from makers.extracts import MOST, questions
from readings.extract import MOST_ITEMS, answer

EXTRACTS, SMALL = 400, 400  # questions, and how many bytes the copybook of a generated one has at most

FISH = "01 FISH. 05 TAG PIC X(5). 05 SIRE PIC 9(4) COMP SYNC. 05 WT OCCURS 3 PIC 9(3)V9."


def one_byte(count):
    """So many items of one byte."""
    return "".join(f"05 A{k} PIC X. " for k in range(count))


def fish():
    """Of the worked example, whose items have 5, 2 and 12 bytes."""
    for limit, budget, answer in (
        (14, 8, (1, 6, 12, 8, 0)), (14, 7, (1, 6, 12, 7, 5)), (14, 6, (1, 4, 9, 6, 8)), (14, 4, (1, 3, 8, 4, 9)),
        (14, 9, (1, 6, 12, 8, 0)), (14, MOST, (1, 6, 12, 8, 0)), (13, 8, (1, 4, 9, 8, 0)), (11, 8, (1, 3, 8, 8, 0)),
        (19, 8, (1, 7, 17, 8, 0)), (18, 8, (1, 5, 14, 8, 0)), (MOST, 8, (1, 7, 17, 8, 0)), (0, 8, (1, 0, 0, 8, 0)),
        (1, 8, (1, 0, 0, 8, 0)), (14, 1, (1, 0, 0, 1, 17)), (4, 1, (1, 0, 0, 1, 3)), (1, 1, (1, 0, 0, 1, 0)),
        (14, 0, (0, 60, 0, 0)),
    ):
        yield FISH, (5, 3, 9), limit, budget, answer


def limits():
    """The number of items and of weights, the range of a weight, all subsets and one less, and which refusal comes
    first."""
    other, outside = (0, 58, 0, 0), (0, 59, 0, 0)
    for count in (2, 4, 0):
        yield FISH, (1,) * count, 14, 8, other
    for weights, answer in (((0, 3, 9), outside), ((5, 3, 0), outside), ((1, 1, 1), (1, 3, 2, 8, 0)),
                            ((1, 1000, 1), (1, 3, 1001, 8, 0)), ((1000,) * 3, (1, 3, 2000, 8, 0)),
                            ((5, 1001, 9), outside), ((5, 3, 1001), outside), ((2 ** 32 - 1, 3, 9), outside)):
        yield FISH, weights, 14, 8, answer
    yield FISH, (0, 3), 14, 0, other
    yield FISH, (0, 3, 9), 14, 0, outside
    every = 2 ** MOST_ITEMS
    for budget, answer in ((every, (1, every - 1, 16, every, 0)), (every + 1, (1, every - 1, 16, every, 0)),
                           (every - 1, (1, every // 2 - 1, 15, every - 1, 1)), (1, (1, 0, 0, 1, 16))):
        yield one_byte(16), (1,) * 16, 16, budget, answer
    yield one_byte(16), (1,) * 16, 15, every, (1, every // 2 - 1, 15, every, 0)
    yield one_byte(16), (1000,) * 16, 8, every, (1, 255, 8000, every, 0)
    yield one_byte(15), (1,) * 15, 15, MOST, (1, 2 ** 15 - 1, 15, 2 ** 15, 0)
    for weights in ((1,) * 17, (1,) * 16, (0,) * 17):
        yield one_byte(17), weights, 17, 0, other
    yield "01 R. 05 G. 10 A PIC X. " + one_byte(17).replace("05", "10"), (4,), 18, 2, (1, 1, 4, 2, 0)


def overlaid():
    """REDEFINES and DEPENDING ON, at any depth and of a dropped root; what the reader refuses before them."""
    for text in ("05 A PIC X. 05 B REDEFINES A PIC X.", "05 N PIC 9. 05 T OCCURS 2 DEPENDING ON N PIC X.",
                 "05 A PIC X. 05 G. 10 B PIC X. 10 C REDEFINES B PIC X.", one_byte(17) + "05 B REDEFINES A0 PIC X.",
                 "05 N PIC 9. 05 G. 10 T OCCURS 2 DEPENDING ON N PIC X."):
        yield text, (0,), 1, 0, (0, 40, 0, 0)
    for clause in ("REDEFINES Q", "OCCURS 2 DEPENDING ON N", "OCCURS 9"):
        yield f"01 R {clause}. 05 A PIC X(2). 05 B PIC X.", (2, 1), 2, 4, (1, 1, 2, 4, 0)
    yield "05 A PIC X. 05 B REDEFINES A PIC X. 05 C.", (), 0, 0, (0, 21, 36, 0)
    yield "05 A PIC X VALUE 'open", (), 0, 0, (0, 50, 17, 0)


def small():
    """Nothing to choose from, widths of 0, and equals, of which the earliest is chosen."""
    yield "", (), 0, 1, (1, 0, 0, 1, 0)
    yield "", (), 0, 0, (0, 60, 0, 0)
    yield "", (1,), 0, 1, (0, 58, 0, 0)
    yield "05 A PIC X(0). 05 B PIC X OCCURS 0.", (7, 8), 0, 4, (1, 3, 15, 4, 0)
    yield "05 A PIC X. 05 B PIC X.", (1, 1), 1, 4, (1, 1, 1, 4, 0)
    yield "05 A PIC X(2). 05 B PIC X. 05 C PIC X.", (2, 1, 1), 2, 8, (1, 1, 2, 8, 0)
    yield "05 A PIC X. 05 B PIC X. 05 C PIC X(2).", (1, 1, 2), 2, 8, (1, 3, 2, 8, 0)
    yield "05 A OCCURS 2147483647 PIC X.", (5,), 2147483647, 2, (1, 1, 5, 2, 0)
    yield "05 A OCCURS 2147483647 PIC X.", (5,), 2147483646, 2, (1, 0, 0, 2, 0)


WRITTEN = [*fish(), *limits(), *overlaid(), *small()]


# ---------------------------------------------------------------- the list


def extracts():
    """Those of WRITTEN first."""
    cases = {}
    for text, weights, limit, budget, due in WRITTEN:
        question = text.encode("latin-1"), weights, limit, budget
        cases[question] = same(question, due, answer(*question))
    for question in questions(2 * EXTRACTS, SEED):
        if len(question[0]) <= SMALL and question not in cases and len(cases) < EXTRACTS:
            cases[question] = answer(*question)
    rows = [[escaped(text), len(weights), *weights, limit, budget, *made]
            for (text, weights, limit, budget), made in cases.items()]
    return counted(rows, cases.values())
