"""Copybook texts with their kept statements, by the reading, compared with the Rust as far as it shows them."""

import collections
import itertools
import sys

from lists.cases import SEED, distinct, escaped
from makers import copybooks, written
from readings import original, reader

TEXTS, QUOTED_TEXTS, USAGE_TEXTS, FLOAT_TEXTS = 800, 100, 100, 100
# Literals at the limits: 50 before 14 and 10, and after 2; level 88 after 800 statements.
LITERALS = ["1.\n" * 801 + "88 A VALUE '", "1.\n" * 800 + "88 A VALUE '1. '.\n88 B VALUE \"'. \"\n",
            "256. 88 A VALUE 'a. b' 'c", "05 A VALUE 'a. b'\x80"]
NESTED = "".join(f"{k} G{k}. " for k in range(256))
LIMITS = ["1.\n" * 800, "1.\n" * 801, "1.\n" * 800 + "1 A OCCURS.\n", "1.\n" * 800 + "256.\n",
          "88.\n" * 50 + "1.\n" * 800 + "88 A.\n* 1.\n..", NESTED, NESTED + "255 A. 254 B. 0 C."]
NAMES = ["05 A", "05", "05.", "05 . A", "05 A.B PIC X.", "05 PIC X.", "05 OCCURS 3.", "05 *A PIC X.",
         "05\n*A\nB PIC X.", "05 A*> B\nC PIC X.", "05 .A. B.", "05 A..", "05 A.. 05 B.", "05 A .05 B."]


def mixed_inputs(seed, first, counts):
    """These, the limits, what is written by hand, some of what is made in every combination (so many of the counts),
    then random copybooks."""
    m = copybooks.Maker(seed)
    lists = [*first, LIMITS, NAMES, written.FOLDS, written.REPEATED, written.ROOTS, written.ORDER, written.LARGE,
             written.GOOD, written.chains(), written.levels()]
    lists.append(text for text in written.edges() if len(text) < 2000)
    for made, count in ((written.at_every_place(), 150), (written.bare_clauses(), 120), (written.counts(), counts)):
        lists.append(m.r.sample(list(made), count))
    yield from itertools.chain(*lists)
    while True:
        yield m.copybook()[1]


def family_inputs(family, first):
    """These, then random copybooks of a family."""
    yield from first
    make = getattr(copybooks.Maker(SEED), family)
    while True:
        yield make()[1]


def quoted_inputs():
    return family_inputs("quoted", LITERALS + written.QUOTED)


def usage_inputs():
    return family_inputs("usages", written.USAGES)


def float_inputs():
    return family_inputs("floats", written.FLOATS)


def rust_entries(answer):
    """The entries of a copybook that the Rust accepts: depth, name, occurs mark and count, DEPENDING ON name."""
    left = iter(answer[1:])

    def text():
        return bytes(next(left) for _ in range(next(left)))

    def entry(depth):
        name = text()
        next(left), next(left)
        kind = next(left)
        details = [next(left) for _ in range({1: 0, 2: 2, 3: 1, 4: 4, 5: 3, 6: 1}[kind])]
        if kind == 5:
            text()
        yield depth, name, next(left), next(left), text()
        text()
        for _ in range(details[0] if kind == 6 else 0):
            yield from entry(depth + 1)

    next(left), next(left)
    return [e for _ in range(next(left)) for e in entry(0)]


def read_entries(text):
    """The same of the kept statements, with the only root left out if it has children."""
    kept = reader.kept_statements(text)
    root = len(kept) > 1 and all(s.depth for s in kept[1:])

    def row(s):
        occurs = (0, 0) if s.occurs is None else (1, s.occurs)
        return s.depth - root, s.called(), *occurs, s.depending.text if s.depending else b""

    return [row(s) for s in kept[root:]]


def compared(text, reading, answer):
    """Whether the Rust's answer says something of the reading; ends the program where it says something else."""
    number = reading[1] if reading[0] == 0 else 0
    if number in (1, 2, 14) or answer[0] not in (0, 1) or not original.plain_literals(text):
        return False
    refusal = answer[1] if answer[0] == 0 else 0
    if number or 10 <= refusal <= 13:
        same = number == refusal
    elif answer[0] == 1 and not any(s.redefines for s in reader.kept_statements(text)):
        same = rust_entries(answer) == read_entries(text)
    else:
        return False
    if not same:
        sys.exit(f"the Rust reads {text!r} otherwise: {answer}, {reading}")
    return True


def texts(oracle):
    inputs = distinct(mixed_inputs(SEED, [], 60), TEXTS) + distinct(quoted_inputs(), QUOTED_TEXTS)
    inputs += distinct(usage_inputs(), USAGE_TEXTS) + distinct(float_inputs(), FLOAT_TEXTS)
    cases, asked = [], collections.Counter()
    for i, answer in zip(inputs, oracle.ask(inputs)):
        reading = reader.answer(i.text)
        asked["refused" if reading[0] == 0 else "read", compared(i.text, reading, answer)] += 1
        cases.append([escaped(i.text), *reading])
    print(", ".join(f"{what}{', compared with the Rust' if rust else ''}: {n}" for (what, rust),
                    n in sorted(asked.items())))
    return cases
