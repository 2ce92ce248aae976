"""Copybooks with their listing or refusal: those that the Rust answers too, those on cards, and some by hand."""

import collections
import itertools
import re
import struct
import sys

import beside_rust
from lists.cases import SEED, distinct, escaped, refused, same
from lists.texts import float_inputs, mixed_inputs, usage_inputs
from makers import aligned, copybooks, written
from readings import layout
from readings.picture import (BINARY, DECIMAL, EDITED, FLOAT, GROUP, INT, STORED_COMP3, STORED_DISPLAY, TEXT)
from readings.reader import Cards

LAYOUTS, USAGE_LAYOUTS, FLOAT_LAYOUTS, ALIGNED_LAYOUTS, LAYOUT_LISTS = 2400, 200, 200, 200, 4


# Groups in groups, each with a redefiner: around an item of a list of depth 64 stand 64 groups and 65 folds. Names that
# are all one make the groups count as already folded.
def folded_chain(n, name):
    groups = " ".join(f"{k} {name(k)}." for k in range(1, n))
    redefiners = " ".join(f"{k} H REDEFINES {'A' if k == n else name(k)} PIC X(2)." for k in range(n, 1, -1))
    return f"{groups} {n} A PIC X. {redefiners}"


FOLDED_CHAINS = [folded_chain(n, name) for n in (4, 66, 67) for name in ("G{}".format, "G".format)]
MANY = ["1 A PIC X.\n" * 800, "1 A PIC X.\n" * 801, "1 A PIC Z9. " + "1 B REDEFINES A PIC $9. " * 799,
        "1 R. " + "2 G. 3 G PIC X. " * 399 + "2 Z PIC 9(9) COMP SYNC."]
MANY.append(MANY[3] + " 2 Y PIC X.")


def check_layout(i, made, answer):
    """How the Rust's answer stands to the one made here; ends the program where it says something else."""
    number = made[1] if made[0] == 0 else 0
    if not beside_rust.has_answer(i):
        how, same = "literals, P, usages or alignment, without an answer of the Rust", True
    elif number in beside_rust.ADDED:
        how, same = f"added refusal {number}", beside_rust.due(i, answer, number)
    elif number:
        how, same = f"refused {number}", answer == [0, number]
    else:
        same = answer == beside_rust.reading(i) and beside_rust.due(i, answer, 0)
        how = "accepted"
    if not same:
        sys.exit(f"the Rust lays {i.text!r} out otherwise: {answer}, {made}")
    return how


def aligned_inputs():
    maker = aligned.Maker(SEED)
    return itertools.chain(written.ALIGNED, (maker.copybook() for _ in itertools.count()))


def layouts(oracle):
    inputs = distinct(mixed_inputs(SEED + 1, [FOLDED_CHAINS, MANY], 100), LAYOUTS)
    inputs += distinct(usage_inputs(), USAGE_LAYOUTS) + distinct(float_inputs(), FLOAT_LAYOUTS)
    inputs += distinct(aligned_inputs(), ALIGNED_LAYOUTS)
    cases, kinds = [], collections.Counter()
    for i, answer in zip(inputs, oracle.ask(inputs)):
        made = layout.answer(i.text)
        kinds[check_layout(i, made, answer)] += 1
        cases.append([escaped(i.text), *made])
    print(", ".join(f"{k}: {n}" for k, n in sorted(kinds.items())))
    return cases


def parts(cases, count):
    """The cases in order, in so many lists of about the same length."""
    lengths = [len(" ".join(map(str, case))) for case in cases]
    out, seen = [[] for _ in range(count)], 0
    for case, length in zip(cases, lengths):
        out[seen * count // sum(lengths)].append(case)
        seen += length
    return out


# ---------------------------------------------------------------- cards

CARD_TEXTS = 500


def cards():
    """Card texts, those of CARDS first."""
    maker, texts = copybooks.Maker(SEED), dict.fromkeys(written.CARDS)
    while len(texts) < CARD_TEXTS:
        text = maker.cards()[1]
        if len(text) < 400:
            texts.setdefault(text)
    texts = [Cards(text.encode("latin-1")) for text in texts]
    return [[escaped(text), *layout.answer(text)] for text in texts]


# ---------------------------------------------------------------- written by hand

def item(name, offset, width, kind, *details, occurs=None, depending=None, redefines=None):
    """An entry. A name, a picture or a number of members is as it stands; a name `A#2` is the second word A of the
    text."""
    return name, offset, width, kind, details, occurs, depending, redefines


def place(text, name):
    """Start and length of a word of the text; 0 and 0 if there is none."""
    if name is None:
        return 0, 0
    word, _, n = name.partition("#")
    starts = [m.start() for m in re.finditer(rf"(?<!\S){re.escape(word)}(?=\.?(\s|$))", text)]
    return starts[int(n or 1) - 1], len(word)


def listed(text, length, variable, top, *entries):
    """The listing, after its length."""
    made = struct.pack("<BIBI", 0, length, variable, top)
    for name, offset, width, kind, details, occurs, depending, redefines in entries:
        made += struct.pack("<B4I", kind, *place(text, name), offset, width)
        made += struct.pack("<BI", 0, 0) if occurs is None else struct.pack("<BI", 1, occurs)
        made += struct.pack("<4I", *place(text, depending), *place(text, redefines))
        for d in details:
            if isinstance(d, str):
                made += struct.pack("<2I", *place(text, d))
            else:
                made += struct.pack("<I" if kind == GROUP else "<B", d)
    return [1, len(made), *made]


def chain(n):
    """Groups in groups around one item: the outermost is dropped, so the item's list has depth n - 2."""
    return " ".join(f"{k} G{k}." for k in range(1, n)) + f" {n} A PIC X."


def one(text, *entry):
    """A text with one item A and no root."""
    return text, listed(text, entry[1], 0, 1, item("A", *entry))


# What follows the first of two items.
QUOTED = [" VALUE 'St. 4'.", ". 88 X VALUE 'a' 'b. c'.", " VALUE \"it's. \".", " VALUE X'00. 1'.",
          " VALUE 'it''s. so'.", " VALUE '*> no note'."]
OPEN = ["05 A PIC X VALUE 'open", "05 A PIC X VALUE 'open *> x", "XX. 05 A PIC X VALUE 'open.\n'. 05 B."]


def two(text):
    """A text with the items A and B of one byte each."""
    return text, listed(text, 2, 0, 2, item("A", 0, 1, TEXT), item("B", 1, 1, TEXT))


def by_hand():
    fish = "01 FISH. 05 TAG PIC X(5). 05 SIRE PIC 9(4) COMP SYNC. 05 WT OCCURS 3 PIC 9(3)V9."
    wide = "05 A PIC X(2). 05 B REDEFINES A PIC X(5). 05 C PIC X."
    before = "05 A PIC X. 05 B PIC X. 05 B REDEFINES A PIC X. 05 C REDEFINES B PIC X."
    table = "05 N PIC 9(2). 05 T OCCURS 1 TO 5 DEPENDING ON N PIC X(3). 05 Z PIC X."
    group = "05 A PIC X. 05 G. 10 B PIC X. 10 C PIC 9(4) COMP SYNC."
    sync = "05 A PIC X. 05 G SYNC. 10 B PIC 9(4) COMP."
    padded, once, never = (f"01 R. 05 G OCCURS {n}. 10 A PIC 9 COMP SYNC. 10 B PIC X." for n in (2, 1, 0))
    never += " 05 Z PIC X."
    plain = "01 R. 05 G. 10 A PIC 9 COMP SYNC. 10 B PIC X."
    varying = "05 N PIC 9. 05 G OCCURS 2 DEPENDING ON N. 10 A PIC 9 COMP SYNC. 10 B PIC X."
    moved = "01 R. 05 A PIC X. 05 G OCCURS 2. 10 B PIC 9(10) COMP SYNC."
    inner = "01 R. 05 A PIC X. 05 G OCCURS 2. 10 H OCCURS 1. 15 B COMP-1 SYNC. 15 C PIC X. 10 D PIC X."
    largest = "01 R. 05 G OCCURS {}. 10 A COMP-2 SYNC. 10 B PIC X OCCURS 214748363{}."
    dots = "05 A PIC 9.9. 05 B.C PIC X."
    named = "05 VALUE PIC X. 05 B REDEFINES VALUE PIC X 'St. 4'. 05 C PIC X."
    root = "01 R OCCURS 9. 05 A PIC X."
    tank = "01 TANK. 05 ID PIC X(3). 05 COUNTS COMP. 10 EGGS PIC 9(4). 10 FRY PIC S9(9). 05 AGE PIC 9(4)."
    outer = ("01 R COMP. 05 A PIC 9(5). 05 G COMP-3. 10 B PIC 9(5). 10 C PIC 9(5) DISPLAY. "
             "05 D DISPLAY. 10 E PIC 9(5). 05 F PIC 9(5).")
    over = "05 A PIC X(8). 05 B REDEFINES A COMP. 10 C PIC 9(4). 05 D PIC 9(4)."
    slack = "01 R COMP. 05 A PIC X. 05 B PIC 9(5) SYNC. 05 C PIC ZZ9.99. 05 D PIC 9(4) SYNC DISPLAY."
    lice = "05 A PIC X. 05 B COMP-1 SYNC. 05 C PIC X. 05 D SYNC COMP-2. 05 E PIC X."
    member = "01 R COMP-2. 05 A PIC X DISPLAY. 05 G. 10 B. 10 C PIC 9(4) COMP. 05 D."
    cases = [
        (fish, listed(fish, 20, 0, 3, item("TAG", 0, 5, TEXT), item("SIRE", 6, 2, BINARY, 0),
                      item("WT", 8, 4, DECIMAL, 4, 1, STORED_DISPLAY, 0, occurs=3))),
        # the most digits, the deepest list, P
        one("05 A PIC 9(31).", 0, 31, INT, 0, 0),
        ("05 A PIC 9(32).", refused(27, 0)),
        ("05 Z PIC X. 05 A PIC 9(32).", refused(27, 12)),
        (chain(66), listed(chain(66), 1, 0, 1, *(item(f"G{k}", 0, 1, GROUP, 1) for k in range(2, 66)),
                           item("A", 0, 1, TEXT))),
        (chain(67), refused(20, len(chain(67)) - len("67 A PIC X."))),
        one("05 A PIC 99P.", 0, 2, DECIMAL, 3, 1, STORED_DISPLAY, 0),
        one("05 A PIC S9P(4) SIGN LEADING SEPARATE.", 0, 2, DECIMAL, 5, 4, STORED_DISPLAY, 2),
        one("05 A PIC S9P(4) COMP-3.", 0, 1, DECIMAL, 5, 4, STORED_COMP3, 1),
        one("05 A PIC 9(9)P COMP.", 0, 4, BINARY, 0),
        one("05 A PIC zp(2)9.9.", 0, 4, EDITED, 5, 3, 0, "zp(2)9.9"),
        # the traps: a statement that ends at every period, the cursor past a wide redefiner, COMP-3 digits modulo 256,
        # an item that is aligned from the start of its group, an aligned group
        (dots, listed(dots, 4, 0, 2, item("A", 0, 3, EDITED, 2, 1, 0, "9.9"), item("B.C", 3, 1, TEXT))),
        (wide, listed(wide, 5, 0, 2, item("A", 0, 5, GROUP, 2), item("A", 0, 2, TEXT),
                      item("B", 0, 5, TEXT), item("C", 2, 1, TEXT))),
        one("05 A PIC 9(31) COMP-3.", 0, 16, DECIMAL, 31, 0, STORED_COMP3, 1),
        ("05 A PIC 9(32) COMP-3.", refused(27, 0)),
        ("05 A PIC 9(256) COMP-3.", refused(27, 0)),
        ("05 A PIC 9(257) COMP-3.", refused(27, 0)),
        (group, listed(group, 4, 0, 2, item("A", 0, 1, TEXT), item("G", 1, 3, GROUP, 2), item("B", 0, 1, TEXT),
                       item("C", 1, 2, BINARY, 0))),
        (sync, listed(sync, 3, 0, 2, item("A", 0, 1, TEXT), item("G", 1, 2, GROUP, 1), item("B", 0, 2, BINARY, 0))),
        # alignment from the record's start, and at the end of a group with OCCURS
        (padded, listed(padded, 8, 0, 1, item("G", 0, 4, GROUP, 2, occurs=2), item("A", 0, 2, BINARY, 0),
                        item("B", 2, 1, TEXT))),
        (once, listed(once, 4, 0, 1, item("G", 0, 4, GROUP, 2, occurs=1), item("A", 0, 2, BINARY, 0),
                      item("B", 2, 1, TEXT))),
        (never, listed(never, 1, 0, 2, item("G", 0, 4, GROUP, 2, occurs=0), item("A", 0, 2, BINARY, 0),
                       item("B", 2, 1, TEXT), item("Z", 0, 1, TEXT))),
        (plain, listed(plain, 3, 0, 1, item("G", 0, 3, GROUP, 2), item("A", 0, 2, BINARY, 0), item("B", 2, 1, TEXT))),
        (varying, listed(varying, 1, 1, 2, item("N", 0, 1, INT, 0, 0),
                         item("G", 1, 4, GROUP, 2, occurs=2, depending="N#2"), item("A", 1, 2, BINARY, 0),
                         item("B", 3, 1, TEXT))),
        (moved, listed(moved, 33, 0, 2, item("A", 0, 1, TEXT), item("G", 1, 16, GROUP, 1, occurs=2),
                       item("B", 7, 8, BINARY, 0))),
        (inner, listed(inner, 25, 0, 2, item("A", 0, 1, TEXT), item("G", 1, 12, GROUP, 2, occurs=2),
                       item("H", 0, 8, GROUP, 2, occurs=1), item("B", 3, 4, FLOAT, 32), item("C", 7, 1, TEXT),
                       item("D", 8, 1, TEXT))),
        (largest.format(0, 2), listed(largest.format(0, 2), 0, 0, 1, item("G", 0, 2147483640, GROUP, 2, occurs=0),
                                      item("A", 0, 8, FLOAT, 64), item("B", 8, 1, TEXT, occurs=2147483632))),
        (largest.format(0, 3), refused(29, 6)),
        (largest.format(1, 3), refused(29, 6)),
        ("05 Z PIC X. 05 G REDEFINES Q. 10 A PIC Q.", refused(28, 12)),
        ("05 Z PIC X. 05 G REDEFINES Z. 10 A PIC Q.", refused(25, 30)),
        # small ones of every rule
        ("", listed("", 0, 0, 0)),
        (root, listed(root, 1, 0, 1, item("A", 0, 1, TEXT))),
        one("05 A PIC ZZ9.99.", 0, 6, EDITED, 5, 2, 0, "ZZ9.99"),
        one("05 A PIC $$$9.", 0, 4, EDITED, 3, 0, 0, "$$$9"),
        *(one(f"05 A PIC 9({n}) COMP.", 0, width, BINARY, 0) for n, width in ((4, 2), (5, 4), (9, 4), (10, 8))),
        one("05 A PIC S COMP-3.", 0, 1, DECIMAL, 0, 0, STORED_COMP3, 1),
        one("05 A PIC 9(5) COMP-3.", 0, 3, DECIMAL, 5, 0, STORED_COMP3, 1),
        one("05 A PIC S9(4) SIGN TRAILING SEPARATE.", 0, 5, INT, 1, 3),
        one("05 A PIC 9(4) SIGN LEADING SEPARATE.", 0, 4, INT, 0, 0),
        ("05 PIC X.", refused(21, 0)),
        one("255 A PIC X.", 0, 1, TEXT),
        ("256 A PIC X.", refused(10, 0)),
        (before, refused(30, before.index("05 C"))),
        (table, listed(table, 3, 1, 3, item("N", 0, 2, INT, 0, 0), item("T", 2, 3, TEXT, occurs=5, depending="N#2"),
                       item("Z", 2, 1, TEXT))),
        # values in quotes
        *(two(f"05 A PIC X{said} 05 B PIC X.") for said in QUOTED),
        *((text, refused(50, text.index(" '") + 1)) for text in OPEN),
        ("05 VALUE 'St. 4'.", refused(10, 14)),
        ("05 A PIC X VALUE'St. 4'.", refused(10, 21)),
        (named, listed(named, 2, 0, 2, item("VALUE", 0, 1, GROUP, 2), item("VALUE", 0, 1, TEXT), item("B", 0, 1, TEXT),
                       item("C", 1, 1, TEXT))),
        # usage on the group
        (tank, listed(tank, 13, 0, 3, item("ID", 0, 3, TEXT), item("COUNTS", 3, 6, GROUP, 2),
                      item("EGGS", 0, 2, BINARY, 0), item("FRY", 2, 4, BINARY, 1), item("AGE", 9, 4, INT, 0, 0))),
        (outer, listed(outer, 21, 0, 4, item("A", 0, 4, BINARY, 0), item("G", 4, 8, GROUP, 2),
                       item("B", 0, 3, DECIMAL, 5, 0, STORED_COMP3, 1), item("C", 3, 5, INT, 0, 0),
                       item("D", 12, 5, GROUP, 1), item("E", 0, 5, INT, 0, 0), item("F", 17, 4, BINARY, 0))),
        (over, listed(over, 12, 0, 2, item("A", 0, 8, GROUP, 2), item("A", 0, 8, TEXT), item("B", 0, 2, GROUP, 1),
                      item("C", 0, 2, BINARY, 0), item("D", 8, 4, INT, 0, 0))),
        (slack, listed(slack, 16, 0, 4, item("A", 0, 1, TEXT), item("B", 4, 4, BINARY, 0), item("C", 8, 4, BINARY, 0),
                       item("D", 12, 4, INT, 0, 0))),
        one("05 A COMP PIC 9(4) USAGE IS DISPLAY.", 0, 4, INT, 0, 0),
        one("05 A DISPLAY PIC 9(4) COMP.", 0, 2, BINARY, 0),
        one("05 A COMP PIC 9(4) VALUE 1 DISPLAY.", 0, 2, BINARY, 0),
        # floats
        one("05 A COMP-1.", 0, 4, FLOAT, 32),
        one("05 A COMPUTATIONAL-1.", 0, 4, FLOAT, 32),
        one("05 A COMP-2.", 0, 8, FLOAT, 64),
        one("05 A USAGE IS COMPUTATIONAL-2.", 0, 8, FLOAT, 64),
        one("05 A COMP-1 PIC X PIC.", 0, 4, FLOAT, 32),
        (lice, listed(lice, 25, 0, 5, item("A", 0, 1, TEXT), item("B", 4, 4, FLOAT, 32), item("C", 8, 1, TEXT),
                      item("D", 16, 8, FLOAT, 64), item("E", 24, 1, TEXT))),
        (member, listed(member, 19, 0, 3, item("A", 0, 1, TEXT), item("G", 1, 10, GROUP, 2), item("B", 0, 8, FLOAT, 64),
                        item("C", 8, 2, BINARY, 0), item("D", 11, 8, FLOAT, 64))),
        ("05 A PIC X. 05 B PIC 9 COMP-2.", refused(52, 12)),
        ("01 R COMP-1. 05 A. 05 B PIC X.", refused(52, 19)),
        ("01 R COMP-1. 05 A COMP.", refused(21, 13)),
    ]
    if cases[0][1][1] != 129:
        sys.exit("the worked example has 129 bytes")
    made = [(text.encode("latin-1"), answer) for text, answer in cases]
    return [[escaped(text), *same(text, answer, layout.answer(text))] for text, answer in made]
