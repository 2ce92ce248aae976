"""Copybooks that were asked of GnuCOBOL one by one: every departure of docs/DIFFERENCES.md that it can be asked about, and the differences that are its own.
`check` asks again, both the program and GnuCOBOL."""

import re

import gnucobol
from copybooks import Copybook, Item

# Each: the copybook; what the program prints, a line after a slash; what GnuCOBOL answers: name, offset and length of each record and item, or its first error.
ASKED = [
    ("01 R. 05 A PIC 9P. 05 Z PIC X.",
     "record 2 fixed 2 / 0 A 0 1 dec - - - / 0 Z 1 1 text - - -",
     "R 0 2; A 0 1; Z 1 1"),
    ("01 R. 05 A PIC 9P9. 05 Z PIC X.",
     "record 3 fixed 2 / 0 A 0 2 dec - - - / 0 Z 2 1 text - - -",
     "error: P must be at start or end of PICTURE string"),
    ("01 R. 05 G COMP. 10 A PIC 9(4). 05 B PIC X.",
     "record 3 fixed 2 / 0 G 0 2 group - - - / 1 A 0 2 bin - - - / 0 B 2 1 text - - -",
     "R 0 3; G 0 2; A 0 2; B 2 1"),
    ("01 R COMP. 05 G COMP-3. 10 A PIC 9(5). 05 B PIC 9(5) DISPLAY. 05 C PIC 9(5).",
     "record 12 fixed 3 / 0 G 0 3 group - - - / 1 A 0 3 dec - - - / 0 B 3 5 int - - - / 0 C 8 4 bin - - -",
     "R 0 12; G 0 3; A 0 3; B 3 5; C 8 4"),
    ("01 R COMP. 05 A PIC X.",
     "record 1 fixed 1 / 0 A 0 1 text - - -",
     "error: PICTURE clause not compatible with USAGE COMP"),
    ("01 R COMP. 05 A PIC ZZ9.99.",
     "record 4 fixed 1 / 0 A 0 4 bin - - -",
     "error: PICTURE clause not compatible with USAGE COMP"),
    ("01 R COMP SYNC. 05 A PIC 9. 05 B PIC 9(5).",
     "record 6 fixed 2 / 0 A 0 2 bin - - - / 0 B 2 4 bin - - -",
     "R 0 6; A 0 2; B 2 4"),
    ("01 R. 05 G SIGN LEADING SEPARATE. 10 A PIC S9. 05 B PIC X.",
     "record 2 fixed 2 / 0 G 0 1 group - - - / 1 A 0 1 dec - - - / 0 B 1 1 text - - -",
     "R 0 3; G 0 2; A 0 2; B 2 1"),
    ("01 R. 05 A PIC X. 05 G. 10 B PIC X. 10 C PIC 9 COMP SYNC.",
     "record 4 fixed 2 / 0 A 0 1 text - - - / 0 G 1 3 group - - - / 1 B 0 1 text - - - / 1 C 1 2 bin - - -",
     "R 0 4; A 0 1; G 1 3; B 1 1; C 2 2"),
    ("01 R. 05 A PIC X. 05 B PIC 9(10) COMP SYNC.",
     "record 16 fixed 2 / 0 A 0 1 text - - - / 0 B 8 8 bin - - -",
     "R 0 16; A 0 1; B 8 8"),
    ("01 R. 05 G OCCURS 2. 10 A PIC 9 COMP SYNC. 10 B PIC X.",
     "record 8 fixed 1 / 0 G 0 4 group 2 - - / 1 A 0 2 bin - - - / 1 B 2 1 text - - -",
     "R 0 8; G 0 4; A 0 2; B 3 1"),
    ("01 R. 05 F PIC X. 05 A PIC XXX. 05 B REDEFINES A PIC 9 COMP SYNC. 05 Z PIC X.",
     "record 5 fixed 3 / 0 F 0 1 text - - - / 0 A 1 3 group - - - / 1 A 0 3 text - - - / 1 B 0 2 bin - - - / 0 Z 4 1 text - - -",
     "R 0 5; F 0 1; A 1 3; B 1 2; Z 4 1"),
    ("01 R. 05 A POINTER. 05 Z PIC X.",
     "refused 21 6",
     "R 0 9; A 0 8; Z 8 1"),
    ("01 R. 05 A PIC 9 COMP DISPLAY.",
     "record 1 fixed 1 / 0 A 0 1 int - - -",
     "R 0 1; A 0 1"),
    ("01 R. 05 A PIC X PIC 9.",
     "record 1 fixed 1 / 0 A 0 1 int - - -",
     "R 0 1; A 0 1"),
    ("01 R. 05 A PIC X PIC.",
     "refused 21 6",
     "error: missing PICTURE string"),
    ("01 R. 05 A VALUE 1 PIC 9.",
     "refused 21 6",
     "R 0 1; A 0 1"),
    ("01 R. 05 PIC X. 05 B PIC X.",
     "refused 21 6",
     "R 0 2; B 1 1"),
    ("01 R. 05 A PIC X(4) VALUE 'a. b'.",
     "record 4 fixed 1 / 0 A 0 4 text - - -",
     "R 0 4; A 0 4"),
    ("01 R. 05 A PIC X(4) VALUE'a. b'.",
     "refused 10 29",
     "R 0 4; A 0 4"),
    ("01 R. 05 A PIC X(4) VALUE 'a.",
     "refused 50 26",
     "error: invalid literal: 'a. ...'"),
    ("01 R. 05 A PIC X(9) VALUE 'it''s. so'. 05 B PIC X.",
     "record 10 fixed 2 / 0 A 0 9 text - - - / 0 B 9 1 text - - -",
     "R 0 10; A 0 9; B 9 1"),
    ("01 R. 05 A PIC S9 SIGN LEADING VALUE ' SEPARATE '.",
     "record 2 fixed 1 / 0 A 0 2 int - - -",
     "R 0 1; A 0 1"),
    ("01 R. 05 A PIC X. 66 B RENAMES A.",
     "refused 21 18",
     "R 0 1; A 0 1; B 0 1"),
    ("01 R. 05 A PIC XX. 05 B PIC X. 66 C RENAMES A THRU B.",
     "refused 21 31",
     "R 0 3; A 0 2; B 2 1; C 0 3"),
    ("77 A PIC X. 77 B PIC X.",
     "record 2 fixed 2 / 0 A 0 1 text - - - / 0 B 1 1 text - - -",
     "A 0 1; B 0 1"),
    ("01 A PIC X. 01 B PIC X.",
     "record 2 fixed 2 / 0 A 0 1 text - - - / 0 B 1 1 text - - -",
     "A 0 1; B 0 1"),
    ("01 R. 05 A PIC X. 03 B PIC X.",
     "record 2 fixed 2 / 0 A 0 1 text - - - / 0 B 1 1 text - - -",
     "R 0 2; A 0 1; B 1 1"),
    ("01 R OCCURS 9. 05 A PIC X.",
     "record 1 fixed 1 / 0 A 0 1 text - - -",
     "R 0 1; A 0 1"),
    ("01 R. 05 A PIC X. 05 B PIC X. 05 C REDEFINES A PIC X.",
     "record 2 fixed 2 / 0 A 0 1 group - - - / 1 A 0 1 text - - - / 1 C 0 1 text - - - / 0 B 1 1 text - - -",
     "error: REDEFINES must follow the original definition"),
    ("01 R. 05 A PIC XX. 05 B REDEFINES A PIC XX. 05 C REDEFINES B PIC X.",
     "record 2 fixed 2 / 0 A 0 2 group - - - / 1 A 0 2 text - - - / 1 B 0 2 text - - - / 0 C 0 1 text - - B",
     "R 0 2; A 0 2; B 0 2; C 0 1"),
    ("01 R. 05 A PIC X OCCURS 2. 05 B REDEFINES A PIC XX.",
     "record 2 fixed 1 / 0 A 0 2 group - - - / 1 A 0 1 text 2 - - / 1 B 0 2 text - - -",
     "R 0 2; A 0 1; B 0 2"),
    ("01 R. 05 A PIC X. 05 B REDEFINES A PIC XX. 05 C PIC X.",
     "record 2 fixed 2 / 0 A 0 2 group - - - / 1 A 0 1 text - - - / 1 B 0 2 text - - - / 0 C 1 1 text - - -",
     "R 0 3; A 0 1; B 0 2; C 2 1"),
    ("01 R. 05 N PIC 9. 05 T OCCURS 1 TO 5 DEPENDING ON N PIC X.",
     "record 1 variable 2 / 0 N 0 1 int - - - / 0 T 1 1 text 5 N -",
     "R 0 6; N 0 1; T 1 1"),
    ("01 R. 05 N PIC 9. 05 T OCCURS 1 TO 5 DEPENDING ON N PIC X. 05 Z PIC X.",
     "record 2 variable 3 / 0 N 0 1 int - - - / 0 T 1 1 text 5 N - / 0 Z 1 1 text - - -",
     "R 0 7; N 0 1; T 1 1; Z 6 1"),
    ("01 R. 05 N PIC 9. 05 T OCCURS 5 DEPENDING ON N PIC X.",
     "record 1 variable 2 / 0 N 0 1 int - - - / 0 T 1 1 text 5 N -",
     "R 0 6; N 0 1; T 1 1"),
    ("01 R. 05 A OCCURS 0 PIC X. 05 Z PIC X.",
     "record 1 fixed 2 / 0 A 0 1 text 0 - - / 0 Z 0 1 text - - -",
     "R 0 1; A 0 1; Z 0 1"),
    ("01 R. 05 A PIC X9.",
     "refused 26 6",
     "R 0 2; A 0 2"),
    ("01 R. 05 A PIC XBX.",
     "refused 26 6",
     "R 0 3; A 0 3"),
    ("01 R. 05 A PIC N.",
     "refused 25 6",
     "R 0 2; A 0 2"),
    ("01 R. 05 A PIC 9S.",
     "record 1 fixed 1 / 0 A 0 1 dec - - -",
     "error: S must be at start of PICTURE string"),
    ("01 R. 05 A PIC Z COMP.",
     "record 2 fixed 1 / 0 A 0 2 bin - - -",
     "error: PICTURE clause not compatible with USAGE COMP"),
    ("01 R. 05 A PIC 9(32).",
     "refused 27 6",
     "R 0 32; A 0 32"),
    ("01 R. 05 A PIC 9(19) COMP.",
     "record 8 fixed 1 / 0 A 0 8 bin - - -",
     "error: 'A' binary field cannot be larger than 18 digits"),
    ("01 R. 05 A PIC X(0).",
     "record 0 fixed 1 / 0 A 0 0 int - - -",
     "error: number or constant in parentheses must be greater than zero"),
    ("01 R. 05 FILLER PIC X. 05 A REDEFINES FILLER PIC X.",
     "record 1 fixed 1 / 0 FILLER 0 1 group - - - / 1 FILLER 0 1 text - - - / 1 A 0 1 text - - -",
     "error: syntax error, unexpected FILLER, expecting Identifier"),
    ("01 R. 05 A PIC S9(4) TRAILING SEPARATE. 05 B PIC X.",
     "record 5 fixed 2 / 0 A 0 4 dec - - - / 0 B 4 1 text - - -",
     "R 0 6; A 0 5; B 5 1"),
    ("01 R. 05 A PIC 9 COMP-5.",
     "record 2 fixed 1 / 0 A 0 2 bin - - -",
     "R 0 1; A 0 1"),
    ("01 R. 05 A PIC 9(4) SIGN LEADING SEPARATE.",
     "record 4 fixed 1 / 0 A 0 4 int - - -",
     "error: elementary items with SIGN clause must have S in PICTURE"),
    ("01 R. 05 A PIC S9(4) COMP SIGN LEADING SEPARATE.",
     "record 2 fixed 1 / 0 A 0 2 bin - - -",
     "error: elementary items with SIGN clause must be USAGE DISPLAY or NATIONAL"),
    ("01 R. 05 A PIC 9(4) COMP-6.",
     "record 4 fixed 1 / 0 A 0 4 int - - -",
     "R 0 2; A 0 2"),
    ("01 R. 05 A POINTER. 05 B PIC X.",
     "refused 21 6",
     "R 0 9; A 0 8; B 8 1"),
    ("01 R. 05 A INDEX. 05 B PIC X.",
     "refused 21 6",
     "R 0 5; A 0 4; B 4 1"),
    ("01 R. 05 A PIC X(3), OCCURS 2. 05 B PIC X.",
     "refused 26 6",
     "R 0 7; A 0 3; B 6 1"),
    ("01 R. 05 A PIC 9(4), OCCURS 2. 05 B PIC X.",
     "record 11 fixed 2 / 0 A 0 5 edit 2 - - / 0 B 10 1 text - - -",
     "R 0 9; A 0 4; B 8 1"),
    ("01 R. 05 A OCCURS 2, PIC X(3). 05 B PIC X.",
     "refused 11 6",
     "R 0 7; A 0 3; B 6 1"),
    ("01 R. 05 A PIC X. 05 G OCCURS 2. 10 B PIC 9(10) COMP SYNC.",
     "record 33 fixed 2 / 0 A 0 1 text - - - / 0 G 1 16 group 2 - - / 1 B 7 8 bin - - -",
     "R 0 33; A 0 1; G 1 16; B 9 8"),
    ("01 R. 05 G OCCURS 2. 10 A PIC 9(9) COMP SYNC. 10 H. 15 B PIC X.",
     "record 16 fixed 1 / 0 G 0 8 group 2 - - / 1 A 0 4 bin - - - / 1 H 4 1 group - - - / 2 B 0 1 text - - -",
     "R 0 10; G 0 5; A 0 4; H 4 1; B 4 1"),
    ("01 R. 05 A PIC X. 05 G OCCURS 1. 10 B PIC 9 COMP SYNC. 10 C PIC X.",
     "record 5 fixed 2 / 0 A 0 1 text - - - / 0 G 1 4 group 1 - - / 1 B 1 2 bin - - - / 1 C 3 1 text - - -",
     "R 0 5; A 0 1; G 1 4; B 2 2; C 4 1"),
    ("01 R. 05 G OCCURS 1. 10 A PIC 9 COMP SYNC. 10 B PIC X. 05 Z PIC X.",
     "record 5 fixed 2 / 0 G 0 4 group 1 - - / 1 A 0 2 bin - - - / 1 B 2 1 text - - - / 0 Z 4 1 text - - -",
     "R 0 4; G 0 3; A 0 2; B 2 1; Z 3 1"),
    ("01 R. 05 G OCCURS 0. 10 A PIC 9 COMP SYNC. 10 B PIC X. 05 Z PIC X.",
     "record 1 fixed 2 / 0 G 0 4 group 0 - - / 1 A 0 2 bin - - - / 1 B 2 1 text - - - / 0 Z 0 1 text - - -",
     "R 0 1; G 0 3; A 0 2; B 2 1; Z 0 1"),
    ("01 R. 05 N PIC 99. 05 G OCCURS 1 TO 3 DEPENDING ON N. 10 A PIC 9 COMP SYNC. 10 B PIC X.",
     "record 2 variable 2 / 0 N 0 2 int - - - / 0 G 2 3 group 3 N - / 1 A 0 2 bin - - - / 1 B 2 1 text - - -",
     "R 0 14; N 0 2; G 2 4; A 2 2; B 5 1"),
    ("0 A PIC X.",
     "record 1 fixed 1 / 0 A 0 1 text - - -",
     "error: syntax error, unexpected Identifier"),
    ("255 A PIC X.",
     "record 1 fixed 1 / 0 A 0 1 text - - -",
     "error: syntax error, unexpected Identifier"),
    ("01 R. 05 A PIC X(4) VALUE 'a*>b'. 05 B PIC X.",
     "record 5 fixed 2 / 0 A 0 4 text - - - / 0 B 4 1 text - - -",
     "R 0 5; A 0 4; B 4 1"),
    ("01 R. 05 A PIC X(4); OCCURS 2. 05 B PIC X.",
     "refused 25 6",
     "R 0 9; A 0 4; B 8 1"),
]


class Asked(Copybook):
    """A copybook given as text: statements of plain clauses, each with a name."""

    def __init__(self, text):
        self.given = text
        super().__init__(0, "asked", tree(text), True, 0)

    def text(self):
        return self.given + "\n"


def tree(text):
    """The items of the text, by levels. What RENAMES stands below the record."""
    roots, open_items = [], []
    for statement in re.findall(r"""(?:'[^']*'|"[^"]*"|[^'"])+?\.(?=\s|$)""", text):
        level, *words = statement.strip()[:-1].split()
        if not words:  # what an open literal leaves
            continue
        name = "FILLER" if words[0] in ("PIC", "FILLER") else words[0]
        item = Item(name, level=int(level))
        clauses = " ".join(words)
        for found in re.finditer(r"OCCURS (\d+)(?: TO (\d+))?", clauses):
            item.occurs = int(found[2] or found[1])
        for found in re.finditer(r"DEPENDING ON (\w+)", clauses):
            item.depending = found[1]
        while open_items and (open_items[-1].level >= item.level or (item.level == 66 and len(open_items) > 1)):
            open_items.pop()
        (open_items[-1].children if open_items else roots).append(item)
        open_items.append(item)
    return roots


def theirs(text, folder):
    answer = gnucobol.ask([Asked(text)], folder)[0]
    if isinstance(answer, list):
        return "error: " + answer[0].strip().splitlines()[0]
    return "; ".join(f"{name} {offset} {length}" for name, (offset, length, _) in answer.items())


def check(printed, folder):
    """Asks both about each copybook of ASKED; how many answers are not those that stand there."""
    wrong = 0
    for text, *expected in ASKED:
        found = [printed(text + "\n").strip().replace("\n", " / "), theirs(text, folder)]
        for who, is_now, was in zip(("the program", "GnuCOBOL"), found, expected):
            if is_now != was:
                wrong += 1
                print(f"{text}\n  {who}: {is_now}\n  expected: {was}")
    print(f"{len(ASKED)} copybooks asked one by one, {wrong} answers other than they were")
    return wrong
