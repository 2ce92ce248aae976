"""Sets of copybooks and the name of a key, made from a seed."""

import random

from makers import copybooks
from readings import Refused
from readings.layout import record

NAMES = ["K", "REG-NO", "FILLER", "Key-1"]
# Pictures of one kind, written in several ways, and others near them.
SAME = [
    ["X(5)", "XXXXX", "A(5)", "x(05)"], ["9(4)", "9999", "9(+4) DISPLAY"], ["S9(4) COMP", "S9(3) BINARY", "S9 COMP-5"],
    ["9(5) COMP-3", "99999 PACKED-DECIMAL"], ["9(4) COMP-3"], ["9(4) COMP"], ["ZZ9", "Z(2)9", "z(02)9"], ["Z99"],
    ["ZZZ"], ["ZZ9.99", "Z(2)9.9(2)"], ["ZZ9,99", "Z(2)9,9(2)"], ["ZZ9P"], ["ZPZ9"], ["SZZ9", "SZ(2)9"], ["ZZV9"],
    ["$$9", "$(2)9"], ["S9(3) SIGN LEADING SEPARATE"], ["S9(3) SIGN TRAILING SEPARATE"], ["S9(3)", "S999 SIGN LEADING"],
    ["9(3)V9", "999V9"], ["9(2)V99"], ["S9(3)V9"], ["9(3)P", "999P"], ["X(4)"], ["9(3)"],
    # a bare PIC takes the picture back, and leaves a float
    ["X COMP-1 PIC", "9(4) COMPUTATIONAL-1 PIC"], ["X COMP-2 PIC"],
]
BROKEN = ["05 A PIC Q.", " XX A.", "05 A.", "05 A PIC X(", "05 A REDEFINES B PIC X.", "05 A VALUE '", "\x80",
          "05 A OCCURS B."]


class Maker:
    """Sets at random: copybooks with a key behind the same number of bytes, or another; its picture written so or so,
    or of another kind; the key also twice, in a group, under another name, with OCCURS, REDEFINES or a DEPENDING ON
    before it; copybooks of every family beside copies of themselves, for a name of theirs; one that is refused
    among others; sets of 0 to 18; lengths that do not add up, past 2^64 too."""

    def __init__(self, seed):
        self.r, self.texts = random.Random(seed), copybooks.Maker(seed)

    def chance(self, p):
        return self.r.random() < p

    def case(self, name):
        return "".join(self.r.choice([c.lower(), c.upper(), c]) for c in name) if self.chance(0.3) else name

    def filled(self, bytes_left):
        """Items that take so many bytes."""
        out, n = "", 0
        while bytes_left:
            n, part = n + 1, self.r.randint(1, bytes_left)
            out += self.r.choice([
                f"05 A{n} PIC X({part}). ", f"05 A{n} OCCURS {part} PIC X. ", f"05 G{n}. 10 K PIC X({part}). ",
                f"05 A{n} PIC 9({part}) VALUE 1. 88 K VALUE 1. " if part < 31 else f"05 A{n} PIC X({part}). ",
                f"05 A{n} PIC X({part}). 05 B{n} REDEFINES A{n} PIC X. ",
            ])
            bytes_left -= part
        return out

    def spoilt(self, name, clause):
        """What may stand where the key is due, or before it."""
        return self.r.choice([
            f"05 {name} PIC {clause}. 05 {self.case(name)} PIC X. ", f"05 G. 10 {name} PIC {clause}. ",
            f"05 {name}. 10 A PIC {clause}. ", f"05 {name} PIC {clause} OCCURS {self.r.randint(0, 2)}. ",
            f"05 Z PIC X. 05 Y REDEFINES Z PIC X. 05 {name} REDEFINES Y PIC {clause}. ",
            f"05 {name} PIC {clause}. 05 Y REDEFINES {name} PIC X. ", f"05 Y PIC {clause}. ",
            f"05 T OCCURS 2 DEPENDING ON N PIC X. 05 {name} PIC {clause}. ",
            f"05 G. 10 T OCCURS 2 DEPENDING ON N PIC X. 05 {name} PIC {clause}. ",
            f"05 G OCCURS 2 DEPENDING ON N. 10 G PIC X. 05 B REDEFINES G PIC X. 05 {name} PIC {clause}. ",
            f"05 {name} PIC {clause}. 05 T OCCURS 2 DEPENDING ON N PIC X. ",
            f"05 {name} PIC {clause}. 05. 10 A PIC X. ",
        ])

    def copybook(self, name, before, clauses):
        name, clause = self.case(name), self.r.choice(clauses)
        here = self.spoilt(name, clause) if self.chance(0.06) else f"05 {name} PIC {clause}. "
        text = self.filled(before) + here + self.filled(self.r.randint(0, 4))
        return (self.r.choice(["01 R. ", "01 R OCCURS 3. ", "01 R.\n* note\n", ""]) + text).encode("latin-1")

    def family(self):
        """A name, and copybooks that may have a key of that name."""
        name, before, clauses = self.r.choice(NAMES), self.r.randint(0, 6), self.r.choice(SAME)
        count = self.r.choice([1, 2, 2, 2, 2, 3, 3, 4, 5, 16, 17]) if self.chance(0.3) else self.r.choice([2, 3])
        texts = []
        for _ in range(count):
            other = self.r.choice(SAME) if self.chance(0.06) else clauses
            texts.append(self.copybook(name, before + self.chance(0.03), other))
        return name.encode(), texts

    def copies(self):
        """A copybook beside copies of itself, in which only white space or case differ, and a name of its own."""
        _, text = getattr(self.texts, self.r.choice(["nested", "folded", "fillers", "usages"]))()
        text = text.encode("latin-1")
        try:
            names = [e.called() for e in record(text)] or [b"A"]
        except Refused:
            names = [b"A"]
        made = [text, self.r.choice([text, b"\n" + text, text.lower(), text + b"\n* K\n"])]
        return self.case(self.r.choice(names).decode("latin-1")).encode("latin-1"), made

    def lent(self):
        """Bytes, lengths and a name."""
        name, texts = self.copies() if self.chance(0.3) else self.family()
        if self.chance(0.05):
            texts[self.r.randrange(len(texts))] = self.r.choice(BROKEN).encode("latin-1")
        if self.chance(0.02):
            name = self.r.choice([b"", b"\xff", b"NONE", name + b" ", name * 9000])
        lengths = [len(text) for text in texts]
        if self.chance(0.03):
            i = self.r.randrange(len(lengths))
            lengths[i] = self.r.choice([lengths[i] + 1, max(0, lengths[i] - 1), 2 ** 64 - 1, 2 ** 63, 0])
            if self.chance(0.3):
                # the sum of two is that of the bytes, and 2^64 more
                lengths[:2] = [2 ** 64 - 1, (len(b"".join(texts)) - sum(lengths[2:]) + 1) % 2 ** 64]
        if self.chance(0.005):
            lengths = []
        return b"".join(texts), tuple(lengths), name
