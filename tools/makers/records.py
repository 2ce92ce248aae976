"""Copybooks whose bytes are asked for: by hand (WRITTEN, and HUGE records), and made from a seed. Groups in groups,
with OCCURS, usages and SYNC.
"""

import random

WRITTEN = """
01 FISH. 05 TAG PIC X(5). 05 SIRE PIC 9(4) COMP SYNC. 05 WT OCCURS 3 PIC 9(3)V9.
05 A PIC X. 05 B PIC 9(4) COMP SYNC OCCURS 0.
05 A PIC X. 05 B PIC 9(4) COMP SYNC OCCURS 0. 05 C PIC 9(9) COMP SYNC OCCURS 0. 05 D PIC 9(18) COMP SYNC OCCURS 0. \
05 E PIC X.
05 G OCCURS 3. 10 A PIC X. 10 B PIC 9(18) COMP SYNC OCCURS 0. 05 Z PIC X.
05 A PIC X. 05 G OCCURS 3. 10 B PIC X. 10 C PIC 9(9) COMP SYNC OCCURS 2. 10 D PIC X(3). 05 E PIC 9(4) COMP SYNC.
05 Z PIC X(3). 05 G OCCURS 0. 10 A PIC X. 10 B PIC 9(4) COMP SYNC. 05 E PIC 9(9) COMP SYNC.
05 A PIC X(0). 05 B PIC 9(9) COMP SYNC. 05 C PIC X(0) OCCURS 5. 05 D PIC X.
05 P OCCURS 3. 10 Q OCCURS 2. 15 R OCCURS 2 PIC X(2). 15 S PIC 9(4) COMP SYNC OCCURS 2. 15 T PIC X. \
10 U PIC 9(18) COMP SYNC.
01 R OCCURS 9 SYNC COMP REDEFINES Q. 05 A PIC X. 05 B PIC 9(4) COMP SYNC.
01 R OCCURS 3 DEPENDING ON N. 05 A PIC X. 05 B PIC 9(18) COMP SYNC.
05 A PIC X. 05 G SYNC. 10 B PIC 9(4) COMP. 05 H. 10 C PIC 9(4) COMP SYNC.
05 A PIC X. 05 B PIC S9(4) COMP-3 SYNC. 05 C PIC 9(4) SYNC. 05 D PIC X SYNC.
01 R. 05 A PIC X(0). 05 G OCCURS 4. 10 B PIC X(0).
05 FILLER PIC X. 05 FILLER OCCURS 2. 10 FILLER PIC X. 10 FILLER PIC 9(4) COMP SYNC.
01 R COMP. 05 A PIC X. 05 B PIC 9(5) SYNC. 05 G OCCURS 2. 10 C PIC X. 10 D PIC 9(4) SYNC.
01 R COMP. 05 A PIC X. 05 B PIC 9(4) SYNC DISPLAY. 05 G DISPLAY. 10 C PIC X. 10 D PIC 9(4) SYNC. 10 E PIC 9 SYNC COMP.
05 G COMP. 10 A PIC X. 10 B PIC 9(9) SYNC OCCURS 0. 05 H. 10 A PIC X. 10 B PIC 9(9) SYNC.
05 A PIC X. 05 G OCCURS 2. 10 H OCCURS 3. 15 B PIC X. 15 C PIC 9(5) COMP SYNC. 15 D PIC X(2). 10 E PIC 9 COMP SYNC. \
10 F COMP-2 SYNC. 10 Z PIC X.
05 A PIC X. 05 G OCCURS 3. 10 H. 15 B PIC 9 COMP SYNC. 10 I OCCURS 0. 15 C COMP-2 SYNC. 15 D PIC X. 10 Z PIC X.
05 A PIC X(5). 05 G OCCURS 2. 10 H OCCURS 2. 15 I OCCURS 2. 20 B PIC 9 COMP SYNC. 20 C PIC X. 15 D PIC X. 10 E PIC X.
""".strip().split("\n") + ["", "* nothing\n", "88 A VALUE 1.", "05 A PIC X(0)."]
ELEMENTARY = ["X", "X(2)", "X(5)", "X(0)", "A(3)", "9", "9(3)", "S9(4)V99", "ZZ9.9", "$$9", "9(3) COMP-3",
              "S9(5)V99 COMP-3", "S9(3) SIGN LEADING SEPARATE",
              "9(4) COMP", "S9(9) COMP", "9(4) COMP SYNC", "9(4) COMP SYNC", "9(9) COMP SYNC",
              "S9(9) BINARY SYNCHRONIZED RIGHT", "9(18) COMP-5 SYNC LEFT", "X(3) SYNC",
              "9(4) SYNC", "S9(9) SYNC", "9(4) SYNC DISPLAY"]
ROOT_CLAUSES = ["", "", "", " COMP", " OCCURS 9", " SYNC COMP PIC Q", " REDEFINES Q", " OCCURS 2 TO 3 DEPENDING ON N"]
HUGE = """
05 A OCCURS 2147483647 PIC X.
05 A PIC X(65535) OCCURS 32768.
05 Z PIC X. 05 G OCCURS 65536. 10 A OCCURS 32767 PIC X.
05 Z PIC X. 05 G OCCURS 89478485. 10 A PIC X. 10 B PIC 9(9) COMP SYNC. 10 C OCCURS 8 PIC XX.
05 A OCCURS 2147483641 PIC X. 05 B OCCURS 0 PIC 9(18) COMP SYNC.
05 A OCCURS 2147483633 PIC X. 05 B PIC 9(18) COMP SYNC.
05 G OCCURS 1000. 10 H OCCURS 1000. 15 K OCCURS 1000. 20 A PIC X. 20 L PIC X. 05 M PIC 9(9) COMP SYNC.
05 Z PIC X. 05 G OCCURS 89478485. 10 A PIC X(5). 10 B PIC 9(9) COMP SYNC. 10 C OCCURS 7 PIC XX.
05 Z PIC X(3). 05 G OCCURS 30000. 10 H OCCURS 3000. 15 A PIC X. 15 B PIC 9(4) COMP SYNC. 15 C PIC X. 10 D COMP-2 SYNC. \
10 E PIC X.
""".strip().split("\n")


class Maker:
    """Copybooks at random, without REDEFINES and DEPENDING ON."""

    def __init__(self, seed):
        self.r = random.Random(seed)
        self.names = 0

    def name(self):
        self.names += 1
        return "FILLER" if self.r.random() < 0.12 else f"N{self.names}"

    def occurs(self):
        return self.r.choice([""] * 6 + [" OCCURS 0", " OCCURS 1", " OCCURS 2", " OCCURS 3 TIMES", " OCCURS 2 TO 4"])

    def item(self, level, depth):
        if depth < 4 and self.r.random() < 0.3:
            usage = self.r.choice([""] * 5 + [" COMP", " COMP-3", " DISPLAY"])
            return f"{level} {self.name()}{self.occurs()}{usage}. " + self.list(level + self.r.randint(1, 5), depth + 1)
        said = f"{level} {self.name()} PIC {self.r.choice(ELEMENTARY)}{self.occurs()}. "
        return said + ("88 YES VALUE 1. " if self.r.random() < 0.05 else "")

    def list(self, level, depth):
        return "".join(self.item(level, depth) for _ in range(self.r.randint(1, 7)))

    def copybook(self):
        self.names = 0
        if self.r.random() < 0.6:
            return f"01 R{self.r.choice(ROOT_CLAUSES)}. " + self.list(5, 0)
        return self.list(5, 0)
