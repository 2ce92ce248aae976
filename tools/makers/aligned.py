"""Copybooks made for alignment, at random: SYNC items in groups and in tables, beside items of every other width, with
OCCURS 0 and 1, DEPENDING ON, REDEFINES with and without a target, refusals inside groups, and 29 at its limits behind
slack.
"""

import random

LARGEST = 2147483647
PLAIN = ["PIC X", "PIC X(2)", "PIC X(3)", "PIC X(7)", "PIC 9", "PIC 9(3)", "PIC S9(4)", "PIC ZZ9", "PIC 99P",
         "PIC S9(5)V99 COMP-3", "PIC 9(4) COMP", "PIC 9(9) COMP-5", "PIC S9(10) BINARY", "COMP-1", "COMP-2",
         "PIC S9 SIGN LEADING SEPARATE", "PIC S9 SIGN TRAILING"]
ALIGNED = ["PIC 9(4) COMP SYNC", "PIC S9(5) COMP SYNC", "PIC 9(10) SYNC COMP-5", "COMP-1 SYNC", "SYNC COMP-2",
           "PIC 9 SYNCHRONIZED RIGHT BINARY"]
WRONG = ["PIC Q", "PIC X9", "", "PIC X(", "REDEFINES NOWHERE PIC X", "COMP-1 PIC X", "PIC 9(32)", "OCCURS",
         "PIC X OCCURS 2147483648"]
GROUP_USAGES = ["", "", "", "", "", "COMP", "COMP-3", "COMP-2", "DISPLAY", "USAGE COMP-5"]
NAMES = ["A", "B", "C", "D", "E", "a", "FILLER", "G", "H"]
ROOTS = ["", "", "01 R.", "01 R COMP.", "01 R OCCURS 3.", "01.", "3 REC SYNC."]
# What may be in a copybook beside alignment.
BESIDE = [(), (), (), ("redefines",), ("depending",), ("redefines", "depending"), ("redefines", "wrong"), ("wrong",)]
# 29 at its limits: {a} is an aligned item, {n} a large count, {o} a small one.
AT_LIMIT = [
    "01 R. 05 G OCCURS {o}. 10 A {a}. 10 B PIC X OCCURS {n}.",
    "01 R. 05 G. 10 A {a}. 10 B PIC X OCCURS {n}.",
    "05 X PIC X OCCURS {n}. 05 A OCCURS {o} {a}.",
    "05 X PIC X OCCURS {n}. 05 G OCCURS {o}. 10 A {a}. 10 B PIC X.",
    "05 G OCCURS {o}. 10 X PIC X OCCURS {n}. 10 H OCCURS 0. 15 A {a}. 15 Y PIC X.",
    "05 X PIC X OCCURS {n}. 05 G OCCURS 0. 10 P PIC X OCCURS {n}. 10 H OCCURS 0. 15 P PIC X(3). 15 B {a}. 15 Q PIC X.",
]


class Maker:
    """Copybooks at random."""

    def __init__(self, seed):
        self.r = random.Random(seed)
        self.left, self.beside = 0, ()

    def chance(self, p):
        return self.r.random() < p

    def occurs(self, chance):
        if not self.chance(chance):
            return []
        count = self.r.choice(["0", "1", "2", "2", "3", "3", "4", "5"])
        depending = "depending" in self.beside and self.chance(0.2)
        return ["OCCURS", count] + (self.r.choice([["DEPENDING", "ON", "N"], ["TIMES", "DEPENDING", "N"]])
                                    if depending else [])

    def redefines(self, names):
        if "redefines" not in self.beside or not names or not self.chance(0.25):
            return []
        return ["REDEFINES", self.r.choice(names + ["X"]) if self.chance(0.9) else "NOWHERE"]

    def body(self):
        """The clauses of an elementary item."""
        if self.chance(0.45):
            return self.r.choice(ALIGNED)
        return self.r.choice(WRONG if "wrong" in self.beside and self.chance(0.1) else PLAIN)

    def siblings(self, level, depth):
        """A list of siblings, as statements."""
        out, names = [], []
        for _ in range(self.r.choice([1, 1, 2, 2, 3, 4])):
            if self.left <= 0 and out:
                break
            self.left -= 1
            name, group = self.r.choice(NAMES), depth < 6 and self.left > 0 and self.chance(0.45)
            said = [f"{level:02}", name, *self.redefines(names), *self.occurs(0.5 if group else 0.2)]
            said += ["SYNC"] if self.chance(0.05) else []
            out.append(" ".join([*said, self.r.choice(GROUP_USAGES) if group else self.body()]).strip() + ".")
            out += self.siblings(level + self.r.choice([1, 5]), depth + 1) if group else []
            names.append(name)
        return out

    def at_limit(self):
        count = LARGEST - self.r.choice([0, 1, 2, 3, 4, 5, 6, 7, 8, 9, 12, 16])
        return self.r.choice(AT_LIMIT).format(o=self.r.choice([0, 1, 2]), a=self.r.choice(ALIGNED), n=count)

    def deep(self):
        """Groups in groups to the deepest list and past it, with a missing target, or an aligned item."""
        depth = self.r.choice([62, 63, 64, 65])
        groups = [f"{k} G{' OCCURS 2' if k % 11 == 0 else ''}." for k in range(1, depth + 1)]
        last = self.r.choice(["REDEFINES Z. 90 C PIC X", "PIC 9(4) COMP SYNC", "SYNC. 90 C COMP-1 SYNC"])
        return " ".join(["1 A PIC X.", *groups, f"{depth + 1} B {last}."])

    def copybook(self):
        if self.chance(0.02):
            return self.deep()
        if self.chance(0.03):
            return self.at_limit()
        self.left, self.beside = self.r.choice([3, 5, 8, 12, 20]), self.r.choice(BESIDE)
        return " ".join([self.r.choice(ROOTS), *self.siblings(5, 0)]).strip()
