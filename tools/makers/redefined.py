"""Copybooks with many REDEFINES, made from a seed: lists of up to 40 siblings, items and groups, most of which redefine
one that is near or far back, of a name that several have, or that only case or the first letters tell apart, or a
redefiner, or none.
"""

import random

NAMES = "A a B TAG tag XTAG YTAG xTag GAT FILLER NAME-12 GAME-12 name-12 NAME-21".split()
PICTURES = ["X", "X(3)", "9(4) COMP SYNC", "S9(5) COMP-3", "9(9) COMP SYNC", "ZZ9"]


class Maker:
    """Copybooks, each from the state that the one before left."""

    def __init__(self, seed):
        self.random = random.Random(seed)

    def target(self, names):
        """One of the earlier names, mostly near or the first of all, in any case; seldom one that may not be there."""
        if self.random.random() < 0.01:
            return self.random.choice(NAMES)
        place = self.random.choice([-1, -min(3, len(names)), 0, self.random.randrange(len(names))])
        name = names[place] or "FILLER"
        return name if self.random.random() < 0.8 else name.swapcase()

    def statements(self, level, count, often):
        """A list of siblings, so often with REDEFINES, with the members of its groups."""
        names = []
        while count > 0:
            count -= 1
            name = self.random.choice(NAMES)
            clauses = f" REDEFINES {self.target(names)}" if names and self.random.random() < often else ""
            if self.random.random() < 0.1:
                clauses += f" OCCURS {self.random.randrange(4)}"
            names.append(name)
            if level < 20 and count > 1 and self.random.random() < 0.15:
                below = self.random.randrange(1, min(count, 6))
                count -= below
                yield f"{level:02} {name}{clauses}."
                yield from self.statements(level + 5, below, often)
            else:
                yield f"{level:02} {name}{clauses} PIC {self.random.choice(PICTURES)}."

    def copybook(self):
        often, count = self.random.choice([0.3, 0.6, 0.95]), self.random.choice([3, 6, 12, 40])
        return "\n".join(self.statements(5, self.random.randrange(2, count + 1), often))
