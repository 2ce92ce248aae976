"""Questions for an extract, made from a seed: a copybook, weights, a limit and a budget."""

import random

from makers import copybooks, records
from readings import Refused
from readings.extract import MOST_ITEMS, widths

MOST = 2 ** 64 - 1


class Maker:
    """Questions at random: copybooks of few items and of about 16, weights that are often equal, limits at the sums of
    subsets and budgets at powers of two; and of each some that are refused."""

    def __init__(self, seed):
        self.r = random.Random(seed)
        self.books, self.any = records.Maker(seed), copybooks.Maker(seed)

    def items(self):
        """A list of items at the top."""
        n = self.r.choice([0, 1, 2, 3, 4, 5, 6, 7, 8, 8, 9, 10, 12, self.r.randint(13, 15), 16, 17, 18])
        root = self.r.choice(["", "01 R. "])
        return root + "".join(self.books.item(5, self.r.choice([1, 3, 3, 4, 4])) for _ in range(n))

    def text(self):
        make = self.r.choice([self.items] * 5 + [self.books.copybook] * 4 + [lambda: self.any.copybook()[1]])
        return make().encode("latin-1")

    def weights(self, items):
        n = max(0, items + self.r.choice([0] * 40 + [-1, 1, 5]))
        most = self.r.choice([1, 2, 3, 10, 100, 1000, 1000])
        out = [self.r.randint(1, most) for _ in range(n)]
        if out and self.r.random() < 0.04:
            out[self.r.randrange(n)] = self.r.choice([0, 1001, 2 ** 16, 2 ** 32 - 1])
        if out and self.r.random() < 0.04:
            out[self.r.randrange(n)] = self.r.choice([1, 1000])
        return out

    def limit(self, taken):
        some = sum(width for width in taken if self.r.random() < 0.5)
        near = some + self.r.choice([-1, 0, 0, 1])
        others = [0, sum(taken), max(taken, default=0), self.r.randint(0, 40), MOST]
        return max(0, self.r.choice([near] * 4 + others))

    def budget(self, items):
        """Most questions look at few subsets, where the items are many."""
        power = 2 ** self.r.randint(0, min(items, MOST_ITEMS) + 1)
        every = 2 ** min(items, MOST_ITEMS)
        near = power + self.r.choice([-1, 0, 1])
        return self.r.choice([near] * 4 + [every - 1, every, every + 1, self.r.randint(1, 300), 0, MOST])

    def asked(self, text):
        """A question about a copybook."""
        try:
            taken = widths(text)
        except Refused:
            taken = []
        return text, tuple(self.weights(len(taken))), self.limit(taken), self.budget(len(taken))


def questions(count, seed):
    """So many different questions, up to four about a copybook, and one about one of many items."""
    maker, seen = Maker(seed), {}
    while len(seen) < count:
        text = maker.text()
        many = text.count(b"PIC") > 11
        for _ in range(1 if many else 4):
            seen.setdefault(maker.asked(text))
    return list(seen)[:count]
