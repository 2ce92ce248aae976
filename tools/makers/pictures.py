"""Pictures at random, made from a seed: single symbols and pairs, numbers, edited and odd ones, with P, and around the
limits of 27.
"""

import random

from makers.written import PICTURES, SPACED, SYMBOLS


class Maker:
    """Inputs at random."""

    def __init__(self, seed):
        self.r = random.Random(seed)

    def chance(self, p):
        return self.r.random() < p

    def one(self, options):
        return self.r.choice(options)

    def repeat(self):
        return self.one(["", "", "", "", "(1)", "(2)", "(3)", "(0)", "(%d)" % self.r.randint(0, 12),
                         "(0%d)" % self.r.randint(0, 9), "(+2)"])

    def picture_random(self, symbols=SYMBOLS):
        return "".join(self.one(symbols) + self.repeat() for _ in range(self.r.randint(1, 7)))

    def picture_pair(self):
        return self.one(SYMBOLS) + self.repeat() + self.one(SYMBOLS) + self.repeat()

    def picture_number(self):
        sign = self.one(["", "", "S"])
        digits = "9(%d)" % self.r.randint(0, 20)
        return sign + digits + self.one(["", "", "V9", "V99", "V9(%d)" % self.r.randint(0, 9), "P", "PP", "V"])

    def picture_edited(self):
        head = self.one(["", "$", "$$$", "+", "+++", "-", "---", "$$,$$", "Z(%d)" % self.r.randint(0, 9), "***",
                         "ZZ,ZZ", "+$$$"])
        digits = "9" * self.r.randint(0, 3)
        fraction = self.one(["", ".99", ".9(3)", "V99", ".ZZ", "BB", "/9", "0"])
        return head + digits + fraction + self.one(["", "", "+", "-", "CR", "DB", "C(1)R", "D(1)B(1)"])

    def picture_odd(self):
        """A picture with one thing put in, taken out or changed."""
        p = self.one([self.picture_random, self.picture_number, self.picture_edited, lambda: self.one(PICTURES),
                      lambda: self.one(SPACED)])()
        for _ in range(self.r.randint(1, 2)):
            i = self.r.randint(0, len(p))
            put = self.one(list("()XQ9.CRDB ") + ["(2)", "(0)", "( 1 )", "(\t2\r)", " ", "(255)", "(256)"])
            p = self.one([p[:i] + put + p[i:], p[:i] + p[i + 1:], p[:i] + put + p[i + 1:]])
        return p

    def picture_text(self):
        make = self.one([self.picture_random, self.picture_pair, self.picture_number, self.picture_edited,
                         self.picture_odd, lambda: self.picture_random("9SVZ$+-.P"),
                         lambda: self.picture_random("CRDB9")])
        p = make()
        return p.lower() if self.chance(0.15) else p

    def usage(self):
        return self.one([0, 0, 1, 2])

    def sign(self):
        return self.r.randrange(5)

    def picture(self):
        return "random", self.picture_text(), self.usage(), self.sign()

    def with_scale(self):
        """A picture with P: one of those above, with up to three runs of P put in between its symbols, or anywhere."""
        text = self.picture()[1]
        for _ in range(self.r.randint(0 if "P" in text.upper() else 1, 3)):
            places = [i for i in range(len(text) + 1)
                      if text[:i].count("(") == text[:i].count(")") and text[i:i + 1] != "("]
            at = self.r.choice(places) if places and self.r.random() < 0.95 else self.r.randint(0, len(text))
            run = self.one(["P", "P", "p", "PP", "P(%d)" % self.r.randint(0, 12), "P( %d )" % self.r.randint(1, 3),
                            "P(%d)" % self.r.randint(25, 33)])
            text = text[:at] + run + text[at:]
        return text

    def at_limit(self):
        """A picture of about 31 digits, said by up to four symbols that count as one, among others; or with a mask of
        about 255 bytes."""
        runs, number = [], self.chance(0.4)
        total = self.r.randint(29, 34)
        symbols = [self.one("999P" if number else "999ZZ*P$+-") for _ in range(self.r.randint(1, 4))]
        for k, symbol in enumerate(symbols):
            n = total if k == len(symbols) - 1 else self.r.randint(0, total)
            total -= n
            more = symbol in "$+-" and self.chance(0.8)
            runs.append(symbol * (n + more) if n + more < 4 and self.chance(0.5) else f"{symbol}({n + more})")
        others = ["V", "S", "V(0)"] if number else ["V", ".", "S", ",", "B", "0", "/", "CR", "DB", "X", "B(0)"]
        runs += [self.one(others) for _ in range(self.r.choice((0, 1, 1, 2, 3)))]
        if self.chance(0.3) and not number:
            runs.append("%s(%d)" % (self.one("B,0/"), 255 - self.r.randint(0, 40)))
        self.r.shuffle(runs)
        text = "".join(runs)
        return text.lower() if self.chance(0.1) else text
