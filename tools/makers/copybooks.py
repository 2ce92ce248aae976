"""Copybooks at random, made from a seed, by families: what each is made for is said in `inputs`."""

import re

from makers import pictures
from makers.written import COUNTS, FOLDS, GOOD, KEYWORDS, SNIPPETS


class Maker(pictures.Maker):
    """Copybooks at random, by families; a method gives the family's name and the text."""

    def cased(self, word):
        if self.chance(0.8):
            return word
        mixed = "".join(self.one([c.lower(), c.upper()]) for c in word)
        return self.one([word.lower(), word.title(), mixed])

    def name(self):
        return self.one(["A", "B", "C", "a", "b", "D", "N", "n", "GRP", "Grp", "FILLER", "filler", "X-1", "X-1",
                         "AMOUNT", "PIC", "OCCURS", "5", "A.B", "*A", "A*"])

    def word_picture(self):
        """A picture that is one word, mostly a good one."""
        roll = self.r.random()
        if roll < 0.62:
            p = self.one(["X", "X(3)", "X(5)", "XX", "A(2)", "9", "99", "9(4)", "9(5)", "9(9)", "9(10)", "S9(4)",
                          "S9(9)", "S9(5)V99", "9(3)V9", "SV99", "99P", "ZZ9", "ZZ9.99",
                          "$$$9", "--9.9", "9(3)CR", "9/9", "S", "X(0)", "9(0)"])
        elif roll < 0.8:
            p = self.picture_number()
        elif roll < 0.9:
            p = self.picture_edited()
        elif roll < 0.985:
            p = self.picture_text()
        else:
            p = self.one(["9(31)", "9(32)", "9(256)", "X(256)", "Z(31)", "Z(32)", "B(255)", "B(256)", "X(65535)",
                          "X(65536)", "9(18446744073709551616)"])
        return "".join(p.split()) or "X"

    def count(self):
        return self.one(["0", "1", "2", "3", "5", "+3", "02"]) if self.chance(0.97) else self.one(COUNTS)

    def clauses(self, group, names):
        """The words of a statement's clauses, which fit together more often than not."""
        parts = []
        if not group and self.chance(0.97):
            said = [self.one(["PIC", "PIC", "PICTURE"])] + (["IS"] if self.chance(0.2) else [])
            parts.append(said + [self.word_picture()])
        if self.chance(0.05 if group else 0.3):
            parts.append(self.usage_words())
        if self.chance(0.3):
            parts.append([self.one(["SYNC", "SYNCHRONIZED"])] + self.one([[], [], ["LEFT"], ["RIGHT"]]))
        if self.chance(0.2):
            part = ["OCCURS", self.count()] + (["TO", self.count()] if self.chance(0.3) else [])
            part += ["TIMES"] if self.chance(0.4) else []
            if self.chance(0.3):
                part += ["DEPENDING"] + self.one([["ON"], ["ON"], []]) + [self.name()]
            parts.append(part)
        if names and self.chance(0.2):
            parts.append(["REDEFINES", self.one(names) if self.chance(0.9) else self.name()])
        if self.chance(0.15):
            said = ["SIGN"] + self.one([[], ["IS"]]) + self.one([["LEADING"], ["TRAILING"], []])
            parts.append(said + self.one([[], ["SEPARATE"], ["SEPARATE", "CHARACTER"]]))
        if self.chance(0.05):
            others = [["JUSTIFIED"], ["BLANK", "WHEN", "ZERO"], ["VALUE", "ZERO"], ["VALUE", "'A.", "B'"]]
            parts.append(self.one(others))
        if self.chance(0.3):
            self.r.shuffle(parts)
        return [w for p in parts for w in p]

    def usage_words(self):
        usage = self.one(["COMP", "COMP", "COMP", "BINARY", "COMP-4", "COMPUTATIONAL-5", "COMP-3", "PACKED-DECIMAL",
                          "DISPLAY", "COMP-6"])
        return self.one([[], ["USAGE"], ["USAGE", "IS"]]) + [usage]

    def siblings(self, level, depth, left):
        """The statements of a sibling list, each a list of words; `left` holds how many may still be made."""
        out, names = [], []
        level += self.r.randint(1, 5)
        for _ in range(self.r.randint(1, 4)):
            left[0] -= 1
            group = depth > 0 and left[0] > 0 and self.chance(0.4)
            name = self.name() if self.chance(0.98) else None
            others = [str(level), f"+{level}", f"{level:04}", "88", str(max(0, level - 1))]
            number = f"{level:02}" if self.chance(0.97) else self.one(others)
            out.append([number] + ([name] + self.clauses(group, names) if name else []))
            names.append(name or "FILLER")
            if group:
                out += self.siblings(level, depth - 1, left)
            if left[0] <= 0:
                break
        return out

    def statements(self, most):
        root = [["01", "R"] + (self.clauses(True, []) if self.chance(0.2) else [])] if self.chance(0.5) else []
        depth = self.one([0, 1, 2, 3, 5])
        return root + self.siblings(1 if root else 0, depth, [self.r.randint(1, most)])

    def joined(self, statements):
        return " ".join(" ".join(s) + "." for s in statements)

    def nested(self):
        return "nested", self.joined(self.statements(8))

    def long(self):
        return "long", self.joined(self.statements(24))[:900]

    def spread(self):
        """The same over lines, with every kind of white space, comments, and keywords in any case."""
        text = ""
        for s in self.statements(6):
            words = [self.cased(w) if w in KEYWORDS else w for w in s]
            for w in words:
                text += w + self.one([" ", " ", " ", "  ", "\n", "\r\n", "\t", "\x0b", "\x0c", "\n   ", " \r ",
                                      " *> X. Y\n", "\n* Z.\n", "\n \t* Z.\r\n"])
            text = text.rstrip() if self.chance(0.8) else text
            text += self.one([". ", ".\n", ".\n", ".\r\n", ".\t", ".*> C\n", ". *> C. D\n", " .\n", "\n.\n",
                              ".\n\n* C\n", ".\x0c", "."])
        return "spread", text

    def floats(self):
        """Groups in groups, some with the usage of a float, around floats, numbers and text, some with SYNC, OCCURS or
        REDEFINES, some with a picture too many or too few."""
        usages = ["COMP-1", "COMP-2"] * 5 + ["COMPUTATIONAL-1", "COMPUTATIONAL-2", "COMP", "COMP-3", "DISPLAY",
                                             "COMP-6"]

        def parts(group, names, around):
            usage = self.one(usages) if self.chance(0.25 if group else 0.7) else None
            holds = usage or around
            floats = holds and holds[-2:] in ("-1", "-2")
            out = [self.one([[], ["USAGE"], ["USAGE", "IS"]]) + [usage]] if usage else []
            if self.chance(0.1 if group else 0.04 if floats else 0.96):
                out.append(["PIC", self.one(["X", "X(3)", "9(4)", "9(5)", "9(10)", "ZZ9", "S9V9"] * 3 + ["Q"])])
            if self.chance(0.5):
                out.append(self.one([["SYNC"], ["SYNCHRONIZED"], ["SYNC", "LEFT"], ["SYNC", "RIGHT"]]))
            if self.chance(0.15):
                out.append(["OCCURS", self.one(["0", "1", "2", "3", "536870911", "268435455"])])
            if self.chance(0.03):
                out.append(["OCCURS", "1", "TO", "4", "DEPENDING", "ON", self.one(names or ["N"])])
            if names and self.chance(0.12):
                out.append(["REDEFINES", self.one(names)])
            if self.chance(0.05):
                out.append(self.one([["VALUE", "COMP-1"], ["SIGN", "COMP-2"], ["DISPLAY"], ["COMP-2"]]))
            if self.chance(0.4):
                self.r.shuffle(out)
            if self.chance(0.05):
                out.append(self.one([["PIC"], ["PIC", "IS"]]))
            return [self.cased(w) if w in KEYWORDS + usages else w for p in out for w in p], holds

        def rows(level, depth, around):
            out, names = [], []
            for k in range(self.r.randint(1, 4)):
                name = self.one(["A", "B", "C", "COMP-1"]) + self.one(["", str(k)])
                group = depth > 0 and self.chance(0.4)
                said, holds = parts(group, names, around)
                out.append([f"{level:02}", name] + said)
                names.append(name)
                if group:
                    out += rows(level + self.r.randint(1, 5), depth - 1, holds)
            return out

        said, holds = parts(True, [], None) if self.chance(0.5) else (None, None)
        root = [["01", "R"] + said] if said is not None else []
        return "floats", self.joined(root + rows(5, self.one([0, 1, 1, 2]), holds))

    def usages(self):
        """Groups in groups, most with a usage, around members that name none, another one, DISPLAY or several."""
        pictures = ["9(4)", "9(4)", "9(5)", "9(10)", "S9(4)", "S9(5)V99", "9P", "X", "X(3)", "ZZ9.99", "-9"]
        others = [["SIGN", "LEADING", "SEPARATE"], ["SIGN", "DISPLAY"], ["VALUE", "COMP"], ["VALUE", "DISPLAY"]]

        def parts(group, names):
            out = [] if group else [["PIC", self.one(pictures + [self.word_picture()])]]
            while self.chance((0.2 if len(out) > 1 else 0.6) if group else 0.25):
                out.append(self.usage_words() if self.chance(0.7) else ["DISPLAY"])
            if self.chance(0.3):
                out.append(["SYNC"])
            if self.chance(0.15):
                out.append(["OCCURS", self.one(["0", "1", "2", "3"])])
            if names and self.chance(0.12):
                out.append(["REDEFINES", self.one(names)])
            if self.chance(0.1):
                out.append(self.one(others))
            if self.chance(0.4):
                self.r.shuffle(out)
            return [self.cased(w) if w in KEYWORDS else w for p in out for w in p]

        def rows(level, depth):
            out, names = [], []
            for k in range(self.r.randint(1, 3)):
                name = self.one(["A", "B", "C", "DISPLAY"]) + self.one(["", str(k)])
                group = depth > 0 and self.chance(0.6)
                number = level if self.chance(0.95) else max(1, level - self.r.randint(1, 4))
                out.append([f"{number:02}", name] + parts(group, names))
                names.append(name)
                if self.chance(0.05):
                    out.append(["88", "Y", self.one(["COMP", "DISPLAY", "VALUE"])])
                if group:
                    out += rows(level + self.r.randint(1, 5), depth - 1)
            return out

        root = [["01", "R"] + parts(True, [])] if self.chance(0.6) else []
        return "usages", self.joined(root + rows(5, self.one([1, 1, 2, 3, 4])))

    def soup(self):
        """Any words after a level."""
        def word():
            roll = self.r.random()
            if roll < 0.7:
                return self.cased(self.one(KEYWORDS))
            if roll < 0.82:
                return self.one(["0", "1", "2", "3", "+3", "05"])
            return self.one(["X", "S9", "9(4)", "Z9", "S9V9", "A", "B", "N"])

        out = []
        for k in range(self.r.randint(1, 3)):
            words = [word() for _ in range(self.r.randint(1, 9))]
            if self.chance(0.7):
                words.insert(self.r.randint(0, len(words)), "PIC " + self.one(["X", "S9", "9(4)", "S9(9)"]))
            out.append(["05", self.one("ABC")] + words)
        return "soup", self.joined(out)

    def folded(self):
        """Sibling lists of few names, of which most redefine one another."""
        pool = self.one([["A", "B"], ["A", "a", "B"], ["A", "B", "C"], ["G", "g", "A"], ["A", "B", "C", "D"]])

        def item():
            return self.one(["PIC X", "PIC X(2)", "PIC X(%d)" % self.r.randint(0, 9), "PIC 9(4) COMP SYNC",
                             "PIC 9(9) COMP", "PIC 9(10) COMP SYNC", "PIC ZZ9.9", "PIC S9(3) COMP-3"])

        def occurs():
            return "" if self.chance(0.75) else self.one([" OCCURS %d" % self.r.randint(0, 3), " OCCURS 2 TIMES",
                                                          " OCCURS 1 TO 3 DEPENDING ON N",
                                                          " OCCURS 4 DEPENDING %s" % self.one(pool)])

        def rows(level, depth, most):
            out, seen = [], []
            for _ in range(self.r.randint(2, most)):
                name = self.one(pool)
                target = ""
                if seen and self.chance(0.55):
                    target = " REDEFINES " + self.cased(self.one(seen) if self.chance(0.93) else self.one(pool))
                if depth > 0 and self.chance(0.35):
                    out.append(f"{level:02} {name}{target}{occurs()}.")
                    inner = rows(level + 5, depth - 1, 3)
                    if self.chance(0.5):
                        inner[0] = f"{level + 5:02} {self.one([name, name, name.swapcase()])} {item()}."
                    out += inner
                else:
                    out.append(f"{level:02} {name}{target} {item()}{occurs()}.")
                seen.append(name)
            return out

        root = self.chance(0.3)
        return "folded", " ".join((["01 R."] if root else []) + rows(5, self.one([0, 1, 1, 2]), 6))

    def fillers(self):
        """Statements with only a level beside FILLER in any case."""
        out = []
        for _ in range(self.r.randint(2, 5)):
            name = self.one(["FILLER", "filler", "Filler", "A", "", ""])
            targets = ["", "", " REDEFINES FILLER", " REDEFINES filler", " REDEFINES A"]
            target = self.one(targets) if out and name else ""
            if not name or self.chance(0.3):
                out.append(f"05 {name}{target}.".replace(" .", "."))
                for _ in range(self.r.randint(1, 2)):
                    out.append(f"10 {self.one(['FILLER', 'filler', 'A', 'B'])} PIC {self.one(['X', 'X(3)'])}.")
            else:
                out.append(f"05 {name}{target} PIC {self.one(['X', 'X(2)', '9(4) COMP SYNC'])}.")
        return "fillers", " ".join(out)

    def marked(self):
        """Snippets put into a copybook."""
        text = self.one(GOOD) if self.chance(0.5) else self.joined(self.statements(4))
        for _ in range(self.r.randint(1, 3)):
            i = self.r.randint(0, len(text))
            text = text[:i] + self.one(SNIPPETS) + text[i:]
        return "marked", text

    def damaged(self):
        """A good copybook with bytes deleted, doubled, swapped or replaced. No repeat count grows so that the oracle
        could not be asked."""
        good = self.one(GOOD + FOLDS) if self.chance(0.5) else self.joined(self.statements(5))
        while True:
            text = good
            for _ in range(self.r.randint(1, 3)):
                i = self.r.randrange(len(text))
                text = self.one([
                    text[:i] + text[i + 1:],
                    text[:i] + text[i] + text[i:],
                    text[:i] + text[i + 1:i + 2] + text[i] + text[i + 2:],
                    text[:i] + chr(self.r.choice([self.r.randrange(128), ord(self.one(good))])) + text[i + 1:],
                ])
            if not re.search(r"\(\s*\+?0*[1-9]\d{6,}", text):
                return "damaged", text

    def literal(self):
        """A literal, now and then without its end."""
        mark = self.one("'\"")
        inside = "".join(self.one(["a", "St", "4", ".", ". ", ".\t", " ", "  ", "*", "*>", " *> ", ".*>", ">", "'",
                                   '"', mark * 2, "SEPARATE", " SEPARATE ", "VALUE ", ". 05 B PIC X", "3.5"])
                         for _ in range(self.r.randint(0, 5)))
        inside = inside.replace(mark, mark * 2) if self.chance(0.8) else inside
        before = self.one(["", "", "", "X", "5", "("])
        close = mark if self.chance(0.95) else self.one(["", "\n", "\r\n"])
        return before + mark + inside + close + self.one(["", "", "", "B", ","])

    def quoted(self):
        """Quotes and apostrophes, most of them in literals after VALUE."""
        text, makes = "", [self.literal, self.literal, lambda: self.one(["5", "ZERO", "3.5", "THRU", "IT'S"])]
        for words in self.statements(5):
            if self.chance(0.1):
                words = [self.one(["VALUE", "value", "VALUES"]) if k and self.chance(0.2) else w
                         for k, w in enumerate(words)]
            if self.chance(0.15):
                words = [w + self.one("'\"") if self.chance(0.2) else w for w in words]
            if self.chance(0.6):
                said = [self.cased(self.one(["VALUE", "VALUE", "VALUES", "VALUE IS"]))]
                said += [self.one(makes)() for _ in range(self.r.randint(1, 3))]
                words = words + said if self.chance(0.8) else words[:2] + said + words[2:]
            white = ["\n", "  ", "\t", "\r\n", " *> X. 'Y\n", "\n* 'Z.\n", ""]
            ends = [". ", ". ", ".\n", ".\n", ". 88 C VALUE 'a' 'b. c'.\n", ".*> it's\n", " .\n", ".", ""]
            for w in words:
                text += w + (" " if self.chance(0.9) else self.one(white))
            text = text.rstrip(" ") + self.one(ends)
        return "quoted", text

    # cards

    def margin(self):
        """Columns 1 to 6."""
        return self.one(["%06d" % self.r.randrange(10 ** 6), "%06d" % self.r.randrange(10 ** 6), "      ", "      ",
                         "ABC123", "05 A. ", "'*>.  "])

    def behind(self):
        """What stands behind column 72."""
        return self.one(["", "", "", "FISH0001", " ", "X", ".", "'", ">", "*>", ". 05 Z PIC X.", "VALUE '", "\t"])

    def card(self, code, indicator=" "):
        """A card with this code, and something behind its columns; what is longer is cut by them."""
        text = self.margin() + indicator + code
        return text.ljust(72) + self.behind() if self.chance(0.5) else text

    def no_code(self):
        """A card that is read as blank."""
        return self.one([
            lambda: "",
            lambda: self.margin()[:self.r.randint(0, 6)],
            lambda: self.margin() + self.one(" */D"),
            lambda: self.card(self.one(["", " a remark.", " 05 NO PIC X.", " VALUE 'open", "*> no"]), self.one("*/D")),
        ])()

    def cards(self):
        """A copybook on cards: its lines, cut where they get too long or anywhere, behind margins and indicators."""
        _, text = self.one([self.nested, self.nested, self.folded, self.spread, self.quoted, self.marked,
                            self.damaged])()
        rest, lines = text.replace("\r", self.one(["", "\r"])).replace("\n", " \n "), []
        while rest and len(lines) < 60:
            room = self.one([65, 65, self.r.randint(1, 64), 66, 70])
            code = rest[:room].split("\n")[0]
            if len(code) == room and self.chance(0.9) and " " in code:  # between words
                code = code[:code.rindex(" ") + 1]
            rest = rest[len(code):].removeprefix("\n")
            while self.chance(0.15):
                lines.append(self.no_code())
            # now and then so far in that the code reaches column 72, or passes it
            least, most = (62 - len(code), 67 - len(code)) if self.chance(0.2) else (0, 8)
            indent = self.r.randint(max(0, least), max(0, most))
            bad = self.one("-dd\t1A\x00\r") if self.chance(0.01) else " "
            lines.append(self.card(" " * min(indent, 66) + code, bad))
        end = self.one(["\n", "\n", "\r\n"])
        text = end.join(lines) + self.one(["", "", end, end, "\r", "\n", end + end])
        if self.chance(0.02):
            i = self.r.randint(0, len(text))
            text = text[:i] + self.one(["\x80", "\xe5", "\r", "\n"]) + text[i:]
        return "cards", text

    def copybook(self):
        makers = [self.nested] * 5 + [self.folded] * 5 + [self.soup] * 4 + [self.spread] * 3
        makers += [self.marked] * 3 + [self.damaged] * 4 + [self.fillers] + [self.long]
        return self.one(makers)()
