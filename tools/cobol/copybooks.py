"""Copybooks to ask GnuCOBOL about, made from a seed: `generate`. They keep clear of the departures that docs/DIFFERENCES.md records under "From COBOL",
except for the classes of DEPARTURES, each of which meets one of them.

A copybook is kept as a tree, so that the items of a program that asks for their places can be named with their subscripts, and so that it can be shrunk.
Every name is used once in all copybooks of a run, since many of them are compiled in one program.
"""

import dataclasses
import random
import re


@dataclasses.dataclass
class Item:
    """One statement and the statements below it. `clauses` is all that follows the name."""
    name: str                                       # FILLER for an item that can't be referred to
    clauses: str = ""
    kind: str = "group"                             # or what Maker.elementary makes
    level: int = 0
    occurs: int = None                              # the most occurrences
    depending: str = None
    redefines: str = None
    sync: bool = False                              # a binary or float item with SYNC
    short_native: bool = False                      # COMP-5 with 1 or 2 digits
    children: list = dataclasses.field(default_factory=list)
    conditions: list = dataclasses.field(default_factory=list)   # statements of level 88, whole


@dataclasses.dataclass
class Copybook:
    number: int
    family: str
    items: list                                     # one root; or the items below a record that the copybook leaves to the program
    root: bool                                      # whether the copybook has the record's own statement
    seed: int                                       # for the spelling

    def text(self):
        rng = random.Random(self.seed)
        out = []
        for item in self.items:
            write(rng, item, 0, out)
        return on_cards(rng, out) if self.cards() else "".join(out)

    def cards(self):
        """Whether it is written on cards."""
        return self.family == "cards"

    def record(self):
        """The name of the record."""
        return self.items[0].name if self.root else f"RECORD-{self.number}"


def walk(items, above=()):
    """Each item with the items above it, in copybook order."""
    for item in items:
        yield item, above
        yield from walk(item.children, above + (item,))


def words_of(clauses):
    """The words of a statement; a literal is one, with the blanks in it."""
    return re.findall(r"""(?:[^\s'"]|'[^']*'|"[^"]*")+""", clauses)


NOTES = ("a note", "PIC X(9). OCCURS 4", "05 NOTE COMP.")


def without_note(line):
    """A line without the note at its end."""
    return next((line.removesuffix(f"  *> {note}") for note in NOTES if line.endswith(f"  *> {note}")), line)


def write(rng, item, depth, out):
    words = [f"{item.level:02d}" if rng.random() < 0.8 else str(item.level), item.name] + words_of(item.clauses)
    indent = "   " * depth
    line = indent + words[0]
    for word in words[1:]:
        # a literal and a picture are single words; words may be parted by blanks and lines, but cobc does not take a line's end just before a picture
        after = line.split()[-1].upper()
        if rng.random() < 0.05 and after not in ("PIC", "PICTURE", "IS"):
            line += "\n" + indent + "      " + word
        else:
            line += " " * rng.choice((1, 1, 1, 2, 5)) + word
    line += "."
    if rng.random() < 0.08:
        line += "  *> " + rng.choice(NOTES)
    out.append(line + "\n")
    for condition in item.conditions:
        out.append(f"{indent}   {condition}\n")
    for child in item.children:
        write(rng, child, depth + 1, out)


# the columns of a card that have code, 8 to 72
CARD = 65


def code_lines(rng, lines):
    """The lines without their indents and remarks, cut between words so that they fit between column 8 and column 72."""
    for line in "".join(lines).splitlines():
        code = ""
        for word in words_of(without_note(line)):
            # cobc does not take a line's end just before a picture: PIC [IS] goes with it
            before = words_of(code)
            kept = len(before)
            while kept and before[kept - 1].upper() in ("PIC", "PICTURE", "IS"):
                kept -= 1
            if kept and len(code) + 1 + len(word) > (rng.choice((30, 50)) if kept == len(before) else CARD):
                yield " ".join(before[:kept])
                code = " ".join(before[kept:])
            code += " " * bool(code) + word
        yield code


def on_cards(rng, lines):
    """The lines on cards: with margins, comments, debugging lines, empty and short lines, and text behind column 72."""
    numbered, behind = rng.random() < 0.7, rng.random() < 0.7
    end = rng.choice(("\n", "\n", "\r\n"))
    out = []

    def card(code, indicator=" "):
        margin = f"{10 * len(out) + 10:06d}" if numbered else rng.choice(("      ", "AB 12 "))
        text = margin + indicator + code
        out.append(text.ljust(72) + rng.choice(("FISH0001", "X", ".", "*>")) if behind and rng.random() < 0.8 else text)

    for code in code_lines(rng, lines):
        if rng.random() < 0.15:
            rng.choice((
                lambda: card(" a remark. 05 NO PIC X.", "*"),
                lambda: card("", "/"),
                lambda: card(" 05 NO PIC X(9).", "D"),
                lambda: out.append(""),
                lambda: out.append("0000"),
            ))()
        room = CARD - len(code)
        card(" " * (room if rng.random() < 0.3 else rng.randint(0, min(room, 20))) + code)
    return end.join(out) + rng.choice(("", end))


WORDS = ("TAG SIRE DAM WEIGHT LEN-MM HATCH SEASON MARKER ALLELE LOCUS SITE PEN TANK LICE SMOLT FAMILY TRAIT SCORE COST QTY PRICE UNIT STATUS CODE-A "
         "BATCH LOT ROW-NO").split()


class Maker:
    def __init__(self, rng, number):
        self.rng = rng
        self.number = number
        self.names = 0
        self.root_usage = ""                        # what the record's own statement says

    def chance(self, p):
        return self.rng.random() < p

    def name(self):
        self.names += 1
        name = f"{self.rng.choice(WORDS)}-{self.number}-{self.names}"
        return name.lower() if self.chance(0.15) else name

    def case(self, word):
        return word.lower() if self.chance(0.15) else word

    # -------------------------------------------------- pictures

    def repeat(self, symbol, count):
        """`symbol` count times: written out, with a count, or both."""
        if count <= 4 and self.chance(0.5):
            return symbol * count
        if count > 1 and self.chance(0.15):
            return f"{symbol}{symbol}({count - 1})"
        return f"{symbol}({self.rng.choice((str(count), f'{count:02d}', f'{count:04d}'))})"

    def digits(self):
        return self.rng.choice((1, 2, 3, 4, 5, 6, 7, 8, 9, 10, 11, 12, 13, 14, 15, 16, 17, 18, 4, 5, 9, 10, 18))

    def number_picture(self, signed, n):
        """n 9s, with a point or not."""
        sign = "S" if signed else ""
        if self.chance(0.55):
            return sign + self.repeat("9", n)
        before = self.rng.randint(0, n)
        picture = sign
        if before:
            picture += self.repeat("9", before)
        picture += "V"
        if n - before:
            picture += self.repeat("9", n - before)
        return picture

    def long_item(self):
        """A number of 19 to 31 digits, DISPLAY, COMP-3 or edited."""
        n = self.rng.choice((19, 20, 25, 28, 29, 30, 31, 31))
        form = self.rng.randrange(4)
        if form == 0:
            clauses = self.pic(self.number_picture(self.chance(0.5), n))
        elif form == 1:
            clauses = self.pic(self.number_picture(self.chance(0.5), n)) + " " + self.comp3()
        elif form == 2:
            clauses = self.pic(self.repeat("9", n - 2) + "PP")
        else:
            head = self.rng.choice((f"Z({n})", f"*({n})", f"Z({n - 1})9", f"$({n})9", f"+({n})9", f"-({n + 1})", f"Z({n - 3})9.99", f"Z({n - 3})9V99"))
            clauses = self.pic(head)
        return Item(self.name(), clauses, "long")

    def scaled_picture(self, sign, n):
        """n 9s with P at one end, 18 digits with them at most."""
        scale = self.repeat("P", self.rng.choice((1, 1, 2, 3, 4, 8)))
        if self.chance(0.4):
            return sign + self.rng.choice(("", "V")) + scale + self.repeat("9", n)
        return sign + self.repeat("9", n) + scale + self.rng.choice(("", "", "V"))

    def scaled_edited(self):
        """An edited picture with P at its right end."""
        before = self.rng.choice(("$", "+", "-", "Z", "*", self.repeat("Z", 4), self.repeat("*", 3), "$ZZ", "$$$"))
        return before + self.repeat("9", self.rng.randint(1, 6)) + self.repeat("P", self.rng.randint(1, 5))

    def text_picture(self):
        symbol = self.rng.choice("XXXA")
        n = self.rng.choice((1, 1, 2, 3, 4, 5, 7, 8, 10, 15, 20, 30, 60, 133, 255))
        picture = self.repeat(symbol, n)
        return picture + self.repeat("X", self.rng.randint(1, 5)) if self.chance(0.1) else picture

    def grouped(self, symbol, n, last):
        """n symbols with commas between threes, counted from the right; `last` 9s among them at the end."""
        out = ""
        for i in range(n):
            if i and (n - i) % 3 == 0:
                out += ","
            out += "9" if i >= n - last else symbol
        return out

    def edited_picture(self):
        """An edited picture by COBOL's rules for one: what precedes, the digits, the fraction, what follows."""
        r = self.rng
        form = r.randrange(12)
        n = r.randint(1, 9)
        fraction = r.choice(("", "", ".99", ".9", ".999", "V99"))
        end = r.choice(("", "", "", "+", "-", "CR", "DB"))
        if form == 0:                               # zero suppression
            return self.repeat("Z", n) + self.repeat("9", r.randint(1, 5)) + fraction + end
        if form == 1:
            return self.repeat("*", n) + self.repeat("9", r.randint(1, 5)) + fraction + end
        if form == 2:                               # with commas, and a currency sign or a sign before
            before = r.choice(("", "$", "+", "-", "+$", "-$"))
            return before + self.grouped(r.choice("Z*"), n + 1, r.randint(1, n)) + fraction + ("" if before[:1] in ("+", "-") else end)
        if form == 3:                               # a floating currency sign
            return "$" + self.grouped("$", n + 1, r.randint(1, n)) + fraction + end
        if form == 4:
            return self.repeat("$", n + 1) + self.repeat("9", r.randint(1, 4)) + fraction + end
        if form == 5:                               # a floating sign
            sign = r.choice("+-")
            return sign + self.grouped(sign, n + 1, r.randint(1, n)) + fraction
        if form == 6:
            return self.repeat(r.choice("+-"), n + 1) + self.repeat("9", r.randint(1, 4)) + fraction
        if form == 7:                               # all suppressed
            if r.choice("Z*") == "Z":
                return self.repeat("Z", n) + r.choice((".ZZ", ".Z", "")) + end
            return self.repeat("*", n + 1) + ".**" + end
        if form == 8:                               # dates and the like
            return r.choice(("99/99/9999", "9(4)/99/99", "99/99/99", "9999/99", "99B99B9999", "9B9", "99B(2)99", "9(3)B9(3)", "Z9/99/99", "9(2)/9(2)"))
        if form == 9:                               # zeros put in
            return r.choice(("9900", "9(3)0", "90", "09", "9(3)0(3)", "Z(3)9.9900", "999,000", "0099", "ZZ9B00"))
        if form == 10:                              # a sign at one end
            return r.choice(("+9(4)", "-9(4)", "9(5)+", "9(5)-", "9(3)CR", "9(3)DB", "+99.99", "-9.9", "9(2)V9-", "$9(3).99", "$99CR", "+$99"))
        return self.repeat("9", n) + r.choice((".9", ".99", ".9(3)")) + end

    # -------------------------------------------------- clauses

    def pic(self, picture):
        word = self.rng.choice(("PIC", "PIC", "PIC", "PICTURE", "PIC IS", "PICTURE IS"))
        return f"{self.case(word)} {self.case(picture)}"

    def usage(self, *words):
        return self.case(self.rng.choice(("", "", "USAGE ", "USAGE IS ")) + self.rng.choice(words))

    def comp(self, digits):
        """A binary usage. COMP-5 with 1 or 2 digits is a class of its own."""
        native = ("COMP-5", "COMPUTATIONAL-5") if digits > 2 else ()
        return self.usage("COMP", "COMP", "BINARY", "COMPUTATIONAL", "COMP-4", "COMPUTATIONAL-4", *native)

    def comp3(self):
        return self.usage("COMP-3", "COMP-3", "COMPUTATIONAL-3", "PACKED-DECIMAL")

    def sign(self):
        words = self.rng.choice(("SIGN", "SIGN IS")) + self.rng.choice((" LEADING", " TRAILING"))
        return self.case(words + self.rng.choice(("", " SEPARATE", " SEPARATE", " SEPARATE CHARACTER")))

    def times(self, count):
        words = f"OCCURS {self.rng.choice((str(count), f'{count:03d}'))}" + self.rng.choice(("", " TIMES"))
        if self.chance(0.2):
            words += f" INDEXED {self.rng.choice(('BY ', ''))}{self.name()}"
        return self.case(words)

    # -------------------------------------------------- items

    def elementary(self, kinds, occurs=None, value=True, name=None):
        """An item of one of the kinds: text, display, sign, comp, comp3, edited, sync, native, scaled, scaled-edited,
        float, sync-float."""
        kind = self.rng.choice(kinds)
        item = Item(name or ("FILLER" if self.chance(0.08) else self.name()), kind=kind, occurs=occurs)
        signed = kind == "sign" or self.chance(0.5)
        clauses = []
        literal = None
        if kind == "text":
            picture = self.text_picture()
            literal = self.rng.choice(("SPACES", "'a.b'", '"PIC"', "'*'", "LOW-VALUES"))
            if self.chance(0.1):
                clauses.append(self.case(self.rng.choice(("JUSTIFIED", "JUST RIGHT", "JUSTIFIED RIGHT"))))
                literal = None
            elif self.chance(0.1):
                clauses.append(self.usage("DISPLAY"))
        elif kind == "scaled":
            digits = self.rng.randint(1, 10)
            picture = self.scaled_picture("S" if signed else "", digits)
            usage = self.rng.choice(("", self.comp(digits), self.comp3(), self.sign() if signed else ""))
            clauses += [usage] if usage else []
        elif kind in ("float", "sync-float"):
            picture, literal = None, self.rng.choice(("ZERO", "0", "1.5"))
            clauses.append(self.usage("COMP-1", "COMP-2", "COMPUTATIONAL-1", "COMPUTATIONAL-2"))
            item.sync = kind == "sync-float"
            if item.sync:
                clauses.append(self.synchronized())
        elif kind == "scaled-edited":
            picture = self.scaled_edited()
        elif kind == "edited":
            picture = self.edited_picture()
            if self.chance(0.1) and "*" not in picture:
                clauses.append(self.case("BLANK WHEN ZERO"))
        else:
            digits = self.digits()
            picture = self.number_picture(signed, digits)
            literal = self.rng.choice(("ZERO", "0", "ZEROS"))
            if kind == "sign":
                clauses.append(self.sign())
            elif kind == "comp":
                clauses.append(self.comp(digits))
            elif kind == "native":
                clauses.append(self.usage("COMP-5", "COMPUTATIONAL-5"))
                item.short_native = digits <= 2
            elif kind == "comp3":
                clauses.append(self.comp3())
            elif kind == "sync":
                clauses.append(self.comp(digits))
                clauses.append(self.synchronized())
                item.sync = True
            elif self.chance(0.1):
                clauses.append(self.usage("DISPLAY"))
        if picture:
            clauses.append(self.pic(picture))
        if occurs:
            clauses.append(self.times(occurs))
        self.rng.shuffle(clauses)
        if literal and value and not occurs and self.chance(0.15):
            clauses.append(self.case(self.rng.choice(("VALUE ", "VALUE IS "))) + literal)
        item.clauses = " ".join(clauses)
        return item

    def synchronized(self):
        return self.case(self.rng.choice(("SYNC", "SYNC", "SYNCHRONIZED", "SYNC RIGHT", "SYNC LEFT")))

    def literal(self):
        """A literal of at most 30 bytes, with what would end a statement or a line outside it."""
        mark = self.rng.choice("''\"")
        inside = "".join(self.rng.choice(("St", "a", "4", " ", ". ", ".", "*>", " *> ", "*", "'", '"', "PIC X", "3.5", ". 05 B PIC X", "SEPARATE")) for _ in range(self.rng.randint(1, 6)))
        return mark + inside[:14].replace(mark, mark * 2) + mark

    def valued(self):
        """A text item with a literal as its value, and conditions with literals below it."""
        word = self.case(self.rng.choice(("VALUE ", "VALUE IS "))) + self.rng.choice(("", "", "", "ALL ")) + self.literal()
        item = Item("FILLER" if self.chance(0.08) else self.name(), f"{self.pic('X(30)')} {word}", "text")
        if item.name != "FILLER":
            for _ in range(self.rng.choice((0, 0, 1, 2))):
                values = " ".join(self.literal() for _ in range(self.rng.randint(1, 3)))
                item.conditions.append(f"88 {self.name()} {self.case(self.rng.choice(('VALUE', 'VALUES', 'VALUES ARE')))} {values}.")
        return item

    def condition(self, item):
        """A condition's name below an elementary item."""
        values = ("VALUE 'A'", "VALUES 'A' 'B'", "VALUE 'A' THRU 'F'", "VALUE SPACES") if item.kind == "text" else \
            ("VALUE 1", "VALUES 1 2 3", "VALUE IS 1 THRU 5", "VALUES ARE 1 7")
        item.conditions.append(f"88 {self.name()} {self.rng.choice(values)}.")

    def group(self, children, occurs=None, redefines=None):
        item = Item("FILLER" if self.chance(0.1) and not redefines else self.name(), occurs=occurs, redefines=redefines, children=children)
        clauses = []
        if redefines:
            clauses.append(f"{'redefines' if self.number % 5 == 0 else 'REDEFINES'} {redefines}")
        if occurs:
            clauses.append(self.times(occurs))
        item.clauses = " ".join(clauses)
        return item

    def list(self, kinds, least, most):
        return [self.elementary(kinds) for _ in range(self.rng.randint(least, most))]

    def nested(self, kinds, depth, tables, least=1, most=4, redefines=False):
        """A list of items and groups; `tables` is how many OCCURS may still stand one in the other."""
        out = []
        for _ in range(self.rng.randint(least, most)):
            occurs = self.rng.randint(1, 6) if tables and self.chance(0.45) else None
            if depth and self.chance(0.5):
                made = self.group(self.nested(kinds, depth - 1, tables - 1 if occurs else tables, 1, 4, redefines), occurs)
            else:
                made = self.elementary(kinds, occurs)
            out.append(made)
            if redefines and not occurs and made.name != "FILLER" and self.chance(0.6):
                out += self.redefiners(made)
        return out

    # -------------------------------------------------- REDEFINES

    def redefiners(self, base):
        """Items that redefine `base`, none of them longer: as text of 1 byte, as a copy of its lists with other names, or as a table."""
        out = []
        target = base.name                          # a redefiner that is as long may be redefined too
        for _ in range(self.rng.choice((1, 1, 2, 3))):
            form = self.rng.randrange(4)
            if form == 0:
                picture = self.pic(self.rng.choice(("X", "9", "A", "S9", "Z", "V9")))
                out.append(Item(self.name(), f"REDEFINES {target} {picture}", "byte", redefines=target))
            elif form == 1:
                out.append(self.group([Item(self.name(), self.pic("X"), "byte")], redefines=target))
            elif form == 2:
                out.append(self.copy(base, target))
            else:
                out.append(self.group([self.copy(base)], redefines=target))
            target = out[-1].name if form >= 2 and self.chance(0.2) else base.name
        return out

    def copy(self, item, redefines=None):
        """The same item with new names."""
        clauses = item.clauses.split(" VALUE")[0].split(" value")[0]
        if redefines:
            clauses = f"REDEFINES {redefines} {clauses}"
        names = {}
        children = []
        for child in item.children:
            made = self.copy(child)
            names[child.name] = made.name
            if child.redefines:
                made.redefines = names[child.redefines]
                made.clauses = "REDEFINES " + made.redefines + " " + " ".join(made.clauses.split()[2:])
            children.append(made)
        made = Item(self.name(), clauses, item.kind, occurs=item.occurs, redefines=redefines, children=children)
        words = made.clauses.split()
        for i, word in enumerate(words):            # an index has a name of its own
            if word.upper() == "INDEXED":
                at = i + 2 if words[i + 1].upper() == "BY" else i + 1
                words[at] = self.name()
        made.clauses = " ".join(words)
        return made


PLAIN = ("text", "display", "sign", "comp", "comp3", "edited")


def usages(m):
    return m.list(("text", "display", "comp", "comp3"), 3, 14)


def signs(m):
    return m.list(("sign", "sign", "display", "comp", "comp3"), 3, 12)


def edited(m):
    return m.list(("edited",), 3, 14)


def scaled(m):
    """P in pictures, where COBOL allows it."""
    return m.list(("scaled", "scaled", "scaled-edited", "display"), 3, 12)


def long_numbers(m):
    """Numbers of 19 to 31 digits."""
    return [m.long_item() for _ in range(m.rng.randint(2, 10))]


def groups(m):
    return m.nested(PLAIN, 5, 0, 2, 5)


def group_usages(m):
    """Usages on groups and on the record; members name none, one of their own, or DISPLAY. Text, edited items and signs
    stand under DISPLAY alone."""
    def said(usage):
        return {"DISPLAY": lambda: m.usage("DISPLAY"), "COMP": lambda: m.comp(1), "COMP-3": m.comp3}[usage]()

    def member(usage, occurs):
        item = m.elementary(("display", "display", "display", "comp", "comp3", "text", "edited", "sign"), occurs)
        if usage != "DISPLAY" and item.kind in ("text", "edited", "sign") and "DISPLAY" not in item.clauses.upper():
            item.clauses = f"{said('DISPLAY')} {item.clauses}"
        return item

    def members(depth, usage):
        out = []
        for _ in range(m.rng.randint(1, 4)):
            occurs = m.rng.randint(1, 4) if m.chance(0.2) else None
            if depth and m.chance(0.55):
                own = m.rng.choice((None, None, "DISPLAY", "COMP", "COMP", "COMP-3", "COMP-3"))
                out.append(m.group(members(depth - 1, own or usage), occurs))
                if own:
                    out[-1].clauses = f"{out[-1].clauses} {said(own)}".strip()
            else:
                out.append(member(usage, occurs))
        return out

    usage = m.rng.choice((None, None, "DISPLAY", "COMP", "COMP-3"))
    m.root_usage = said(usage) if usage else ""
    return members(4, usage or "DISPLAY")


def floats(m):
    """Floats in the record's own list, with SYNC and without, and in groups, some of which name the usage of all floats
    in them."""
    def members(depth, named):
        out = []
        for _ in range(m.rng.randint(1, 4)):
            occurs = m.rng.randint(1, 4) if m.chance(0.2) else None
            if depth and m.chance(0.4):
                usage = m.usage("COMP-1", "COMP-2") if m.chance(0.6) else ""
                out.append(m.group(members(depth - 1, named or bool(usage)), occurs))
                out[-1].clauses = f"{out[-1].clauses} {usage}".strip()
            elif named and m.chance(0.6):
                out.append(Item(m.name(), m.times(occurs) if occurs else "", "float", occurs=occurs))
            else:
                out.append(m.elementary(("float",) if named else ("float", "text", "comp", "comp3", "display"), occurs))
        return out

    items = []
    for _ in range(m.rng.randint(1, 5)):
        if m.chance(0.5):
            items.append(m.elementary(("sync-float", "sync-float", "sync"), m.rng.randint(1, 5) if m.chance(0.3) else None))
        else:
            items += members(2, False)
    return items


def tables(m):
    return m.nested(PLAIN, 4, 3, 2, 5)


def redefines(m):
    return m.nested(PLAIN, 3, 2, 2, 4, redefines=True)


def with_conditions(m, items, most):
    for item, _ in list(walk(items)):
        if item.kind in ("text", "display", "sign", "comp", "comp3", "sync") and item.name != "FILLER":
            for _ in range(m.rng.randint(0, most)):
                m.condition(item)
    return items


def conditions(m):
    return with_conditions(m, m.nested(("text", "display", "comp", "comp3"), 2, 0, 2, 5), 3)


def literals(m):
    """Values in quotes, with periods and `*>` in them."""
    items = []
    for _ in range(m.rng.randint(2, 8)):
        items += [m.valued()] if m.chance(0.6) else m.nested(("text", "display", "comp"), 1, 0, 1, 2)
    return items


def cards(m):
    """What the classes before have, on cards."""
    return with_conditions(m, literals(m) + m.nested(PLAIN, 3, 2, 2, 5, redefines=True), 1)


def sync(m):
    """SYNC items in the record's own list, with groups and tables that hold none between them."""
    items = []
    for _ in range(m.rng.randint(2, 8)):
        if m.chance(0.5):
            items.append(m.elementary(("sync",), m.rng.randint(1, 5) if m.chance(0.3) else None))
        else:
            items += m.nested(PLAIN, 2, 2, 1, 2)
    return items


def sync_aligned(m):
    """SYNC items in a group that starts at a multiple of 8, and nested so."""
    def inner(depth):
        items = m.list(("sync", "sync", "text", "display", "comp3"), 1, 6)
        if depth:
            items.insert(0, m.group(inner(depth - 1)))
        return items
    before = [Item(m.name(), m.pic(p), "text") for p in m.rng.sample(("X(8)", "X(16)", "A(8)", "A(24)"), m.rng.randint(0, 2))]
    return before + [m.group(inner(m.rng.randint(0, 2)))] + m.list(PLAIN, 0, 3)


def mixed(m):
    return with_conditions(m, m.list(("sync", "text"), 0, 4) + m.nested(PLAIN, 4, 3, 3, 6, redefines=True), 1)


def depending(m):
    """A table with DEPENDING ON at the record's end, alone or as the last of the last group."""
    count = Item(m.name(), m.pic(m.rng.choice(("99", "9(3)", "9(4) COMP", "9(3) COMP-3"))), "count")
    least = m.rng.randint(0, 1)
    most = m.rng.randint(2, 9)
    on = m.case(m.rng.choice(("DEPENDING ON ", "DEPENDING "))) + count.name
    times = m.case(f"OCCURS {least} TO {most}" + m.rng.choice(("", " TIMES"))) + " " + on
    if m.chance(0.5):
        table = m.elementary(PLAIN, value=False, name=m.name())
        table.clauses = f"{table.clauses} {times}" if m.chance(0.5) else f"{times} {table.clauses}"
    else:
        table = m.group(m.nested(PLAIN, 1, 1, 1, 4))
        table.clauses = times
    table.occurs, table.depending = most, count.name
    last = table if m.chance(0.6) else m.group(m.list(PLAIN, 0, 3) + [table])
    return m.list(PLAIN, 0, 3) + [count] + m.nested(PLAIN, 2, 1, 0, 3) + [last]


def sync_groups(m):
    """SYNC items in groups that start anywhere."""
    return m.list(("text", "display"), 0, 2) + m.nested(("sync", "text", "comp3", "display"), 3, 0, 2, 4)


def sync_tables(m):
    """SYNC items in groups with OCCURS."""
    return m.list(("text", "display"), 0, 1) + [m.group(m.nested(("sync", "text", "comp3"), 2, 2, 1, 4), m.rng.randint(1, 4))] + m.list(PLAIN, 0, 2)


def native(m):
    """COMP-5 items with any number of digits."""
    return m.list(("native", "native", "text", "comp"), 3, 12)


# A class of copybooks, how it is made, and its share. Those of AGREEING meet no departure.
AGREEING = {"usages": (usages, 3), "signs": (signs, 2), "edited": (edited, 3), "scaled": (scaled, 3),
            "long": (long_numbers, 2), "groups": (groups, 2), "group-usages": (group_usages, 3), "floats": (floats, 3),
            "tables": (tables, 3), "redefines": (redefines, 3),
            "conditions": (conditions, 1), "literals": (literals, 2), "cards": (cards, 3), "sync": (sync, 3), "sync-aligned": (sync_aligned, 2),
            "sync-in-groups": (sync_groups, 2), "mixed": (mixed, 3), "single": (None, 1)}
DEPARTURES = {"depending": (depending, 2), "comp-5": (native, 1), "sync-in-tables": (sync_tables, 2)}


def number_levels(rng, items, level):
    """The levels of a list and below it: one level for each list, each deeper than the last, up to 49."""
    for item in items:
        item.level = level
    for item in items:
        if item.children:
            number_levels(rng, item.children, min(level + rng.choice((1, 2, 5)), 48) if level < 48 else 49)


MOST_STATEMENTS = 800                               # more are 14
MOST_BYTES = 65535                                  # more are 1


def make(number, family, seed):
    """A copybook that is not too long."""
    rng = random.Random(f"{seed} {number} {family}")
    made = made_from(rng, number, family)
    while len(made.text()) > MOST_BYTES:
        made = made_from(rng, number, family)
    return made


def made_from(rng, number, family):
    m = Maker(rng, number)
    if family == "single":                          # one item that is the record, at level 1 or 77
        item = m.elementary(PLAIN, name=m.name())
        item.level = rng.choice((1, 77))
        return Copybook(number, family, [item], True, rng.getrandbits(32))
    maker = (AGREEING | DEPARTURES)[family][0]
    items = maker(m)
    while sum(1 for _ in walk(items)) >= MOST_STATEMENTS:     # the root is one more
        items = maker(m)
    if family in DEPARTURES:                        # where a difference is to be explained, each item's width must show
        for item, _ in walk(items):
            if item.name == "FILLER":
                item.name = m.name()
    root = len(items) == 1 or bool(m.root_usage) or m.chance(0.8)
    if root:
        number_levels(rng, items, rng.choice((2, 3, 5, 5, 5, 10)))
        items = [Item(m.name(), m.root_usage, level=1, children=items)]
    else:
        number_levels(rng, items, rng.choice((2, 3, 5, 5)))
    return Copybook(number, family, items, root, rng.getrandbits(32))


def generate(count, seed):
    """`count` copybooks, the classes by turns as their shares say."""
    turns = [name for name, (_, share) in (AGREEING | DEPARTURES).items() for _ in range(share)]
    return [make(i, turns[i % len(turns)], seed) for i in range(count)]
