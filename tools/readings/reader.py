"""A copybook's kept statements, read by its words: docs/RULES.md 1 to 3 and 14, and where a call is turned down.

`answer(text)` is what the reader has to answer, as numbers. `0 NUMBER POSITION NEEDED` is a refusal. `1 COUNT` is
followed by the statements, 17 numbers for each: level, position, parent (its row and 1, or 0), name; picture, usage,
sign, sync, occurs mark and count, DEPENDING ON name, REDEFINES name; the usage that holds. A name or a picture is its
start and its length, both 0 if absent. Usage: 0 none said, 1 COMP-3, 2 COMP, 3 DISPLAY, 4 COMP-1, 5 COMP-2; the one
that holds is 0 DISPLAY, 1 COMP-3, 2 COMP, 3 COMP-1 or 4 COMP-2. Sign: 0 none said, else 1, plus 1 for LEADING, plus 2
for SEPARATE.

A text of the class `Cards` is on cards, and every position is one in the cards.
"""

import collections
import re

from readings import Refused

WHITE = b"\t\n\x0b\x0c\r "
MOST_BYTES, MOST_STATEMENTS = 65535, 800

# The usages that a statement names, each with the one that holds for it; 0 is none.
NAMED_COMP3, NAMED_COMP, NAMED_DISPLAY, NAMED_COMP1, NAMED_COMP2 = 1, 2, 3, 4, 5
HELD = {NAMED_DISPLAY: 0, NAMED_COMP3: 1, NAMED_COMP: 2, NAMED_COMP1: 3, NAMED_COMP2: 4}
SPELLINGS = {
    NAMED_COMP3: ("COMP-3", "COMPUTATIONAL-3", "PACKED-DECIMAL"),
    NAMED_COMP: ("COMP", "COMPUTATIONAL", "COMP-4", "COMPUTATIONAL-4", "COMP-5", "COMPUTATIONAL-5", "BINARY"),
    NAMED_DISPLAY: ("DISPLAY",),
    NAMED_COMP1: ("COMP-1", "COMPUTATIONAL-1"),
    NAMED_COMP2: ("COMP-2", "COMPUTATIONAL-2"),
}
USAGES = {word: usage for usage, words in SPELLINGS.items() for word in words}
VALUE = ("VALUE", "VALUES")

# What may stand in column 7 of a card, and the last of the columns that hold code.
INDICATORS, LAST_COLUMN = b" */D", 72

Word = collections.namedtuple("Word", "at text")
Literal = collections.namedtuple("Literal", "text")
Stop = collections.namedtuple("Stop", "at")


class Statement(collections.namedtuple(
        "Statement", "level at depth parent name picture usage word back float sign sync occurs depending redefines "
        "held held_word")):
    """A kept statement. `word` names its usage, `held_word` the one that holds for it. `back`: DISPLAY took another usage
    back; `float`: a word named one."""

    def called(self):
        return called(self.name)

    def count(self):
        return 1 if self.occurs is None else self.occurs


class Cards(bytes):
    """A copybook on cards."""


def called(name: Word | None) -> bytes:
    """What an item of this name is called: an absent name is FILLER."""
    return name.text if name else b"FILLER"


# ---------------------------------------------------------------- Cards


def code(at, card):
    """What is read of a card at this position, and where that begins; nothing of a card that is no code."""
    columns = card[:-1] if card.endswith(b"\r") else card  # A carriage return that ends a line is no column.
    if len(columns) < 7:  # A line shorter than 7 columns is blank.
        return at, b""
    if columns[6] not in INDICATORS:  # The first other indicator, the hyphen included, is 51 at that byte.
        raise Refused(51, at + 6)
    # Columns 1 to 6 and those after 72 are ignored. Column 7 is an indicator: byte 32 for code.
    return at + 7, columns[7:LAST_COLUMN] if columns[6:7] == b" " else b""


# ---------------------------------------------------------------- Text


def lines(text):
    """The lines that are read, each with its position."""
    start, read = 0, []
    for line in text.split(b"\n"):  # Lines end at byte 10.
        read.append(code(start, line) if isinstance(text, Cards) else (start, line))
        start += len(line) + 1
    # A line whose first non-blank is `*` is dropped.
    return [(at, line) for at, line in read if not line.lstrip(WHITE).startswith(b"*")]


def ends_statement(line, i):
    """Whether a period before this place of a line ends a statement: only before white space or the end."""
    return i == len(line) or line[i] in WHITE or line.startswith(b"*>", i)


def after_value(words):
    """A word VALUE or VALUES that is third or later in its statement was said."""
    return any(word.text.upper().decode("latin-1") in VALUE for word in words[2:])


def parts(text):
    """The words; the periods that end statements; and as `Literal` the bytes between the marks of each literal."""
    words = []
    for start, line in lines(text):
        i, word = 0, b""
        while i <= len(line):
            if i < len(line) and line[i] in b"'\"" and after_value(words):
                # Each quote or apostrophe up to the statement's end opens a literal that closes at the same mark.
                close = line.find(line[i:i + 1], i + 1)
                if close < 0:  # A literal must close on its own line: the first unclosed one is 50 at its opening mark.
                    raise Refused(50, start + i)
                yield Literal(line[i + 1:close])
                # Neither a period nor `*>` counts inside it; white space still parts words.
                for i in range(i, close + 1):
                    word, done = (b"", word) if line[i] in WHITE else (word + line[i:i + 1], b"")
                    if done:
                        words.append(Word(start + i - len(done), done))
                        yield words[-1]
                i += 1
                continue
            cut = i == len(line) or line.startswith(b"*>", i)  # From `*>` on, a line is cut; each line ends in a blank.
            stop = not cut and line[i] == ord(".") and ends_statement(line, i + 1)
            if not cut and not stop and line[i] not in WHITE:
                word += line[i:i + 1]
            elif word:
                words.append(Word(start + i - len(word), word))
                yield words[-1]
                word = b""
            if stop:
                words = []
                yield Stop(start + i)
            if cut:
                break
            i += 1


def ended(text):
    """Where each statement ends, at its period or with the text, and its words."""
    words = []
    for part in parts(text):
        if isinstance(part, Word):
            words.append(part)
        elif isinstance(part, Stop):
            if words:  # Empty statements are skipped;
                yield part.at, words
            words = []
    if words:  # a last one may lack its period.
        yield len(text), words


def statements(text):
    """Where each statement ends, and its words; 1, 2, 51 and 50 in their order."""
    if len(text) > MOST_BYTES:
        raise Refused(1, 0)
    for at, byte in enumerate(text):
        if byte > 127:
            raise Refused(2, at)
    return list(ended(text))  # 50 is looked for in the whole text, before the first 10.


# ---------------------------------------------------------------- Statement


def number(word, limit):
    """A number below the limit, leading `+` and zeros allowed; or None."""
    if re.fullmatch(rb"\+?[0-9]+", word.text) and int(word.text) < limit:
        return int(word.text)
    return None


class Clauses:
    """What the words of a statement after its name say."""

    def __init__(self, words):
        self.words, self.next = words, 2
        self.upper = [w.text.upper().decode("latin-1") for w in words]
        self.said = dict(picture=None, usage=0, word=None, back=False, float=False, sign=0, sync=0, occurs=None,
                         depending=None, redefines=None)

    def step_over(self, *keys):
        """Whether the next word is one of these, which is then passed."""
        found = self.next < len(self.words) and self.upper[self.next] in keys
        self.next += found
        return found

    def take(self):
        """The next word, or None at the statement's end."""
        word = self.words[self.next] if self.next < len(self.words) else None
        self.next += 1
        return word

    def needed(self, found, refusal):
        if found is None:
            raise Refused(refusal, self.words[0].at)
        return found

    def count(self, refusal):
        word = self.needed(self.take(), refusal)
        return self.needed(number(word, 2 ** 64), refusal)

    def picture(self):
        self.step_over("IS")
        self.said["picture"] = self.take()

    def redefines(self):
        self.said["redefines"] = self.take()

    def occurs(self):
        count = self.count(11)
        if self.step_over("TO"):
            count = self.count(12)
        self.step_over("TIMES")
        if self.step_over("DEPENDING"):
            self.step_over("ON")
            self.said["depending"] = self.needed(self.take(), 13)
        self.said["occurs"] = count

    def usage(self, named):
        """Of several usage words in a statement the last holds."""
        if named == NAMED_DISPLAY and self.said["usage"] not in (0, NAMED_DISPLAY):
            self.said["back"] = True
        if named in (NAMED_COMP1, NAMED_COMP2):
            self.said["float"] = True
        self.said["usage"], self.said["word"] = named, self.words[self.next - 1]

    def sign(self):
        """SEPARATE counts anywhere at or after the word following SIGN [IS]."""
        self.step_over("IS")
        after = self.upper[self.next:]
        self.said["sign"] = 1 + (after[:1] == ["LEADING"]) + 2 * ("SEPARATE" in after)
        self.next += 1

    def sync(self):
        self.said["sync"] = 1
        self.step_over("LEFT", "RIGHT")

    def read(self):
        while self.next < len(self.words):
            key = self.upper[self.next]
            self.next += 1
            if key in VALUE:  # VALUE ends the reading.
                break
            if key in USAGES:
                self.usage(USAGES[key])
            elif key in CLAUSES:
                CLAUSES[key](self)
        return self.said


CLAUSES = {"PIC": Clauses.picture, "PICTURE": Clauses.picture, "REDEFINES": Clauses.redefines,
           "OCCURS": Clauses.occurs, "USAGE": lambda clauses: clauses.step_over("IS"), "SIGN": Clauses.sign,
           "SYNC": Clauses.sync, "SYNCHRONIZED": Clauses.sync}


# ---------------------------------------------------------------- Levels, and the refusals in their order


def held(s, kept):
    """The usage that holds for a statement: its own, else that of the nearest group above it that names one; DISPLAY
    where none does. And the word that names it."""
    while not s.usage and s.parent:
        s = kept[s.parent - 1]
    return {"held": HELD[s.usage or NAMED_DISPLAY], "held_word": s.word}


def kept_statements(text: bytes) -> list[Statement]:
    """The statements that are kept; 1, 2, 51, 50 and 10 to 14 in their order."""
    kept, open_levels = [], []
    for _, words in statements(text):
        level = number(words[0], 256)  # First word: level, 0 to 255.
        if level is None:
            raise Refused(10, words[0].at)
        if level == 88:  # Level 88 is skipped.
            continue
        said = Clauses(words).read()
        if len(kept) == MOST_STATEMENTS:  # The 801st kept statement, after its clauses.
            raise Refused(14, words[0].at)
        # A statement's parent is the nearest earlier open one with a smaller level.
        while open_levels and open_levels[-1][0] >= level:
            open_levels.pop()
        name = words[1] if len(words) > 1 else None  # Second word: name, whatever it says.
        parent = open_levels[-1][1] if open_levels else 0
        kept.append(Statement(level, words[0].at, len(open_levels), parent, name, **said, held=None, held_word=None))
        open_levels.append((level, len(kept)))
    return [s._replace(**held(s, kept)) for s in kept]


def numbers(s):
    def span(word):
        return [word.at, len(word.text)] if word else [0, 0]

    occurs = [0, 0] if s.occurs is None else [1, s.occurs]
    clauses = [*span(s.picture), s.usage, s.sign, s.sync, *occurs, *span(s.depending), *span(s.redefines)]
    return [s.level, s.at, s.parent, *span(s.name), *clauses, s.held]


def answer(text: bytes) -> list[int]:
    """What the reader has to answer."""
    try:
        kept = kept_statements(text)
    except Refused as r:
        return r.numbers()
    return [1, len(kept)] + [n for s in kept for n in numbers(s)]
