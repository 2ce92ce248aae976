"""Copybooks and pictures to compare with, made from a seed: `generate`.

Where each thing that a comparison must cover is made, in `written` and by the makers of `copybooks` and `pictures`:
  folds with repeated names, own-name groups in the same and in other case, redefiners of redefiners, DEPENDING ON
    inside folds, names that differ only in case                        folded, FOLDS
  many REDEFINES among many siblings, near and far                      redefined.Maker
  absent names beside FILLER                                            fillers, FOLDS
  periods and `*>` in every place, comment lines, CR LF, VT, FF, TAB    at_every_place, marked, spread
  bare clauses at a statement's end                                     bare_clauses
  repeated clauses, SEPARATE in odd places and after VALUE              REPEATED, soup
  literals after VALUE: periods, `*>`, white space and other marks in them, doubled and open ones; marks before VALUE;
    VALUE as a name, a target, a picture                                QUOTED, quoted
  floats, aligned or not, repeated, redefined and redefining, of groups; with pictures, taken back or not
                                                                        FLOATS, floats
  usages on groups, on dropped roots, taken back by DISPLAY, with SYNC, over text and edited items; several usage words;
    DISPLAY where no clause begins                                      USAGES, usages
  cards: sequence numbers, indicators, text behind column 72, words cut there, comments between words, short and empty
    lines, carriage returns                                             CARDS, cards
  level 88, levels 0 255 256 +05 0005                                   LEVELS, levels
  counts 0, +3, around 2^31 and 2^64; sums around 2^31                  COUNTS, counts, LARGE
  dropped roots with clauses                                            ROOTS, nested
  two refusals in one copybook                                          ORDER, damaged
  nested groups with SYNC items                                         nested; depth 64 and 65: chains
  damaged copies of good copybooks                                      damaged
  SYNC items in groups and tables, slack at the end of a group, 29 behind slack, 28 before a group's list
                                                                        ALIGNED, aligned.Maker
  801 statements, 65,536 bytes, bytes over 127                          edges, marked
  pictures: every symbol alone, pairs                                   alone, picture_pair
    floats, CR and DB split by repeats, zero repeats, counts, stray brackets
                                                                        PICTURES, picture_odd
    white space around and inside the brackets, lower case              SPACED, picture_odd
    every usage and sign                                                EVERY, picture
    with P, and around the limits of 27                                 with_scale, at_limit
"""

import collections

from makers import written
from makers.copybooks import Maker


class Input(collections.namedtuple("Input", "text usage sign family")):
    """A copybook (usage None), or a picture with a usage and a sign. The text is bytes."""

    def request(self):
        word = "C" if self.usage is None else f"P {self.usage} {self.sign}"
        return f"{word} {self.text.hex()}"

    def __str__(self):
        text = repr(self.text)[1:]
        shown = text if len(text) < 2000 else f"{text[:1000]} .. {text[-200:]} ({len(self.text)} bytes)"
        which = "copybook" if self.usage is None else f"picture, usage {self.usage}, sign {self.sign}"
        return f"{which} [{self.family}]: {shown}"


def written_copybooks(shuffled):
    lists = [("fold", written.FOLDS), ("repeated", written.REPEATED), ("root", written.ROOTS), ("order", written.ORDER),
             ("large", written.LARGE), ("aligned", written.ALIGNED), ("good", written.GOOD), ("quoted", written.QUOTED), ("usage", written.USAGES),
             ("float", written.FLOATS), ("chains", written.chains())]
    combined = [written.edges, written.at_every_place, written.bare_clauses, written.levels, written.counts]
    return shuffled(lists) + shuffled([(f.__name__, f()) for f in combined])


def written_pictures(maker, shuffled):
    lists = [("written", written.PICTURES), ("spaced", written.SPACED), ("alone", written.alone())]
    pictures = [(*p, maker.usage(), maker.sign()) for p in shuffled(lists)]
    pictures += [("every", text, usage, sign) for text in written.EVERY for usage in range(3) for sign in range(5)]
    maker.r.shuffle(pictures)
    return pictures


def generate(count, seed):
    """Different inputs, a third of them pictures. Up to two fifths are those of `written`: the lists first, then some
    of what is made in every combination. The others are random."""
    m = Maker(seed)

    def shuffled(parts):
        out = [(family, text) for family, texts in parts for text in texts]
        m.r.shuffle(out)
        return out

    copybooks, pictures = written_copybooks(shuffled), written_pictures(m, shuffled)
    third = count // 3
    inputs = {}

    def put(family, text, usage=None, sign=None):
        # A character is a byte here; over 127, no UTF-8.
        i = Input(text.encode("latin-1"), usage, sign, family)
        inputs.setdefault(i[:3], i)

    for row in copybooks[:(count - third) * 2 // 5] + pictures[:third * 2 // 5]:
        put(*row)
    by_hand = len(inputs)
    while len(inputs) < count:
        if (len(inputs) - by_hand) % 3 == 0:
            put(*m.picture())
        else:
            put(*(m.quoted() if m.chance(0.1) else m.usages() if m.chance(0.1) else m.floats() if m.chance(0.05)
                  else m.copybook()))
    return list(inputs.values())
