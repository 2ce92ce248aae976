"""A copybook's layout listing, over its kept statements: docs/RULES.md 5 to 8.

`record(text)` is the folded top list, and `answer(text)` what the layout listing has to answer, as numbers: `1 LENGTH`
and the bytes of the listing, or a refusal.
"""

import dataclasses
import struct

from readings import Refused
from readings.picture import (BINARY, COMP1, COMP2, EDITED, EMBEDDED, FLOAT, GROUP, LEADING, TRAILING, Pictured,
                              pictured)
from readings.reader import called, kept_statements

LARGEST = 2147483647
MOST_DEPTH = 64
ALIGNABLE = (BINARY, FLOAT)


# ---------------------------------------------------------------- offsets and folding


@dataclasses.dataclass
class Entry:
    at: int
    name: object
    offset: int
    width: int
    kind: int
    details: list
    occurs: object
    depending: object
    redefines: object
    picture: object = None
    members: list = dataclasses.field(default_factory=list)
    # what the listing doesn't show: the statement's level and REDEFINES, the slack before it and at the end of each of
    # its occurrences, its digits, the word of the usage that holds, what SIGN says, and whether folding made it
    level: int = 0
    over: object = None
    slack: int = 0
    slack_at_end: int = 0
    digits: tuple = (0, 0, 0)
    usage: object = None
    sign: int = 0
    made: bool = False

    def called(self):
        return called(self.name)

    def total(self):
        return self.width * (1 if self.occurs is None else self.occurs)

    def end(self):
        return self.offset + (0 if self.depending else self.total())


def lists(kept):
    """The kept statements as a forest: pairs of a statement and its own list."""
    roots, path = [], []
    for s in kept:
        del path[s.depth:]
        node = (s, [])
        (path[-1][1] if path else roots).append(node)
        path.append(node)
    return roots


def sign_of(said):
    """The sign that a SIGN clause gives a signed picture; embedded if there is none."""
    return {4: LEADING, 3: TRAILING}.get(said, EMBEDDED)


def elementary(s):
    """What a statement without members holds, by the usage that holds for it."""
    if s.held in (COMP1, COMP2):  # COMP-1 takes 4 bytes and COMP-2 takes 8, neither with a picture.
        if s.picture is not None:
            raise Refused(52, s.at)
        width = 4 if s.held == COMP1 else 8
        return Pictured(FLOAT, [width * 8], width)
    if s.picture is None:
        raise Refused(21, s.at)
    return pictured(s.picture.text, s.held, sign_of(s.sign), s.at)


def alignment(s, inner):
    """What the place of an item in the record must be a multiple of: the width of an elementary SYNC binary or float
    item without REDEFINES, 1 for any other."""
    if inner or s.redefines or not s.sync:
        return 1
    kind, _, width, _ = elementary(s)
    return width if kind in ALIGNABLE else 1


def largest_alignment(nodes):
    """The largest alignment in a list, at any depth."""
    return max((max(alignment(s, inner), largest_alignment(inner)) for s, inner in nodes), default=1)


def slack_at_end(s, inner, width):
    """The slack at the end of each occurrence of an item whose list is so wide: a group with OCCURS, 0 and 1 too, and
    without DEPENDING ON is as wide as a multiple of the largest alignment in it."""
    return -width % largest_alignment(inner) if s.occurs is not None and not s.depending else 0


def laid(nodes, depth, base):
    """The entries of a sibling list before folding, and its width. The list starts at that byte of the record."""
    if depth > MOST_DEPTH:
        raise Refused(20, nodes[0][0].at)
    entries, offsets, cursor, reach = [], {}, 0, 0
    for s, inner in nodes:
        kind, details, width, digits = Pictured(GROUP, [], 0) if inner else elementary(s)
        slack = -(base + cursor) % alignment(s, inner)
        offset = offsets.get(s.redefines.text.upper()) if s.redefines else cursor + slack
        if offset is None:
            raise Refused(28, s.at)
        members, at_end = [], 0
        if inner:  # A group's 28 comes before all of its list, the fold's refusals included, and its 29 after it.
            members, width = laid(inner, depth + 1, base + offset)
            members = folded(members)
            at_end = slack_at_end(s, inner, width)
        e = Entry(s.at, s.name, offset, width + at_end, kind, details, s.occurs, s.depending, s.redefines, s.picture,
                  members, s.level, s.redefines, slack, at_end, digits, s.held_word, s.sign)
        if max(s.occurs or 0, offset, e.width, e.total(), e.end()) > LARGEST:
            raise Refused(29, s.at)
        offsets[e.called().upper()] = offset
        if not s.redefines:
            cursor = e.end()
        reach = max(reach, e.end())
        entries.append(e)
    return entries, reach


def already_folded(base):
    """Whether it is a group with a member of its own name, case included: then it needs no group around it."""
    return base.kind == GROUP and any(m.called() == base.called() for m in base.members)


def folded(entries):
    """Each base with what redefines it in one group."""
    out, bases = [], {}
    for e in entries:
        if not e.redefines:
            bases[e.called().upper()] = len(out)
            out.append(e)
            continue
        place = bases.get(e.redefines.text.upper())
        if place is None:
            out.append(e)
            continue
        base = out[place]
        if e.offset < base.offset:
            raise Refused(30, e.at)

        def rebased(member):
            return dataclasses.replace(member, offset=member.offset - base.offset, redefines=None)

        members = (base.members if already_folded(base) else [rebased(base)]) + [rebased(e)]
        widest = max(m.total() for m in members)
        out[place] = Entry(base.at, base.name, base.offset, widest, GROUP, [], None, None, None, None, members,
                           base.level, made=True)
    return out


def root_and_list(text):
    """The kept statements as a forest; if the only root has children, it is dropped with its clauses, and comes
    first."""
    nodes = lists(kept_statements(text))
    return nodes[0] if len(nodes) == 1 and nodes[0][1] else (None, nodes)


def top_list(text):
    """The kept statements as a forest, without the root that is dropped."""
    return root_and_list(text)[1]


def record(text: bytes) -> list[Entry]:
    """The folded top list."""
    top = folded(laid(top_list(text), 0, 0)[0])
    for e in top:
        if e.end() > LARGEST:
            raise Refused(29, e.at)
    return top


def placed(entries, depth=0, start=0):
    """The entries in the order of the listing, a group before its members, each with its depth and its first byte in
    the record: its offset and those of the groups around it."""
    for e in entries:
        first = start + e.offset
        yield e, depth, first
        yield from placed(e.members, depth + 1, first)


def length(top):
    """The record's length."""
    return max((e.end() for e in top), default=0)


# ---------------------------------------------------------------- the listing


def four(*numbers):
    return struct.pack(f"<{len(numbers)}I", *numbers)


def span(word):
    return four(word.at, len(word.text)) if word else four(0, 0)


def entry_bytes(e):
    occurs = b"\0" + four(0) if e.occurs is None else b"\1" + four(e.occurs)
    head = bytes([e.kind]) + span(e.name) + four(e.offset, e.width) + occurs + span(e.depending) + span(e.redefines)
    if e.kind == GROUP:
        return head + four(len(e.members)) + b"".join(map(entry_bytes, e.members))
    return head + bytes(e.details) + (span(e.picture) if e.kind == EDITED else b"")


def varies(e):
    return bool(e.depending) or any(map(varies, e.members))


def listing(top):
    head = b"\0" + four(length(top)) + bytes([any(map(varies, top))]) + four(len(top))
    return head + b"".join(map(entry_bytes, top))


def answer(text: bytes) -> list[int]:
    try:
        made = listing(record(text))
    except Refused as r:
        return r.numbers()
    return [1, len(made), *made]
