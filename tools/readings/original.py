"""Where the original Rust has an answer, and what it is.

It has none where a literal after VALUE holds a period that would end a statement, or `*>`, or is left open; where a
group names a usage, DISPLAY stands after another usage word, or a word names a float; where a picture has a P; and where
an item below the fields of the record has SYNC, or something is refused inside a group whose target is missing.
`oracle_numbers(text, listing)` reads a listing into what tools/oracle answers to that text.
"""

import re
import struct

from readings import Refused, layout
from readings.layout import top_list
from readings.lines import entries_of, head_of
from readings.owner import flat
from readings.picture import EDITED, GROUP, mask, symbols
from readings.reader import Clauses, Literal, ended, kept_statements, number, parts


def plain_literals(text):
    """Whether no literal holds `*>` or a period that would end a statement, and none is left open."""
    try:
        return not any(isinstance(part, Literal) and re.search(rb"\*>|\.[\t-\r ]", part.text) for part in parts(text))
    except Refused:
        return False


def said_in(words):
    """What a statement of these words says, up to where it is refused."""
    clauses = Clauses(words)
    try:
        clauses.read()
    except Refused:
        pass
    return clauses.said


def plain_usages(text):
    """Whether no statement takes another usage back or names a float, those after a refusal included, and no group of
    the kept statements names a usage."""
    try:
        said = [said_in(words) for _, words in ended(text) if number(words[0], 256) != 88]
        if any(s["back"] or s["float"] for s in said):
            return False
        kept = kept_statements(text)
    except Refused:
        return True
    return not any(s.parent and kept[s.parent - 1].usage for s in kept)


def has_scale(picture):
    """Whether a picture has a P, wherever it stands: there the Rust has no answer."""
    return b"P" in picture.upper()


def scaled(text):
    """Whether an elementary item of a copybook has a P in its picture; no where its statements cannot be read."""
    try:
        elementary = [s for s, inner in flat(top_list(text)) if not inner]
    except Refused:
        return False
    return any(s.picture is not None and has_scale(s.picture.text) for s in elementary)


def is_laid(inner, depth):
    """Whether the list of a group is laid out without a refusal. SYNC is in none that this is asked of."""
    try:
        layout.folded(layout.laid(inner, depth, 0)[0]) if inner else None
    except Refused:
        return False
    return True


def none_lost(nodes, depth):
    """Whether no group whose target is missing has a refusal inside, in a list at that depth and below."""
    names = set()
    for s, inner in nodes:
        has_target = not s.redefines or s.redefines.text.upper() in names
        if not (has_target or is_laid(inner, depth + 1)) or not none_lost(inner, depth + 1):
            return False
        names.add(s.called().upper())
    return True


def plain_slack(text):
    """Whether no item below the fields of the record has SYNC, and nothing is refused inside a group whose target is
    missing; no matter where its statements cannot be read."""
    try:
        fields = top_list(text)
    except Refused:
        return True
    return not any(s.sync for _, inner in fields for s, _ in flat(inner)) and none_lost(fields, 0)


def oracle_numbers(text, made):
    """What the oracle answers where this is the listing."""
    out = [1, *head_of(made)]

    def sized(part):
        return [len(part), *part]

    for kind, name, offset, width, mark, count, depending, redefines, rest in entries_of(text, made):
        if kind == GROUP:
            details = struct.unpack("<I", rest)
        elif kind == EDITED:
            start, size = struct.unpack("<2I", rest[3:])
            details = [*rest[:3], *sized(mask(symbols(text[start:start + size], 0)))]
        else:
            details = rest
        out += [*sized(name), offset, width, kind, *details, mark, count, *sized(depending), *sized(redefines)]
    return out
