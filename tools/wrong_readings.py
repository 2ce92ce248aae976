"""Wrong readings, to see that tools/compare notices: for each WHAT some, each put in place of the right one while its
context lasts.
"""

import functools
from unittest import mock

from readings import details, extract, key, layout, lines, owner, picture, reader, reasons, wording


def instead(module, name, value):
    """A context in which this stands for what the module has by that name."""
    return functools.partial(mock.patch.object, module, name, value)


def changed(module, name, change):
    """A context in which a function of the module answers what this makes of its answer."""
    right = getattr(module, name)
    return instead(module, name, lambda *given: change(right(*given)))


def slack_as_piece(found):
    return found if found[0] == owner.PIECE else (owner.PIECE, found[1], 0, 0)


def usages_without(left_out):
    return {word: usage for word, usage in reader.USAGES.items() if word != left_out}


def own_usage(s, _kept):
    return {"held": reader.HELD[s.usage or reader.NAMED_DISPLAY], "held_word": s.word}


def name_without_case(base):
    return base.kind == picture.GROUP and any(m.called().upper() == base.called().upper() for m in base.members)


def from_the_list(nodes, depth, _base, right=layout.laid):
    """A list laid as if it started the record."""
    return right(nodes, depth, 0)


def filled_under_depending(s, inner, width):
    return -width % layout.largest_alignment(inner) if s.occurs is not None else 0


def filled_without_occurs(s, inner, width):
    return 0 if s.depending else -width % layout.largest_alignment(inner)


def first_alignment(nodes, right=layout.largest_alignment):
    return right(nodes[:1])


def redefiner_aligned(s, inner, right=layout.alignment):
    return right(s._replace(redefines=None), inner)


def by_the_picture(found):
    """What keys must agree in, with the picture as it is written in place of the mask."""
    return found.offset, found.width, found.kind, list(map(int, found.details)), found.picture and found.picture.text


def at_the_last_word(read):
    """Statements that end with their last word, and not at their period."""
    return [(words[-1].at + len(words[-1].text), words) for _, words in read]


def first_as_highest(values):
    """The sums of all subsets, with the first item as the highest bit."""
    out = [0]
    for value in reversed(values):
        out += [value + before for before in out]
    return out


WRONG = {
    "copybooks": {
        "29 a byte later": instead(layout, "LARGEST", 2 ** 31),
        "groups nested to 65": instead(layout, "MOST_DEPTH", 65),
        "no entries below": instead(details, "below", lambda _: 0),
        "slack as a piece": changed(owner, "find", slack_as_piece),
    },
    "quoted": {
        "no literals": instead(reader, "after_value", lambda _: False),
        "VALUES is no word for a value": instead(reader, "VALUE", ("VALUE",)),
        "VALUE as a name counts": instead(reader, "after_value",
                                          lambda words: any(w.text.upper() == b"VALUE" for w in words)),
        "a period always ends a statement": instead(reader, "ends_statement", lambda *_: True),
    },
    "usages": {
        "no usage inherited": instead(reader, "held", own_usage),
        "BINARY is no usage word": instead(reader, "USAGES", usages_without("BINARY")),
        "DISPLAY is no usage word": instead(reader, "USAGES", usages_without("DISPLAY")),
    },
    "floats": {
        "none aligned": instead(layout, "ALIGNABLE", (picture.BINARY,)),
        "COMP-2 as COMP-1": instead(reader, "HELD", reader.HELD | {reader.NAMED_COMP2: 3}),
        "kind 3": instead(layout, "FLOAT", picture.BINARY),
    },
    "redefined": {
        "own names without case": instead(layout, "already_folded", name_without_case),
        "nothing folded": instead(layout, "folded", list),
    },
    "aligned": {
        "alignment from the list's start": instead(layout, "laid", from_the_list),
        "no slack at an end": instead(layout, "slack_at_end", lambda *_: 0),
        "slack at an end under DEPENDING ON": instead(layout, "slack_at_end", filled_under_depending),
        "slack at an end without OCCURS": instead(layout, "slack_at_end", filled_without_occurs),
        "an end by the first item's alignment": instead(layout, "largest_alignment", first_alignment),
        "redefiners count for an end": instead(layout, "alignment", redefiner_aligned),
        "no head": changed(details, "head", lambda head: bytes(13) + head[13:]),
        "29 a byte later": instead(layout, "LARGEST", 2 ** 31),
    },
    "cards": {
        "column 73 is read": instead(reader, "LAST_COLUMN", 73),
        "a small d as D": instead(reader, "INDICATORS", b" */Dd"),
        "a debugging line is 51": instead(reader, "INDICATORS", b" */"),
    },
    "reasons": {
        "another kind for slack": instead(reasons, "SLACK", 6),
        "a group's own reason left out": changed(reasons, "chains", lambda chains: {
            at: [part for part in chain if part[0] != reasons.INSIDE] for at, chain in chains.items()}),
    },
    "words": {
        "a statement ends with its last word": changed(wording, "statements", at_the_last_word),
        "level 88 has no words": changed(wording, "statements", lambda read: [
            (end, words) for end, words in read if words[0].text != b"88"]),
        "no literals": instead(reader, "after_value", lambda _: False),
    },
    "extracts": {
        "17 items": instead(extract, "MOST_ITEMS", 17),
        "a weight of 1,000 refused": instead(extract, "MOST_WEIGHT", 999),
        "the first item as the highest bit": instead(extract, "sums", first_as_highest),
    },
    "keys": {
        "sets of 17": instead(key, "MOST", 17),
        "sets of 1": instead(key, "FEWEST", 1),
        "edited keys agree in their pictures": instead(key, "compared", by_the_picture),
        "any details agree": changed(key, "compared", lambda facts: (*facts[:3], facts[4])),
    },
    "pictures": {
        "32 digits": instead(picture, "MOST_DIGITS", 32),
        "a mask of 256 bytes": instead(picture, "LONGEST_MASK", 256),
        "a mask without P": changed(picture, "mask", lambda mask: mask.replace(b"P", b"")),
    },
    "printed": {
        "another word for a decimal": instead(lines, "WORDS", lines.WORDS | {picture.DECIMAL: "decimal"}),
        "slack as a piece": changed(owner, "runs", lambda runs: [[owner.PIECE, *run[1:]] for run in runs]),
    },
}
