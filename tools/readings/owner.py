"""A record's bytes and whose each is: docs/RULES.md 10, over the kept statements, and the widths and alignments of items.

It uses no offset. `laid(text)` lays the whole record byte by byte; `answer(text, position)`, or `answers(text)` of many
positions, is what the byte owner has to answer, as numbers: `1 ENTRY FIRST PLACE`, `2 ENTRY` for slack, or a refusal.
It counts bytes instead of laying them, so that a record may be huge: all occurrences of an item are as long as its
first. Both hold their length against the layout's.
"""

from collections.abc import Callable

from readings import Refused, layout

PIECE, SLACK = 1, 2


# ---------------------------------------------------------------- the statements


def size(nodes):
    """How many entries a list has, those of its groups among them."""
    return sum(1 + size(inner) for _, inner in nodes)


def flat(nodes):
    """The statements of a list and below, each with its own list, in the order of their entries."""
    for s, inner in nodes:
        yield s, inner
        yield from flat(inner)


def overlaid(nodes):
    """Whether a statement has a REDEFINES or a DEPENDING ON."""
    return any(s.redefines or s.depending for s, _ in flat(nodes))


# ---------------------------------------------------------------- laying


def lay(nodes, number, record, paths, around=""):
    """Lays a sibling list whose first entry has this number at the end of the record, item by item in copybook order;
    `paths` says for each byte which occurrence of what it is."""
    for s, inner in nodes:
        name = around + s.called().decode()

        def slack(multiple, start, path):
            """The fewest bytes that bring what stands from a place on to a multiple."""
            while (len(record) - start) % multiple:
                record.append((SLACK, number))
                paths.append(path)

        slack(layout.alignment(s, inner), 0, name)  # An aligned item first lays slack, by its place in the record.
        for k in range(s.count()):  # Then each item is laid count times:
            first = len(record)
            path = name if s.occurs is None else f"{name}({k + 1})"
            if inner:  # a group as its whole list, slack and all, with OCCURS up to a multiple of the largest alignment
                lay(inner, number + 1, record, paths, path + ".")
                if s.occurs is not None and not s.depending:
                    slack(layout.largest_alignment(inner), first, path)
                continue
            for inside in range(layout.elementary(s).width):  # an elementary item as one piece of its width.
                record.append((PIECE, number, first, inside))
                paths.append(path)
        number += 1 + size(inner)


def same_length(text, bytes_laid, top):
    """The layout must have so many bytes too."""
    if bytes_laid != layout.length(top):
        raise AssertionError(f"{text!r}: {bytes_laid} bytes are laid, and the layout has {layout.length(top)}")


def laid(text):
    """The owner of each byte of the record, in order, and which occurrence of what it is."""
    record, paths = [], []
    lay(layout.top_list(text), 0, record, paths)
    same_length(text, len(record), layout.record(text))
    return record, paths


def runs(record):
    """The pieces and the slack in order: mark, entry, width."""
    out = []
    for p, owner in enumerate(record):
        if owner[0] == PIECE and owner[3] or owner[0] == SLACK and p and record[p - 1] == owner:
            out[-1][2] += 1
        else:
            out.append([owner[0], owner[1], 1])
    return out


# ---------------------------------------------------------------- counting


def widths(s, inner, first):
    """How many bytes an occurrence of an item lays there, and how many of these before the slack at its end."""
    width = extent(inner, first) if inner else layout.elementary(s).width
    return width + layout.slack_at_end(s, inner, width), width


def extent(nodes, first):
    """How many bytes a list lays whose first byte is that byte of the record."""
    at = first
    for s, inner in nodes:
        at += -at % layout.alignment(s, inner)
        at += widths(s, inner, at)[0] * s.count()
    return at - first


def find(nodes, number, first, p):
    """The owner of byte p of the record, which a list has whose first byte is byte `first`."""
    at = first
    for s, inner in nodes:
        at += -at % layout.alignment(s, inner)
        if p < at:
            return SLACK, number
        whole, width = widths(s, inner, at)
        if p < at + whole * s.count():
            inside = (p - at) % whole
            start = p - inside
            if not inner:
                return PIECE, number, start, inside
            return find(inner, number + 1, start, p) if inside < width else (SLACK, number)
        at += whole * s.count()
        number += 1 + size(inner)
    raise AssertionError


def answers(text: bytes) -> Callable[[int], list[int]]:
    """What the byte owner has to answer, as a function of the position."""
    try:
        top = layout.record(text)
    except Refused as r:  # The reader's and the layout's refusals come before 40 and 41.
        numbers = r.numbers()
        return lambda _: numbers
    nodes = layout.top_list(text)
    if overlaid(nodes):
        return lambda _: [0, 40, 0, 0]
    length = extent(nodes, 0)
    same_length(text, length, top)
    return lambda position: [0, 41, 0, 0] if position >= length else list(find(nodes, 0, 0, position))


def answer(text: bytes, position: int) -> list[int]:
    return answers(text)(position)
