"""The details of a copybook's entries: docs/RULES.md 9, a head of 17 bytes, and 63 for each entry of the listing, in its
order.

`answer(text)` is what the details have to answer, as numbers: `1 LENGTH` and the bytes, or a refusal.
"""

import struct

from readings import Refused
from readings.layout import four, placed, record, root_and_list, span


def below(e):
    """How many entries stand below one, at any depth."""
    return sum(1 + below(m) for m in e.members)


def head(root, entries):
    """The dropped root, if one was, and the number of entries."""
    dropped = struct.pack("<IB", root.at, root.level) + span(root.name) if root else bytes(13)
    return dropped + four(len(entries))


def detail(e, depth, first):
    """The 63 bytes of an entry at a depth that starts at that byte of the record."""
    begin = struct.pack("<I3BIQI", e.at, e.level, depth, e.made, below(e), first, e.slack)
    words = span(e.picture) + span(e.over) + span(e.depending)
    return begin + words + four(e.slack_at_end) + bytes(e.digits) + span(e.usage) + bytes([e.sign])


def answer(text: bytes) -> list[int]:
    try:
        entries = list(placed(record(text)))
    except Refused as r:
        return r.numbers()
    made = head(root_and_list(text)[0], entries) + b"".join(detail(*entry) for entry in entries)
    return [1, len(made), *made]
