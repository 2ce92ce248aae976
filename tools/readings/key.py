"""The key of a set of copybooks: docs/RULES.md 12, over their folded entries.

`answer(texts, lengths, name)` is what the call has to answer, as numbers: `1 OFFSET WIDTH`, or a refusal.
`why(top, name)` says why one copybook has no key, in a word.
"""

from readings import Refused
from readings.layout import placed, record
from readings.picture import EDITED, GROUP, mask, symbols

FEWEST, MOST = 2, 16
NO_SET, NO_KEY = [0, 56, 0, 0], [0, 57, 0, 0]


def why(top, name):
    """Why these entries of a copybook have no key of that name, or the one that it is."""
    named = [e for e in top if e.called().upper() == name.upper()]
    if len(named) != 1:
        return "several" if named else "none"
    key = named[0]
    if key.kind == GROUP:
        return "a group"
    if key.occurs is not None:
        return "OCCURS"
    if key.redefines:
        return "REDEFINES"
    for e, _, _ in placed(top):
        if e is key:
            return key
        if e.depending:
            return "DEPENDING ON"


def compared(key):
    """What all must agree in: an edited key's mask, and not its place in the text."""
    edited = mask(symbols(key.picture.text, 0)) if key.kind == EDITED else b""
    return key.offset, key.width, key.kind, list(map(int, key.details)), edited


def read(texts, lengths):
    """The folded top list of each copybook."""
    at = 0
    for n in lengths:
        yield record(texts[at:at + n])
        at += n


def answer(texts: bytes, lengths: tuple[int, ...], name: bytes) -> list[int]:
    if not FEWEST <= len(lengths) <= MOST or sum(lengths) != len(texts):
        return NO_SET
    try:
        keys = [why(top, name) for top in list(read(texts, lengths))]
    except Refused as r:
        return r.numbers()
    if any(isinstance(key, str) for key in keys) or any(compared(key) != compared(keys[0]) for key in keys):
        return NO_KEY
    return [1, keys[0].offset, keys[0].width]
