"""The words that the reader read: docs/RULES.md 16.

`answer(text)` is what the call has to answer, as numbers: `1 LENGTH` and the bytes, or a refusal.
"""

import struct

from readings import Refused
from readings.reader import statements


def statement(end, words):
    """How many words, where the statement ends, and the place and length of each word."""
    places = [n for word in words for n in (word.at, len(word.text))]
    return struct.pack(f"<{2 + len(places)}I", len(words), end, *places)


def answer(text: bytes) -> list[int]:
    try:
        made = b"".join(statement(*read) for read in statements(text))
    except Refused as r:
        return r.numbers()
    return [1, len(made), *made]
