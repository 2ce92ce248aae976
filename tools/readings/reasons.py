"""The reasons of an entry's place: docs/RULES.md 11.

It takes no place from the layout: items are placed here again, one by one, each with the words why. `chains(nodes)` has
the reasons of every statement, by its first byte: kind, the item named, the bytes added. `answers(text)` and
`answer(text, entry)` are what the call has to answer, as numbers: `1 LENGTH` and the bytes, or a refusal.
"""

import collections
import struct

from readings import Refused, layout
from readings.layout import four, placed, record, span, top_list

FIRST, AFTER, SLACK, OVER, INSIDE = range(1, 6)

Sibling = collections.namedtuple("Sibling", "statement offset end")


def reserved(s, width):
    return 0 if s.depending else width * s.count()


def listed(nodes, outward, out):
    """Explains the items of a list, inside groups with these reasons, and below; how wide the list is. It starts where
    the bytes of these reasons come to."""
    done, widest, base = [], 0, sum(adds for _, _, adds in outward)
    for s, inner in nodes:
        if s.redefines:
            # laid over the redefined item: the latest earlier sibling of that name
            target = [d for d in done if d.statement.called().upper() == s.redefines.text.upper()][-1]
            own = [(OVER, target.statement.name, target.offset)]
        else:
            # directly after the latest earlier sibling without REDEFINES, or first in its list
            plain = [d for d in done if not d.statement.redefines]
            own = [(AFTER, plain[-1].statement.name, plain[-1].end)] if plain else [(FIRST, None, 0)]
            align = layout.alignment(s, inner)
            slack = next(n for n in range(align) if (base + own[0][2] + n) % align == 0)
            own += [(SLACK, None, slack)] if slack else []
        chain = own + outward
        out[s.at] = chain
        width = listed(inner, [(INSIDE, s.name, 0)] + chain, out) if inner else layout.elementary(s).width
        width += layout.slack_at_end(s, inner, width)
        offset = sum(adds for _, _, adds in own)
        done.append(Sibling(s, offset, offset + reserved(s, width)))
        widest = max(widest, done[-1].end)
    return widest


def chains(nodes):
    """The reasons of every statement of an accepted copybook, by its first byte."""
    out = {}
    listed(nodes, [], out)
    return out


def written(chain):
    return b"".join(struct.pack("<B", kind) + span(name) + four(adds) for kind, name, adds in chain)


def answers(text: bytes) -> tuple[list[bytes] | None, list[int]]:
    """What the call has to answer for each entry of the listing, as bytes, and then past it; or the refusal of every
    number."""
    try:
        entries = list(placed(record(text)))
    except Refused as r:
        return None, r.numbers()
    reasons = chains(top_list(text))
    made = [reasons[e.at] for e, _, _ in entries]
    if [sum(adds for _, _, adds in chain) for chain in made] != [first for _, _, first in entries]:
        raise AssertionError(f"the sums are not the listing's offsets: {text!r}")
    return [written(chain) for chain in made], [0, 53, 0, 0]


def answer(text: bytes, entry: int) -> list[int]:
    """What the call has to answer for an entry, with room for all of it."""
    made, refused = answers(text)
    return refused if made is None or entry >= len(made) else [1, len(made[entry]), *made[entry]]
