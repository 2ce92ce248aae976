"""The extract that fits: docs/RULES.md 15, over the widths of a copybook's top-level entries.

`answer(text, weights, limit, budget)` is what the extract has to answer, as numbers: `1 SUBSET WEIGHT LOOKED OFF`, or a
refusal. The sums of all subsets are written down, item by item, and the heaviest is looked for among those that are
looked at; no subset that fits may outweigh it by more than the answer says.
"""

from readings import layout
from readings.owner import overlaid

MOST_ITEMS, LEAST_WEIGHT, MOST_WEIGHT = 16, 1, 1000


def widths(text: bytes) -> list[int]:
    """The reserved widths of the top-level items."""
    return [0 if e.depending else e.total() for e in layout.record(text)]


def sums(values):
    """What each subset comes to, by its number: those with an item follow those without it."""
    out = [0]
    for value in values:
        out += [value + before for before in out]
    return out


def answer(text: bytes, weights: tuple[int, ...], limit: int, budget: int) -> list[int]:
    made = layout.answer(text)
    if made[0] == 0:  # the reader's refusals but 31
        return made
    if overlaid(layout.top_list(text)):
        return [0, 40, 0, 0]
    taken = widths(text)
    if len(taken) > MOST_ITEMS or len(weights) != len(taken):
        return [0, 58, 0, 0]
    if any(not LEAST_WEIGHT <= w <= MOST_WEIGHT for w in weights):
        return [0, 59, 0, 0]
    if budget == 0:
        return [0, 60, 0, 0]
    fitting = [weight if width <= limit else -1 for width, weight in zip(sums(taken), sums(weights))]
    looked = min(budget, len(fitting))
    found = max(fitting[:looked])
    alone = sum(weight for width, weight in zip(taken, weights) if width <= limit)
    off = 0 if looked == len(fitting) else alone - found
    if max(fitting) > found + off:  # the best choice there is never outweighs the one found by more
        raise AssertionError((text, weights, limit, budget))
    return [1, fitting.index(found), found, looked, off]
