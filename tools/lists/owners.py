"""Records with the owner of every byte, and positions of other copybooks with their owners, by the reading."""

import collections
import itertools
import sys

from lists.cases import escaped
from makers import records as makers
from makers import written
from readings import layout, owner, reader

SEED = 3
RECORDS, MOST_RECORD = 320, 400
# What at least four records must have.
WANTED = ("slack", "slack at an end", "slack before OCCURS 0", "slack in a group that OCCURS", "slack by an inherited usage",
          "OCCURS in OCCURS", "OCCURS 0", "FILLER", "empty record", "dropped root with clauses")


def numbered(nodes, around=1):
    """The statements in the order of their entries, each with the greatest count of the groups around it."""
    for s, inner in nodes:
        yield s, inner, around
        yield from numbered(inner, max(around, s.count()))


def features(text, record):
    """What a record has of what the list must have."""
    nodes = layout.top_list(text)
    statements = list(numbered(nodes))
    for s, inner, around in statements:
        yield "group" if inner else "item"
        if s.count() > 1 and around > 1:
            yield "OCCURS in OCCURS"
        if s.occurs == 0:
            yield "OCCURS 0"
        if s.name and s.name.text == b"FILLER":
            yield "FILLER"
    if not record:
        yield "empty record"
    roots = layout.lists(reader.kept_statements(text))
    if roots != nodes and (roots[0][0].occurs is not None or roots[0][0].sync or roots[0][0].redefines):
        yield "dropped root with clauses"
    for mark, number, *_ in record:
        if mark == owner.SLACK:
            s, inner, around = statements[number]
            yield "slack at an end" if inner else "slack"
            if not s.usage:
                yield "slack by an inherited usage"
            if s.occurs == 0:
                yield "slack before OCCURS 0"
            if around > 1:
                yield "slack in a group that OCCURS"


def length_of(text):
    return layout.length(layout.record(text))


def is_asked(text):
    """Whether the owners of all its bytes are listed."""
    accepted = layout.answer(text)[0] != 0 and not owner.overlaid(layout.top_list(text))
    return accepted and length_of(text) <= MOST_RECORD


def record_runs(text):
    """A record as laid, and its runs; the two ways to an owner are compared."""
    nodes, (record, _) = layout.top_list(text), owner.laid(text)
    for p, found in enumerate(record):
        if owner.find(nodes, 0, 0, p) != found:
            sys.exit(f"{text!r}: byte {p} is laid as {found} and counted as {owner.find(nodes, 0, 0, p)}")
    runs = owner.runs(record)
    if sum(width for _, _, width in runs) != len(record):
        sys.exit(f"{text!r}: the runs are {runs}")
    return record, runs


def records():
    """Cases: the text, how many runs its record has, and for each its mark, entry and width."""
    maker = makers.Maker(SEED)
    texts = dict.fromkeys(makers.WRITTEN + written.ROOTS + written.GOOD + written.FLOATS + written.ALIGNED)
    texts = itertools.chain(texts, (maker.copybook() for _ in itertools.count()))
    asked = filter(is_asked, (text.encode("latin-1") for text in texts))
    cases, seen, total = [], collections.Counter(), 0
    for text in itertools.islice(asked, RECORDS):
        record, runs = record_runs(text)
        seen.update(set(features(text, record)))
        total += len(record)
        cases.append([escaped(text), len(runs), *itertools.chain(*runs)])
    for what in WANTED:
        if seen[what] < 4:
            sys.exit(f"{seen[what]} records have: {what}")
    print(f"{len(cases)} records of {total} bytes; " + ", ".join(f"{k}: {n}" for k, n in sorted(seen.items())))
    return cases


def positions(text, owner_of):
    """Where the owners of a copybook are asked for."""
    some, first = {0, 2 ** 63}, owner_of(0)
    if first[0] or first[1] == 41:
        n = length_of(text)
        some |= {1, 5, n // 3, n // 2, n - 9, n - 8, n - 2, n - 1, n, n + 1, 2 ** 31, 2 ** 32, 2 ** 64 - 1}
    return sorted(p for p in some if p >= 0)


def asked():
    """Cases: the text, a position and the answer."""
    lists = [makers.HUGE, written.LARGE, written.ROOTS, written.ORDER, written.FOLDS, written.GOOD, written.REPEATED,
             written.QUOTED[::4], written.USAGES[::2], written.FLOATS[::2], written.ALIGNED,
             (text for text in written.edges() if len(text) < 100)]
    cases, kinds = [], collections.Counter()
    for text in dict.fromkeys(itertools.chain(*lists)):
        text = text.encode("latin-1")
        owner_of = owner.answers(text)
        for position in positions(text, owner_of):
            made = owner_of(position)
            kinds[{owner.PIECE: "piece", owner.SLACK: "slack"}.get(made[0], f"refused {made[1]}")] += 1
            cases.append([escaped(text), position, *made])
    print(", ".join(f"{k}: {n}" for k, n in sorted(kinds.items())))
    return cases
