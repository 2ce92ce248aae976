"""Copybooks, some on cards, with the details of their entries, and with the reasons of some entries."""

import itertools

from lists.cases import SEED, counted, escaped
from lists.layouts import FOLDED_CHAINS, MANY, chain
from makers import copybooks, written
from readings import details as details_reading
from readings import reasons as reasons_reading
from readings.reader import Cards

REPORTED, SHORT = 420, 260  # the copybooks of details and reasons, and how many bytes a generated one has at most
MAKERS = ["nested", "folded", "cards", "fillers", "usages", "floats", "cards", "copybook"]
PAST = 2 ** 64 - 1


def reported():
    """Copybooks, and whether they are on cards: the limits, what is written by hand, then random ones."""
    deep = [chain(66), chain(67), FOLDED_CHAINS[0], MANY[0], "1.\n" * 801, "05 A PIC X.\x80", "05 A PIC X VALUE 'open"]
    plain = [deep, written.FOLDS, written.ROOTS, written.LARGE, written.ORDER, written.GOOD, written.ALIGNED,
             written.USAGES[::4], written.FLOATS[::3]]
    yield from itertools.product(itertools.chain(*plain), [False])
    yield from itertools.product(written.CARDS[:24] + written.CARDS[24::9], [True])
    maker = copybooks.Maker(SEED + 2)
    for name in itertools.cycle(MAKERS):
        text = getattr(maker, name)()[1]
        if len(text) <= SHORT:
            yield text, name == "cards"


def reported_texts():
    """So many different ones."""
    texts = {}
    for question in reported():
        texts.setdefault(question)
        if len(texts) == REPORTED:
            break
    return [(on_cards, (Cards if on_cards else bytes)(text.encode("latin-1"))) for text, on_cards in texts]


def details():
    texts = reported_texts()
    answers = [details_reading.answer(text) for _, text in texts]
    return counted([[int(on), escaped(text), *a] for (on, text), a in zip(texts, answers)], answers)


def asked_entries(number, made):
    """The first entry, the last and one between; now and then the number after the last, or the greatest there is."""
    count = len(made or [])
    return sorted({0, count // 2, max(count - 1, 0), *([count, PAST] if number % 8 == 0 else [])})


def reasons():
    cases, answers = [], []
    for number, (on_cards, text) in enumerate(reported_texts()):
        made, _ = reasons_reading.answers(text)
        for entry in asked_entries(number, made):
            answers.append(reasons_reading.answer(text, entry))
            cases.append([int(on_cards), entry, escaped(text), *answers[-1]])
    return counted(cases, answers)
