"""What tools/compare compares: for each WHAT the inputs, how the library is asked about one, and the readings that say
what is due. `COMPARISONS` is the table.
"""

import itertools
import json
import pathlib
import random
import subprocess
import urllib.parse
from collections.abc import Callable, Iterable, Iterator
from typing import Any, NamedTuple

from library import Library
from makers import aligned, copybooks, extracts, inputs, keys, redefined, written
from readings import details, extract, key, layout, lines, original, owner, picture, reasons, wording
from readings.reader import Cards

ROOT = pathlib.Path(__file__).resolve().parent.parent
PROGRAM = ROOT / "target/cli/release/copybook"
PAST = 2 ** 64 - 1


class Asked(NamedTuple):
    """One thing asked: what, the answer, the one that is due, and what is counted of it."""
    what: str
    got: Any
    due: Any
    kinds: Iterable[str] = ()


class Comparison(NamedTuple):
    """`made(count, seed)` gives the inputs, `asked(library, input)` all that is asked of one."""
    about: str
    made: Callable[[int, int], Iterable]
    asked: Callable[[Library, Any], Iterator[Asked]]


def outcome(due):
    return "accepted" if due[0] else f"refused {due[1]}"


# ---------------------------------------------------------------- copybooks: listing, details and owners


def distinct(make, count, first=()):
    """So many different texts: these first, and then those that are made."""
    seen = dict.fromkeys(first)
    while len(seen) < count:
        seen.setdefault(make())
    return [text.encode("latin-1") for text in list(seen)[:count]]


def every_family(count, seed):
    """The copybooks among the inputs, of which a third are pictures."""
    return [i.text for i in inputs.generate(count * 3 // 2, seed) if i.usage is None][:count]


def with_quotes(count, seed):
    return distinct(lambda maker=copybooks.Maker(seed): maker.quoted()[1], count, written.QUOTED)


def with_usages(count, seed):
    return distinct(lambda maker=copybooks.Maker(seed): maker.usages()[1], count, written.USAGES)


def with_floats(count, seed):
    return distinct(lambda maker=copybooks.Maker(seed): maker.floats()[1], count, written.FLOATS)


def with_redefines(count, seed):
    return distinct(redefined.Maker(seed).copybook, count)


def with_alignment(count, seed):
    return distinct(aligned.Maker(seed).copybook, count, written.ALIGNED)


def on_cards(count, seed):
    return map(Cards, distinct(lambda maker=copybooks.Maker(seed): maker.cards()[1], count, written.CARDS))


def without_rust(plain):
    """The kind of a text, with a word where the Rust has no answer, as far as this says."""
    return lambda text, due: outcome(due) + ("" if plain(text) else ", without an answer of the Rust")


def kind_with_floats(text, due):
    rust = "" if original.plain_usages(text) else ", without an answer of the Rust"
    if not due[0]:
        return outcome(due) + rust
    kinds = {e.kind for e, _, _ in layout.placed(layout.record(text))}
    return f"accepted, {'with' if picture.FLOAT in kinds else 'without'} floats{rust}"


def kind_of_cards(text, due):
    return outcome(due) + ("" if layout.answer(bytes(text)) == due else ", read otherwise as free text")


def record_length(due):
    """The record's length that a listing says; 0 of a refusal."""
    return int.from_bytes(bytes(due[3:7]), "little") if due[0] else 0


def listed(kind_of):
    """Asks for the listing, the details and the owners of three bytes."""
    def asked(library, text):
        due = layout.answer(text)
        yield Asked("layout", library.layout(text), due, [kind_of(text, due)])
        yield Asked("details", library.details(text), details.answer(text))
        length, owner_of = record_length(due), owner.answers(text)
        for position in {0, length // 2, random.Random(len(text)).randrange(length + 2)}:
            yield Asked(f"owner of {position}", library.owner(text, position), owner_of(position))
    return asked


MOST_OWNED = 400


def aligned_asked(library, text):
    """The listing and the details, and the owner of every byte of a record of up to so many, and of the byte behind
    it; of a longer one of some."""
    due, plain = layout.answer(text), original.plain_slack(text)
    rust = "" if plain else ", without an answer of the Rust"
    yield Asked("layout", library.layout(text), due, [outcome(due) + rust])
    yield Asked("details", library.details(text), details.answer(text))
    length, owner_of = record_length(due), owner.answers(text)
    owned = {position: owner_of(position) for position in (0, length // 3, length - 1, length) if position >= 0}
    if owned[0][0] and length <= MOST_OWNED:
        owned |= {position: list(laid) for position, laid in enumerate(owner.laid(text)[0])}
    for position, answer in owned.items():
        kind = {owner.PIECE: "bytes of an item", owner.SLACK: "bytes of slack"}.get(answer[0], f"refused {answer[1]}")
        yield Asked(f"owner of {position}", library.owner(text, position), answer, [kind] if due[0] else [])


def listed_and_short(library, text):
    """The same, and the listing and the details in an output that is a byte short."""
    yield from listed(lambda text, due: outcome(due))(library, text)
    for call, reading in ((library.layout, layout.answer), (library.details, details.answer)):
        due = reading(text)
        if due[0] and due[1]:
            room = due[1] - 1
            yield Asked(f"{call.__name__} in {room} bytes", call(text, room), [0, 31, 0, due[1]], ["31"])


# ---------------------------------------------------------------- reasons

PLACED = ["nested", "folded", "fillers", "floats", "cards"]


def placed_items(count, seed):
    """Copybooks of FOLDS, ROOTS and LARGE, then of five families in turn, the fifth on cards."""
    maker = copybooks.Maker(seed)
    seen = dict.fromkeys((text, False) for text in written.FOLDS + written.ROOTS + written.LARGE)
    for name in itertools.cycle(PLACED):
        if len(seen) >= count:
            break
        seen.setdefault((getattr(maker, name)()[1], name == "cards"))
    for text, cards in list(seen)[:count]:
        yield (Cards if cards else bytes)(text.encode("latin-1"))


def reasons_asked(library, text):
    """Those of every entry, of the number after the last and of the greatest; of one with an output that is a byte
    short and with none."""
    made, refused = reasons.answers(text)
    on_cards = ["copybooks on cards"] if isinstance(text, Cards) else []
    made = made or []
    for entry in (*range(len(made)), len(made), PAST):
        chain = made[entry] if entry < len(made) else None
        due = refused if chain is None else [1, len(chain), *chain]
        kinds = [f"refused {due[1]}"] if chain is None else ["entries", *(f"reasons of kind {k}" for k in chain[::13])]
        yield Asked(f"reasons of {entry}", library.reasons(text, entry), due, kinds + on_cards)
        on_cards = []
    if made:
        entry = len(text) % len(made)
        for room in (len(made[entry]) - 1, 0):
            yield Asked(f"reasons of {entry} in {room} bytes", library.reasons(text, entry, room),
                        [0, 31, 0, len(made[entry])])
        yield Asked("past the listing in 0 bytes", library.reasons(text, len(made), 0), refused)


# ---------------------------------------------------------------- words

WORDED = [every_family, with_quotes, on_cards]


def worded(count, seed):
    """Copybooks of every family, with literals, and on cards, in turn."""
    for texts in zip(*(made((count + 2) // 3, seed) for made in WORDED)):
        yield from texts


def words_asked(library, text):
    """The words, also in an output that is a byte short."""
    due = wording.answer(text)
    layout_due = layout.answer(text)
    kind = outcome(due) + (", the layout too" if due[0] and layout_due[0] else
                           f", the layout {outcome(layout_due)}" if due[0] else "")
    yield Asked("words", library.words(text), due, [kind])
    if due[0] and due[1]:
        yield Asked("words in an output a byte short", library.words(text, due[1] - 1), [0, 31, 0, due[1]], ["31"])


# ---------------------------------------------------------------- extracts, keys


def extract_asked(library, question):
    due = extract.answer(*question)
    kind = f"refused {due[1]}" if not due[0] else "off by 0" if due[4] == 0 else "off by more"
    yield Asked("extract", library.extract(*question), due, [kind])


def sets(count, seed):
    maker, seen = keys.Maker(seed), {}
    while len(seen) < count:
        seen.setdefault(maker.lent())
    return list(seen)


def why_no_key(due, texts, lengths, name):
    if due[0]:
        return "keyed"
    if due != key.NO_KEY:
        return f"refused {due[1]}"
    found = [key.why(top, name) for top in key.read(texts, lengths)]
    return "refused 57, " + min((word for word in found if isinstance(word, str)), default="no agreement")


def key_asked(library, question):
    due = key.answer(*question)
    yield Asked("key", library.key(*question), due, [why_no_key(due, *question)])


# ---------------------------------------------------------------- pictures

PICTURES = {"with P": copybooks.Maker.with_scale, "around the limits": copybooks.Maker.at_limit}


def odd_pictures(count, seed):
    """So many different pictures of each family, in turn; those of the first have a P."""
    for family, make in PICTURES.items():
        maker, seen = copybooks.Maker(seed), {}
        while len(seen) < count:
            text = make(maker)
            if (family != "with P" or "P" in text.upper()) and max(map(ord, text)) < 256:
                seen.setdefault(text)
        yield from ((text.encode("latin-1"), family) for text in seen)


def picture_asked(library, question):
    """Under all pairs of usage and sign; its mask with room for it, and with a byte too little."""
    text, family = question
    for usage, sign in itertools.product(range(3), range(5)):
        due, mask = picture.answer(text, usage, sign)
        kind = f"kind {due[2]}" if due[0] else f"refused {due[1]}"
        yield Asked(f"usage {usage}, sign {sign}", library.picture(text, usage, sign), due, [f"{family}: {kind}"])
        for room in {len(mask), max(0, len(mask) - 1)}:
            yield Asked(f"mask, usage {usage}, room {room}", library.mask(text, usage, room),
                        picture.mask_answer(due, mask, room))


# ---------------------------------------------------------------- what the command prints


def records():
    """The copybooks of a list that test_lists replays: the first word after each period. %XX is a byte, and % alone the
    empty text."""
    list_lines = (ROOT / "crates/test_lists/data/owner/records.txt").read_text().splitlines()
    words = [word for line in list_lines if not line.startswith("*") for word in line.split()]
    first = [word for before, word in zip([".", *words], words) if before.endswith(".")]
    return [urllib.parse.unquote_to_bytes(word) if word != "%" else b"" for word in first]


def printed_texts(count, seed):
    """Copybooks whose lines are asked for, and records whose owners and places are: a text and what is asked. A sixth of
    COUNT, since each takes a run of the command."""
    # builds the command where it isn't, or says why it can't
    subprocess.run([ROOT / "copybook", "--version"], stdout=subprocess.DEVNULL, check=True)
    yield from ((text, "layout") for text in every_family(count // 6, seed))
    for number, text in enumerate(records()[:count // 6]):
        yield text, "owner"
        yield text, "places"
        if number % 4 == 0:
            yield text, number % 19


def run(text, *words):
    return subprocess.run([PROGRAM, *words], input=text, stdout=subprocess.PIPE, stderr=subprocess.DEVNULL).stdout


def laid_facts(text):
    """The first byte of each elementary entry that has one, the slack before entries and that at the end of groups, from
    the bytes as laid."""
    first, before, at_end, seen = {}, {}, {}, 0
    groups = [bool(inner) for _, inner in owner.flat(layout.top_list(text))]
    for mark, number, width in owner.runs(owner.laid(text)[0]):
        slack = at_end if groups[number] else before
        facts, fact = (slack, width) if mark == owner.SLACK else (first, seen)
        facts.setdefault(number, fact)
        seen += width
    return {"first": first, "slack_before": before, "slack_at_end": at_end}


def printed_asked(_library, question):
    text, what = question
    if what == "layout":
        yield Asked(what, run(text, what), lines.layout_lines(text, layout.answer(text)), ["layouts"])
    elif what == "owner":
        yield Asked(what, run(text, what), lines.owner_lines(text).encode(), ["owners"])
    elif what == "places":
        entries = json.loads(run(text, "layout", "--json"))["entries"]
        for field, facts in laid_facts(text).items():
            yield Asked(field, {number: entries[number][field] for number in facts}, facts, ["places"])
    else:
        due = lines.owner_lines(text, what).encode()
        yield Asked(f"owner {what}", run(text, "owner", "-", str(what)), due, ["owners"])


# ---------------------------------------------------------------- the table

LISTED = "listing, details, three owners"
COMPARISONS = {
    "copybooks": Comparison(f"every family: {LISTED}, also in an output a byte short", every_family, listed_and_short),
    "quoted": Comparison(f"quotes and apostrophes, literals after VALUE: {LISTED}", with_quotes,
                         listed(without_rust(original.plain_literals))),
    "usages": Comparison(f"usages on groups, DISPLAY: {LISTED}", with_usages,
                         listed(without_rust(original.plain_usages))),
    "floats": Comparison(f"COMP-1 and COMP-2: {LISTED}", with_floats, listed(kind_with_floats)),
    "redefined": Comparison(f"lists of up to 40 siblings, most with REDEFINES: {LISTED}", with_redefines,
                            listed(lambda text, due: outcome(due))),
    "aligned": Comparison("SYNC in groups and tables, 29 behind slack: listing, details, the owner of every byte",
                          with_alignment, aligned_asked),
    "cards": Comparison(f"copybooks on cards: {LISTED}", on_cards, listed(kind_of_cards)),
    "reasons": Comparison("folds, roots, groups, a fifth on cards: the reasons of every entry, and past the last",
                          placed_items, reasons_asked),
    "words": Comparison("copybooks of every family, a third with literals, a third on cards: the words of each "
                        "statement, also in an output a byte short", worded, words_asked),
    "extracts": Comparison("copybooks with weights, a limit and a budget: the extract", extracts.questions,
                           extract_asked),
    "keys": Comparison("sets of copybooks and a name: the key", sets, key_asked),
    "pictures": Comparison("COUNT pictures with P, as many around the limits of 27: the picture under all 15 pairs of "
                           "usage and sign, the mask", odd_pictures, picture_asked),
    "printed": Comparison("of COUNT / 6 copybooks of every family the lines of `copybook layout`; of as many records of "
                          "the lists those of `copybook owner`, first bytes and slack in JSON", printed_texts,
                          printed_asked),
}
