"""How a list is written: a case is the words up to a period, an input one word, what follows decimal numbers."""

import collections
import pathlib
import sys

from makers.inputs import Input

ROOT = pathlib.Path(__file__).resolve().parents[2]
DATA = ROOT / "crates/test_lists/data"
SEED = 1
PLAIN = set(b"ABCDEFGHIJKLMNOPQRSTUVWXYZabcdefghijklmnopqrstuvwxyz0123456789()+-,/$")
LIST_BYTES = 400_000  # the room that a program has for a list


def escaped(text):
    """The word that stands for an input."""
    return "".join(chr(b) if b in PLAIN else f"%{b:02X}" for b in text) or "%"


def write(name, comment, cases):
    """Writes a list below DATA."""
    lines = ["* " + line for line in comment.strip().split("\n")] + [" ".join(map(str, case)) + "." for case in cases]
    path = DATA / name
    path.parent.mkdir(parents=True, exist_ok=True)
    text = "\n".join(lines) + "\n"
    if len(text) > LIST_BYTES:
        sys.exit(f"{path}: {len(text)} bytes, and the program reads {LIST_BYTES}")
    path.write_text(text)
    print(f"{path.relative_to(ROOT)}: {len(cases)} cases, {len(text)} bytes")


def refused(number, position=0, needed=0):
    return [0, number, position, needed]


def same(question, due, made):
    """The answer that a reading has made; ends the program where another was written by hand."""
    if list(due) != made:
        sys.exit(f"{question!r}: {made} is made, where {due} is written")
    return made


def distinct(texts, count):
    """The first so many different texts, as inputs."""
    inputs = {}
    for text in texts:
        i = Input(text.encode("latin-1"), None, None, "")
        inputs.setdefault(i.text, i)
        if len(inputs) == count:
            break
    return list(inputs.values())


def counted(cases, answers):
    """Prints how many of the answers there are of each kind."""
    kinds = collections.Counter("accepted" if a[0] else f"refused {a[1]}" for a in answers)
    print(", ".join(f"{k}: {n}" for k, n in sorted(kinds.items())))
    return cases
