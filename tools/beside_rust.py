"""The original Rust, asked through tools/oracle, and how its answers stand to the readings.

The numbers of an answer are those of tools/oracle. `reading(input)` is the answer of the readings in these numbers, for
inputs of which the Rust has none (`has_answer`); `expected` and `due` hold a refusal that docs/RULES.md adds to the
Rust's against what the Rust says.
"""

import os
import pathlib
import subprocess
import sys

from readings import Refused, layout, original, picture
from readings.reader import MOST_BYTES

ROOT = pathlib.Path(__file__).resolve().parent.parent


def fail(message):
    """No comparison: status 2."""
    print(message, file=sys.stderr)
    sys.exit(2)


class Oracle:
    """The original Rust, built once from the folder with its files."""

    def __init__(self, source):
        target = ROOT / "target" / "oracle"
        env = dict(os.environ, ORACLE_SRC=str(source.resolve()), CARGO_TARGET_DIR=str(target))
        build = ["cargo", "build", "--release", "--offline", "--quiet"]
        subprocess.run(build, cwd=ROOT / "tools" / "oracle", env=env, check=True)
        self.program = target / "release" / "oracle"

    def ask(self, inputs):
        requests = "".join(i.request() + "\n" for i in inputs)
        p = subprocess.run([self.program], input=requests, capture_output=True, text=True, check=True)
        answers = [[int(n) for n in line.split()] for line in p.stdout.splitlines()]
        if len(answers) != len(inputs):
            fail(f"{len(inputs)} requests, {len(answers)} answers of the oracle")
        return answers


def has_answer(i):
    """Whether the Rust has an answer, as far as literals, P, usages and alignment go."""
    if i.usage is not None:
        return not original.has_scale(i.text)
    if len(i.text) > MOST_BYTES or max(i.text, default=0) > 127:
        return True
    plain = original.plain_literals, original.plain_usages, original.plain_slack
    return all(holds(i.text) for holds in plain) and not original.scaled(i.text)


def reading(i):
    """The answer of the readings."""
    if i.usage is None:
        made = layout.answer(i.text)
        return original.oracle_numbers(i.text, bytes(made[2:])) if made[0] else made[:2]
    made, mask = picture.answer(i.text, i.usage, i.sign)
    if not made[0]:
        return made[:2]
    return made + [len(mask), *mask] if made[2] == picture.EDITED else made


# ---------------------------------------------------------------- the refusals that are added to the Rust's

ADDED = {1, 2, 3, 14, 24, 27, 29, 30, 31}


def symbols(word):
    """How many symbols a picture has, up to its end or to where it is refused."""
    total = 0
    try:
        for _, count in picture.runs(word, 0):
            total += count
    except Refused:
        pass
    return total


def expected_of_picture(i, answer):
    """24 or 27 as the reading has them; 27 too where the Rust's own mask is too long."""
    made, _ = picture.answer(i.text, i.usage, i.sign)
    if not made[0] and made[1] in ADDED:
        return made[1]
    masked = answer[0] == 1 and answer[2] == picture.EDITED
    return 27 if masked and answer[6] > picture.LONGEST_MASK else 0


def expected(i, answer):
    """The added refusal that the text and the oracle's answer call for, or 0: the right one for a picture and for 1 and
    2, else a guess."""
    if len(i.text) > MOST_BYTES:
        return 1
    if max(i.text, default=0) > 127:
        return 2
    if i.usage is not None:
        return expected_of_picture(i, answer)
    too_large = answer[0] == 1 and max(answer) > layout.LARGEST
    return 30 if answer == [2] else 24 if answer == [3] else 29 if too_large else 0


def due(i, answer, number):
    """Whether the added refusal, or none (0), can be right, as far as the text and the oracle's answer say."""
    guess = expected(i, answer)
    if i.usage is not None or guess in (1, 2):
        return number == guess
    words = i.text.split()
    return {
        0: guess != 29,
        14: i.text.count(b".") >= 800,
        24: any(symbols(w) > picture.MOST_SYMBOLS for w in words),
        27: any(symbols(w) > picture.MOST_DIGITS for w in words),
        29: answer[0] != 1 or guess == 29 or b"DEPENDING" in i.text.upper(),
        30: answer == [2],
    }.get(number, False)
