#!/usr/bin/env python3
"""Compares the definition with the original Rust on generated copybooks and pictures.

    tools/compare_definition.py ORACLE_SRC COUNT SEED [--repo DIR] [--batch N] [--shrink N] [--scratch DIR]

ORACLE_SRC is the folder with the Rust files; tools/oracle is built from it, and asked. COUNT inputs are made by
makers/inputs.py from SEED. The definition is the crate `definition` of the repository (--repo names another one). It is
copied to a scratch repository, where antt computes its answer to each input: the bytes of the listing, read back into
the oracle's numbers, or the refusal.

Each input must get the same list of numbers, or the same refusal, from both. Left out, and counted by number, are the
inputs that the definition turns down with a refusal that docs/RULES.md adds to the Rust's; of these, the reason is
checked as far as it shows (`due`). Where the Rust has no answer (readings/original.py says where), that of the readings
stands in its place. The exit status is 1 if there is a difference, and 2 if there was no comparison. It needs rt and
cargo, and no network.
"""

import argparse
import collections
import pathlib
import re
import shutil
import subprocess
import sys
import tempfile
import time

sys.dont_write_bytecode = True
from beside_rust import ADDED, ROOT, Oracle, due, expected, fail, has_answer, reading
from makers.inputs import generate


# ---------------------------------------------------------------- the definition, in antt

# Every name of the definition that is used here: where its calls stand, and the name that opens what is sealed.
CALLS = """
use Rattle.definition.specs.declared.Usage.{Usage}
use Rattle.definition.specs.declared.SignKind.{SignKind}
use Rattle.std.specs.Prelude.{Option, None, Some}
use Rattle.definition.specs.declared.NumRepr.{NumRepr}
use Rattle.definition.specs.declared.FieldKind.{FieldKind}
use Rattle.definition.specs.declared.Pictured.{Pictured}
use Rattle.std.specs.Prelude.{if◌then◌else◌}
use Rattle.definition.specs.Basic.{Answer, Ok, Err}
use Rattle.definition.specs.Refusals.{refusal_number}
use Rattle.definition.specs.Calls.{layout_listing, picture_answer, picture_mask}
"""
SEALED = "use Rattle.definition.specs.Computing.{computing}"
UNFOLDING = "computing"
USAGES = ["Usage.Display", "Usage.Comp3", "Usage.Comp"]
SIGNS = ["None"] + [f"(Some SignKind.{k})" for k in ("Unsigned", "Embedded", "LeadingSeparate", "TrailingSeparate")]

# What a call answers, in the oracle's numbers.
ANSWERS = """-- What the definition's calls answer, as the list of numbers that the oracle writes.
use Prim.Native.Nat.{ℕ, zero, suc, ◌+◌, ◌*◌, ◌-◌, ◌/◌, ◌%◌}
use Prim.Native.Char.{code}
use Prim.Native.String.{String, [] as ε, ◌∷◌ as ◌∷ᶜ◌}
use mathlib.Core.Bool.{Bool, true, false}
use mathlib.Core.List.{List, [], ◌∷◌, ◌++◌}
use lib.Dec.{eqb}
use lib.ListN.{take, drop, length}
@CALLS@
-- the numbers that a text's characters stand for, in front of others
infixr 67 ◌⋯◌
abbrev pub ◌⋯◌ : String → List ℕ → List ℕ
ε ⋯ l = l
(c ∷ᶜ s) ⋯ l = code c ∷ (s ⋯ l)

abbrev pub equal : List ℕ → List ℕ → Bool
equal [] [] = true
equal [] (y ∷ ys) = false
equal (x ∷ xs) [] = false
equal (x ∷ xs) (y ∷ ys) = elim (eqb x y) [ true ↦ equal xs ys | false ↦ false ]

-- a mark that is in no answer of the oracle
abbrev pub broken : List ℕ
broken = 18446744073709551616 ∷ []

-- a list behind its length
abbrev pub sized : List ℕ → List ℕ
sized l = length l ∷ l

abbrev pub first : List ℕ → ℕ
first [] = 0
first (a ∷ l) = a

-- the byte at place n, and the number in the four bytes from there
abbrev pub byteAt : ℕ → List ℕ → ℕ
byteAt n l = first (drop n l)

abbrev pub fourAt : ℕ → List ℕ → ℕ
fourAt n l = byteAt n l + 256 * (byteAt (n + 1) l + 256 * (byteAt (n + 2) l + 256 * byteAt (n + 3) l))

-- the part of the text whose start and length stand at place n of a body
abbrev pub partAt : ℕ → List ℕ → List ℕ → List ℕ
partAt n body text = take (fourAt (n + 4) body) (drop (fourAt n body) text)

-- a name; for an absent one both numbers are 0
abbrev pub nameAt : List ℕ → ℕ → List ℕ → List ℕ → List ℕ
nameAt absent n body text =
    if eqb (fourAt n body + fourAt (n + 4) body) 0 then absent
    else if eqb (fourAt (n + 4) body) 0 then broken
    else sized (partAt n body text)

abbrev pub maskOf : Usage → List ℕ → List ℕ
maskOf usage picture = elim (picture_mask usage picture 65535) [ Err r ↦ broken | Ok m ↦ sized m ]

-- how long the body of a kind is
abbrev pub bodyLength : ℕ → ℕ
bodyLength kind = byteAt kind (0 ∷ 37 ∷ 39 ∷ 38 ∷ 41 ∷ 48 ∷ 41 ∷ 38 ∷ [])

abbrev pub detailsIn : ℕ → List ℕ → List ℕ → List ℕ
detailsIn kind body text =
    if eqb (bodyLength kind) 0 then broken
    else if eqb kind 5 then take 3 (drop 37 body) ++ maskOf Usage.Display (partAt 40 body text)
    else if eqb kind 6 then fourAt 37 body ∷ []
    else take (bodyLength kind - 37) (drop 37 body)

abbrev pub entryIn : ℕ → List ℕ → List ℕ → List ℕ
entryIn kind body text =
    nameAt (sized ("FILLER" ⋯ [])) 0 body text ++ (fourAt 8 body ∷ fourAt 12 body ∷ kind ∷ detailsIn kind body text)
    ++ (byteAt 16 body ∷ fourAt 17 body ∷ nameAt (0 ∷ []) 21 body text) ++ nameAt (0 ∷ []) 29 body text

-- the entries of a listing from some byte on, where `skip` bytes still belong to the entry before
abbrev pub entriesIn : ℕ → List ℕ → List ℕ → List ℕ
entriesIn zero text [] = []
entriesIn (suc skip) text [] = broken
entriesIn (suc skip) text (b ∷ bs) = entriesIn skip text bs
entriesIn zero text (kind ∷ body) = entryIn kind body text ++ entriesIn (bodyLength kind) text body

abbrev pub listingIn : List ℕ → List ℕ → List ℕ
listingIn text [] = broken
listingIn text (kind ∷ body) =
    if eqb kind 0 then fourAt 0 body ∷ byteAt 4 body ∷ fourAt 5 body ∷ entriesIn 9 text body
    else broken

abbrev pub flag : Bool → ℕ
flag false = 0
flag true = 1

abbrev pub signNumber : SignKind → ℕ
signNumber SignKind.Unsigned = 0
signNumber SignKind.Embedded = 1
signNumber SignKind.LeadingSeparate = 2
signNumber SignKind.TrailingSeparate = 3

abbrev pub storageNumber : NumRepr → ℕ
storageNumber NumRepr.Display = 0
storageNumber NumRepr.Comp3 = 1
storageNumber NumRepr.Zoned = 2

abbrev pub kindNumbers : FieldKind → List ℕ → List ℕ
kindNumbers FieldKind.Text m = 1 ∷ []
kindNumbers (FieldKind.Int signed sign) m = 2 ∷ flag signed ∷ signNumber sign ∷ []
kindNumbers (FieldKind.Binary signed) m = 3 ∷ flag signed ∷ []
kindNumbers (FieldKind.Decimal precision scale repr sign) m = 4 ∷ precision ∷ scale ∷ storageNumber repr ∷ signNumber sign ∷ []
kindNumbers (FieldKind.Edited precision scale signed) m = 5 ∷ precision ∷ scale ∷ flag signed ∷ m
kindNumbers FieldKind.Group m = broken
kindNumbers (FieldKind.Float bits) m = broken

-- the two questions
abbrev pub copybook : List ℕ → List ℕ
copybook text = elim (layout_listing text 16384 1000000) [ Err r ↦ 0 ∷ refusal_number r ∷ [] | Ok bytes ↦ 1 ∷ listingIn text bytes ]

abbrev pub picture : Usage → Option SignKind → List ℕ → List ℕ
picture usage sign text =
    elim (picture_answer usage sign text) [ Err r ↦ 0 ∷ refusal_number r ∷ [] | Ok p ↦ 1 ∷ p.width ∷ kindNumbers (p.kind) (maskOf usage text) ]

-- the number of the refusal, or 0
abbrev pub refusal : List ℕ → ℕ
refusal [] = 0
refusal (suc n ∷ l) = 0
refusal (zero ∷ l) = first l

-- bit n of a number
abbrev pub bit : ℕ → ℕ → Bool
bit zero k = eqb (k % 2) 1
bit (suc n) k = bit n (k / 2)
"""

# A crate must have code.
NOTHING = """// All is in specs/.

#![tactic(auto)]

pub struct Nothing {
    pub nothing: u8,
}
"""

# The claims of a batch follow this.
CLAIMS = """-- Claims about the answers, each proved by computing or refused.
use Prim.Native.Nat.{ℕ}
use mathlib.Core.Bool.{Bool, true, false}
use mathlib.Core.List.{List, [], ◌∷◌, ◌++◌}
use mathlib.Core.Path.{◌≡◌}
use lib.Dec.{T, eqb}
use Rattle.definition.specs.declared.Usage.{Usage}
use Rattle.definition.specs.declared.SignKind.{SignKind}
use Rattle.std.specs.Prelude.{Option, None, Some}
@SEALED@
use Rattle.compare.specs.Answers.{◌⋯◌, equal, copybook, picture, refusal, bit}
"""


def quoted(numbers):
    """A quoted text whose characters have these codes."""
    return '"' + "".join(chr(n) if 32 <= n < 127 and n not in (34, 92) else "\\u{%x}" % n for n in numbers) + '"'


def listed(numbers):
    """A list of numbers in antt: runs of small ones as texts, which are read faster."""
    parts, run = [], []
    for n in numbers:
        if n < 0xD800:
            run.append(n)
            continue
        if run:
            parts.append(quoted(run) + " ⋯ ")
        run = []
        parts.append(f"{n} ∷ ")
    if run:
        parts.append(quoted(run) + " ⋯ ")
    return "(" + "".join(parts) + "[])"


def term(i):
    """The definition's answer to an input, in antt."""
    if i.usage is None:
        return f"copybook {listed(i.text)}"
    return f"picture {USAGES[i.usage]} {SIGNS[i.sign]} {listed(i.text)}"


class Definition:
    """The definition in a scratch repository, and claims about it."""

    def __init__(self, repo, scratch):
        self.top = scratch
        deps = dict(re.findall(r"^\s*(\w+)\s*:([^#\n]*)", (repo / "crates.txt").read_text(), re.M))
        wanted, lines = ["definition"], ["compare: definition"]
        for name in wanted:
            if name in deps:
                crate = repo / "crates" / name
                # Where no function is to be proved, the proofs are laws of the definition, and not needed here.
                code = any("fn " in f.read_text() for f in crate.glob("src/*.rt"))
                left_out = shutil.ignore_patterns("must-fail", "out", *([] if code else ["proofs"]))
                shutil.copytree(crate, self.top / "crates" / name, ignore=left_out)
                lines.append(f"{name}:{deps[name]}")
                wanted += [d for d in deps[name].split() if d not in wanted]
        (self.top / "crates.txt").write_text("\n".join(lines) + "\n")
        crate = self.top / "crates" / "compare"
        (crate / "src").mkdir(parents=True)
        (crate / "specs").mkdir()
        (crate / "src" / "lib.rt").write_text(NOTHING)
        (crate / "specs" / "Lib.antt").write_text("pub mod Answers\npub mod Claims\n")
        (crate / "specs" / "Answers.antt").write_text(ANSWERS.replace("@CALLS@", CALLS))
        self.claims = crate / "specs" / "Claims.antt"

    def run(self, lines, *words):
        """What antt says of these declarations, and of a false one behind them, which it has to refuse: so it read them
        all."""
        last = "\nlast : T false\nlast = tt\n"
        self.claims.write_text(CLAIMS.replace("@SEALED@", SEALED) + "".join(lines) + last)
        p = subprocess.run(["rt", "check", *words], cwd=self.claims.parents[1], capture_output=True, text=True)
        said = p.stdout + p.stderr
        refused = re.findall(r"^\S*Claims\.antt:\d+:\d+: error: `(\w+)`", said, re.M)
        others = len(refused) != len(re.findall(r"\berror: ", said))
        if others or refused[-1:] != ["last"] or "was not admitted" in said:
            fail("the claims could not be read:\n" + said[:4000])
        return said, set(refused)

    def holding(self, claims):
        """The names of the claims that hold, of (name, antt term of a Bool)."""
        lines = [f"\n{name} : T ({term})\nunfolding {UNFOLDING}\n{name} = tt\n" for name, term in claims]
        refused = self.run(lines)[1]
        return {name for name, _ in claims if name not in refused}

    def shown(self, term):
        """The list that the term computes to, if antt shows it (it gives up where that takes long)."""
        # Behind `++` no call is left in what is shown.
        said = self.run([f"\nshown : {term} ++ [] ≡ []\nunfolding {UNFOLDING}\nshown = ?h\n"], "--allow-holes")[0]
        m = re.search(r"List ℕ[)}] \(([\d\s∷]*)\[\]\) \[\]", said)
        return [int(n) for n in re.findall(r"\d+", m.group(1))] if m else None


# ---------------------------------------------------------------- the comparison


class Result(collections.namedtuple("Result", "input oracle definition")):
    """An input with both answers; the definition's is None where antt did not compute it, and [1] where it is too long
    to show."""

    def added(self):
        """The added refusal that the definition gives, or 0."""
        d = self.definition or [1]
        return d[1] if d[0] == 0 and d[1] in ADDED else 0

    def differs(self):
        if not has_answer(self.input):
            return self.oracle != self.definition
        added = self.added()
        return not (added or self.oracle == self.definition) or not due(self.input, self.oracle, added)

    def __str__(self):
        unshown = {None: "not computed", (1,): "accepted, with an answer too long to show"}
        d = unshown.get(self.definition and tuple(self.definition), self.definition)
        return f"- {self.input}\n    oracle:     {self.oracle}\n    definition: {d}"


def compare(oracle, definition, inputs):
    """The results for the inputs, in one or two runs of antt."""
    answers = [answer if has_answer(i) else reading(i) for i, answer in zip(inputs, oracle.ask(inputs))]
    # First one claim for each: the refusal that is expected of it, or that the answer is the oracle's.
    claimed = [[0, expected(i, answer)] if has_answer(i) and expected(i, answer) else answer
               for i, answer in zip(inputs, answers)]
    claims = [(f"c{k}", f"equal ({term(i)}) {listed(c)}") for k, (i, c) in enumerate(zip(inputs, claimed))]
    true = definition.holding(claims)
    found = [c if f"c{k}" in true else None for k, c in enumerate(claimed)]
    # Of the others: the number of the refusal, bit by bit, or that there is none.
    rest = [(k, term(i)) for k, i in enumerate(inputs) if found[k] is None]
    claims = [(f"c{k}bit{n}", f"bit {n} (refusal ({t}))") for k, t in rest for n in range(6)]
    claims += [(f"c{k}none", f"eqb (refusal ({t})) 0") for k, t in rest]
    true = definition.holding(claims) if claims else set()
    for k, t in rest:
        number = sum(1 << n for n in range(6) if f"c{k}bit{n}" in true)
        if number:
            found[k] = [0, number]
        elif f"c{k}none" in true:
            found[k] = definition.shown(t) or [1]
    return [Result(*r) for r in zip(inputs, answers, found)]


def shrunk(oracle, definition, result):
    """A smaller input that differs, by leaving out statements, then words, then bytes, as long as that is found."""
    for pattern in (rb"[^.]*\.\s*", rb"\S+\s*", rb"(?s)."):
        while True:
            text = result.input.text
            texts = {text[:m.start()] + text[m.end():] for m in re.finditer(pattern, text)}
            tries = [result.input._replace(text=t) for t in sorted(texts, key=lambda t: (len(t), t))]
            smaller = [r for r in compare(oracle, definition, tries) if r.differs()] if tries else []
            if not smaller:
                break
            result = smaller[0]
    return result


def main():
    parser = argparse.ArgumentParser(description="Compares the definition with the original Rust on generated inputs.")
    parser.add_argument("oracle_src", type=pathlib.Path, help="the folder with the Rust files")
    parser.add_argument("count", type=int, help="how many inputs")
    parser.add_argument("seed", type=int)
    parser.add_argument("--repo", type=pathlib.Path, default=ROOT,
                        help="the repository with crates.txt and the crate definition")
    parser.add_argument("--batch", type=int, default=300, help="inputs to one run of antt")
    parser.add_argument("--shrink", type=int, default=0, help="make up to this many differences smaller")
    parser.add_argument("--scratch", type=pathlib.Path,
                        help="an empty folder for the scratch repository, which is then kept")
    o = parser.parse_args()

    oracle = Oracle(o.oracle_src)
    inputs = generate(o.count, o.seed)
    kinds, differences = collections.Counter(), []
    with tempfile.TemporaryDirectory() as temporary:
        definition = Definition(o.repo, o.scratch or pathlib.Path(temporary))
        began = time.time()
        for at in range(0, len(inputs), o.batch):
            for r in compare(oracle, definition, inputs[at:at + o.batch]):
                what = "copybooks" if r.input.usage is None else "pictures"
                if r.differs():
                    differences.append(r)
                elif not has_answer(r.input):
                    how = "accepted" if r.oracle[0] == 1 else f"refused {r.oracle[1]}"
                    kinds[what, f"left out, literals, P or usages: {how}"] += 1
                elif r.added():
                    kinds[what, f"left out, refused {r.added()}"] += 1
                else:
                    kinds[what, "accepted" if r.oracle[0] == 1 else f"refused {r.oracle[1]}"] += 1
            done = min(at + o.batch, len(inputs))
            print(f"{done} of {len(inputs)} inputs, {len(differences)} differences, {time.time() - began:.0f} s",
                  file=sys.stderr, flush=True)
        small = [shrunk(oracle, definition, r) for r in differences[:o.shrink]]

    for what in ("copybooks", "pictures"):
        here = {kind: n for (w, kind), n in kinds.items() if w == what}
        print(f"{sum(n for kind, n in here.items() if not kind.startswith('left'))} {what} compared")
        for kind in sorted(here, key=lambda k: (k.startswith("left"), int("0" + re.sub(r"\D", "", k)))):
            print(f"    {kind}: {here[kind]}")
    print(f"{len(differences)} differences (seed {o.seed})")
    for r in differences:
        print(r)
    for r in small:
        print(f"made smaller:\n{r}")
    return 1 if differences else 0


if __name__ == "__main__":
    sys.exit(main())
