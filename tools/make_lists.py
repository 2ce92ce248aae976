#!/usr/bin/env python3
"""Writes the lists that the program test_lists replays, in crates/test_lists/data.

    tools/make_lists.py [ORACLE_SRC]

ORACLE_SRC is the folder with the Rust files; tools/oracle is built from it, and asked. The inputs are those of
tools/makers, with a fixed seed, so that the same lists are made each time, and the answers those of tools/readings:

- picture/pictures.txt: pictures with the Rust's answers; those with P, where it has none, with the reading's.
- picture/document.txt: pictures with answers that the Rust cannot give, written by hand.
- reader/texts.txt: copybook texts with their kept statements. Where the Rust has an answer, the two are compared: its
  refusals 10 to 13, and where it accepts a copybook without REDEFINES, the names, the nesting, the counts and the
  DEPENDING ON names.
- layout/layouts1.txt to layouts4.txt: copybook texts with their listing or refusal. Each answer is compared with the
  Rust's: the listing, read back into the oracle's numbers, or the number of the refusal. Where the answer is a refusal
  that docs/RULES.md adds, the Rust's is held against the reason as far as it shows.
- layout/document.txt: copybooks with answers written by hand: the worked example, limits and traps.

The Rust has none of what the others ask for; without ORACLE_SRC these alone are written:

- layout/cards.txt: copybooks on cards with their listing or refusal.
- owner/records.txt and asked.txt: copybooks with the owners of their bytes.
- details/details.txt: copybooks, some on cards, with the details of their entries.
- reasons/reasons.txt: the same copybooks with the reasons of some entries.
- extract/extracts.txt: copybooks with weights, a limit and a budget, and the extract.
- key/keys.txt: sets of copybooks with a name, and the key. Of the last two lists the first cases are written by hand
  with their answers, which are compared.
- limits.txt in each folder: the longest text and one byte more, and work memory that is short.

A list has the lexical form of a copybook: a case is the words up to a period. An input is one word: %XX stands for a
byte, and % alone for the empty input. What follows are decimal numbers.
"""

import argparse
import pathlib
import sys

sys.dont_write_bytecode = True
from beside_rust import Oracle
from lists import extracts, keys, layouts, limits, owners, pictures, reports, texts
from lists.cases import write

MADE = "Made by tools/make_lists.py: "
RUST = "\nWhere the Rust has an answer, the two were compared."
REFUSAL = "\nA refusal is 0, its number, its position and the needed length."


def write_others():
    """The lists that need no Rust."""
    owned = MADE + "copybook texts with the owners of their bytes by tools/readings/owner.py.\n"
    write("owner/records.txt", owned + "Text, number of runs; for each run its mark (1 a piece, 2 slack), its entry, "
          "its bytes.", owners.records())
    write("owner/asked.txt", owned + "Text, position and its answer: 1, entry, first byte, place inside; 2, entry; "
          "or a refusal.", owners.asked())
    write("layout/cards.txt", MADE + "copybooks on cards with the answers of tools/readings/layout.py.",
          layouts.cards())
    write("details/details.txt", MADE + "copybooks with the details of their entries by tools/readings/details.py.\n"
          "1 for cards or 0, text; 1, length and bytes of the details, or a refusal." + REFUSAL, reports.details())
    write("reasons/reasons.txt", MADE + "copybooks with the reasons of entries by tools/readings/reasons.py.\n"
          "1 for cards or 0, number of the entry, text; 1, length and bytes of the reasons, or a refusal." + REFUSAL,
          reports.reasons())
    write("extract/extracts.txt", MADE + "copybooks with an extract by tools/readings/extract.py.\n"
          "Text, number of weights, weights, limit, budget; 1, subset, weight, number looked at, how far off; or a "
          "refusal." + REFUSAL, extracts.extracts())
    write("key/keys.txt", MADE + "sets of copybooks with their key by tools/readings/key.py.\n"
          "Number of lengths, lengths, texts, name; 1, offset, width; or a refusal." + REFUSAL, keys.keys())
    for folder, cases in limits.limit_lists():
        write(f"{folder}/limits.txt", MADE + "texts at the limits.\nWork memory, the number of bytes before the text "
              "(blanks, or X before a picture); then as the other cases here.", cases)


def write_compared(oracle):
    """The lists that the Rust answers, or was compared with."""
    write("picture/pictures.txt", MADE + "pictures with the answers of the Rust.\n"
          "Usage, sign, picture, and the numbers that tools/oracle answers.", pictures.pictures(oracle))
    write("picture/document.txt", MADE + "pictures with answers written by hand.\n"
          "Usage, sign, picture, length of the output; the answer of parse_pic; the answer of mask." + REFUSAL,
          pictures.by_hand())
    write("reader/texts.txt", MADE + "copybook texts with the answers of tools/readings/reader.py." + RUST,
          texts.texts(oracle))
    for n, cases in enumerate(layouts.parts(layouts.layouts(oracle), layouts.LAYOUT_LISTS), 1):
        write(f"layout/layouts{n}.txt", MADE + "copybook texts with the answers of tools/readings/layout.py." + RUST,
              cases)
    write("layout/document.txt", MADE + "copybooks with answers written by hand.", layouts.by_hand())


def main():
    parser = argparse.ArgumentParser(description="Writes the lists that the program test_lists replays.")
    parser.add_argument("oracle_src", type=pathlib.Path, nargs="?",
                        help="the folder with the Rust files; without it, only the lists that need no Rust")
    o = parser.parse_args()
    write_others()
    if o.oracle_src is not None:
        write_compared(Oracle(o.oracle_src))


if __name__ == "__main__":
    main()
