"""What GnuCOBOL answers about copybooks: `ask`. A program that copies them all is compiled with cobc and run. For each item that has a name it shows the distance of
its first occurrence from the record's start (a difference of addresses), its length (LENGTH OF) and the distance from its first occurrence to its second.
"""

import pathlib
import re
import subprocess
import textwrap

from copybooks import Item, walk

# IBM's rules: COMP in 2, 4 and 8 bytes.
COBC = ["cobc", "-x", "-std=ibm", "-w"]

HEAD = """IDENTIFICATION DIVISION.
PROGRAM-ID. ASK.
DATA DIVISION.
WORKING-STORAGE SECTION.
01 ASK-RECORD POINTER.
01 ASK-RECORD-N REDEFINES ASK-RECORD PIC 9(18) COMP-5.
01 ASK-FIRST POINTER.
01 ASK-FIRST-N REDEFINES ASK-FIRST PIC 9(18) COMP-5.
01 ASK-SECOND POINTER.
01 ASK-SECOND-N REDEFINES ASK-SECOND PIC 9(18) COMP-5.
01 ASK-OFFSET PIC S9(9) COMP-5.
01 ASK-STRIDE PIC S9(9) COMP-5.
01 ASK-LENGTH PIC 9(9) COMP-5.
01 ASK-NUMBER PIC 9(9) COMP-5.
01 ASK-NAME PIC X(40).
"""
SHOW = """    STOP RUN.
ASK-SHOW.
    COMPUTE ASK-OFFSET = ASK-FIRST-N - ASK-RECORD-N
    COMPUTE ASK-STRIDE = ASK-SECOND-N - ASK-FIRST-N
    DISPLAY ASK-NUMBER " " ASK-NAME " " ASK-OFFSET " " ASK-LENGTH " " ASK-STRIDE.
"""


def reference(item, above, last=1):
    """The item with its subscripts: 1 for every table around it, `last` for its own."""
    subscripts = ["1" for table in above if table.occurs] + ([str(last)] if item.occurs else [])
    return f"{item.name}({' '.join(subscripts)})" if subscripts else item.name


def show(item, above=()):
    second = reference(item, above, 2) if item.occurs and item.occurs > 1 else reference(item, above)
    return (f'    MOVE "{item.name.upper()}" TO ASK-NAME\n    SET ASK-FIRST TO ADDRESS OF {reference(item, above)}\n    SET ASK-SECOND TO ADDRESS OF {second}\n'
            f"    MOVE LENGTH OF {item.name} TO ASK-LENGTH\n    PERFORM ASK-SHOW\n")


def questions(copybook):
    """The statements that show each record and each named item, after every DEPENDING ON item was given the most occurrences."""
    out = f"    MOVE {copybook.number} TO ASK-NUMBER\n"
    for item, _ in walk(copybook.items):
        if item.depending:
            out += f"    MOVE {item.occurs} TO {item.depending}\n"
    for record in copybook.items if copybook.root else [Item(copybook.record(), children=copybook.items)]:
        out += f"    SET ASK-RECORD TO ADDRESS OF {reference(record, ())}\n"
        out += "".join(show(item, above) for item, above in walk([record]) if item.name != "FILLER")
    return out


def program(copybooks):
    data = "".join(("" if c.root else f"01 {c.record()}.\n") + f'COPY "c{c.number}.cpy".\n' for c in copybooks)
    return HEAD + data + "PROCEDURE DIVISION.\nASK-ALL.\n" + "".join(questions(c) for c in copybooks) + SHOW


def fixed(text):
    """A program of free lines in fixed columns."""
    lines = (textwrap.wrap(line, 60, break_on_hyphens=False) for line in text.splitlines())
    return "".join(f"{'':11}{part}\n" for line in lines for part in line)


def ask(copybooks, folder):
    """By number: the error texts that cobc has for a copybook, or the places of its items by name, in capitals: (offset, length, stride or None)."""
    answers = {}
    for cards in (False, True):
        some = [c for c in copybooks if c.cards() == cards]
        if some:
            answers |= ask_form(some, folder, cards)
    return answers


def ask_form(copybooks, folder, cards):
    """The same of copybooks that are all on cards, or all free text."""
    folder = pathlib.Path(folder)
    answers = {}
    left = list(copybooks)
    for c in left:
        (folder / f"c{c.number}.cpy").write_bytes(c.text().encode())
    while left:
        (folder / "ask.cob").write_text(fixed(program(left)) if cards else program(left))
        form = "-fixed" if cards else "-free"
        made = subprocess.run(COBC + [form, "-o", "ask", "ask.cob"], cwd=folder, capture_output=True, text=True)
        if made.returncode == 0:
            break
        errors = {}
        for number, message in re.findall(r"^c(\d+)\.cpy:\d+: error: (.*)$", made.stderr, re.M):
            errors.setdefault(int(number), []).append(message)
        if not errors:
            # an error of the program itself: the copybooks are asked one by one, to find whose it is
            if len(left) > 1:
                for c in left:
                    answers.update(ask([c], folder))
                return answers
            errors = {left[0].number: [made.stderr]}
        answers.update(errors)
        left = [c for c in left if c.number not in errors]
    if left:
        ran = subprocess.run([str(folder / "ask")], capture_output=True, text=True, check=True)
        for line in ran.stdout.splitlines():
            number, name, offset, length, stride = line.split()
            answers.setdefault(int(number), {})[name] = (int(offset), int(length), int(stride) or None)
    return answers


def version():
    return subprocess.run(["cobc", "--version"], capture_output=True, text=True, check=True).stdout.splitlines()[0]
