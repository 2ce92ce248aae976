"""What the command prints: the lines of `copybook layout` and `copybook owner`, as docs/FORMATS.md has them.

`layout_lines(text, numbers)` are those of a listing, read back from its bytes; `owner_lines(text)` those of a record as
laid, and `owner_lines(text, position)` that of one byte. `entries_of(text, listing)` reads a listing back.
"""

import struct

from readings import layout, owner
from readings.picture import BINARY, DECIMAL, EDITED, FLOAT, GROUP, INT, TEXT

WORDS = {TEXT: "text", INT: "int", BINARY: "bin", DECIMAL: "dec", EDITED: "edit", GROUP: "group", FLOAT: "float"}


# ---------------------------------------------------------------- a listing read back

BODIES = {TEXT: 0, INT: 2, BINARY: 1, DECIMAL: 4, EDITED: 11, GROUP: 4, FLOAT: 1}


def entries_of(text, made):
    """The entries of a listing in its order: kind, its 37 bytes as numbers and parts of the text, and the bytes after
    these."""
    at = 10
    while at < len(made):
        kind, body = made[at], made[at + 1:]
        start, size, offset, width, mark, count, *names = struct.unpack("<4IB5I", body[:37])
        parts = [text[s:s + n] for s, n in ((start, size), names[:2], names[2:])]
        yield kind, parts[0] or b"FILLER", offset, width, mark, count, parts[1], parts[2], body[37:37 + BODIES[kind]]
        at += 38 + BODIES[kind]


def head_of(made):
    """Record length, 1 if it varies, and the number of entries at the top."""
    return struct.unpack("<IBI", made[1:10])


# ---------------------------------------------------------------- the lines


def layout_lines(text, numbers):
    """What is printed for an answer of the layout listing."""
    if numbers[0] == 0:
        return b"refused %d %d\n" % (numbers[1], numbers[2])
    made = bytes(numbers[2:])
    length, variable, top = head_of(made)
    lines = [b"record %d %s %d" % (length, b"variable" if variable else b"fixed", top)]
    left = [top]
    for kind, name, offset, width, mark, count, depending, redefines, rest in entries_of(text, made):
        while left[-1] == 0:
            left.pop()
        left[-1] -= 1
        occurs = b"%d" % count if mark else b"-"
        lines.append(b"%d %s %d %d %s %s %s %s" % (len(left) - 1, name, offset, width, WORDS[kind].encode(), occurs,
                                                   depending or b"-", redefines or b"-"))
        if kind == GROUP:
            left.append(struct.unpack("<I", rest)[0])
    return b"\n".join(lines) + b"\n"


def owner_lines(text, position=None):
    """What is printed for a position, or for the whole record."""
    refusal = owner.answer(text, 0 if position is None else position)
    if refusal[0] == 0 and (position is not None or refusal[1] != 41):
        return f"refused {refusal[1]} {refusal[2]}\n"
    record, paths = owner.laid(text)
    statements = list(owner.flat(layout.top_list(text)))

    def described(p):
        mark, number, *_ = record[p]
        s, inner = statements[number]
        if mark == owner.SLACK:
            return f"slack {'at the end of' if inner else 'before'} {number} {paths[p]}"
        item = layout.elementary(s)
        return f"entry {number} {paths[p]} {WORDS[item.kind]} {item.width}"

    if position is not None:
        inside = "" if record[position][0] == owner.SLACK else " first %d place %d" % record[position][2:]
        return f"{position} {described(position)}{inside}\n"
    out, first = "", 0
    for _, _, width in owner.runs(record):
        out += f"{first}-{first + width - 1} {described(first)}\n"
        first += width
    return out
