"""The calls of include/copybook.h from here, each answering as the readings do: numbers that begin with 1, a refusal as
`0 NUMBER POSITION NEEDED`, or a message where something was touched that should not have been.

Takes the library of the folder COPYBOOK_LIB, or target/staticlib, as it is (`tools/build library` makes it). Needs cc.
"""

import ctypes
import os
import pathlib
import subprocess
import sys

from readings.picture import BINARY, DECIMAL, EDITED, INT, TEXT
from readings.reader import Cards

ROOT = pathlib.Path(__file__).resolve().parent.parent
WORK, ROOM, MASK_ROOM, FILL = 16_384, 65_536, 300, 0xA5
SIZE, LONG, BYTE = ctypes.c_size_t, ctypes.c_uint64, ctypes.c_uint8


def shared(folder):
    """The static library as one that can be called from here."""
    made = pathlib.Path(folder) / "copybook.so"
    archive = pathlib.Path(os.environ.get("COPYBOOK_LIB", ROOT / "target/staticlib")) / "libcopybook_c.a"
    if not archive.is_file():
        sys.exit(f"there is no {archive}: `tools/build library` makes one")
    whole = ["-Wl,--whole-archive", archive, "-Wl,--no-whole-archive"]
    subprocess.run([os.environ.get("CC", "cc"), "-shared", "-o", made, *whole], check=True)
    return ctypes.CDLL(str(made))


class Library:
    """The calls over one set of buffers; those for cards where a text is on cards."""

    def __init__(self, folder):
        self.calls = shared(folder)
        self.work, self.out = (ctypes.c_uint32 * WORK)(), (BYTE * ROOM)()

    def call(self, name, *given, count):
        """The number of the refusal, or 0, and so many numbers of the answer."""
        numbers = (LONG * count)()
        refused = getattr(self.calls, name)(*given, numbers, SIZE(count))
        return refused, list(numbers)

    def ask(self, name, text, *given, count):
        """The same of a call that reads a copybook, whose work memory must be zero after it, or else a message."""
        ctypes.memset(self.work, FILL, ctypes.sizeof(self.work))
        name = f"{name}_cards" if isinstance(text, Cards) else name
        refused, answer = self.call(name, bytes(text), SIZE(len(text)), *given, count=count)
        return refused, answer, "" if bytes(self.work) == bytes(4 * WORK) else "work memory is not zero"

    def filled(self, most):
        """The output, so many bytes of it filled with what no call may touch past its answer."""
        ctypes.memset(self.out, FILL, most)
        return self.out

    def written(self, most, refused, answer, fault=""):
        """What a call has written, its length before it, or the refusal; the bytes past it must be as they were."""
        out, written = memoryview(self.out)[:most].tobytes(), 0 if refused else answer[0]
        if out[written:] != bytes([FILL]) * (most - written):
            fault = "the output is touched past the answer"
        return fault or ([0, refused, *answer[:2]] if refused else [1, written, *out[:written]])

    def report(self, name, text, *asked, room=ROOM):
        """The bytes of a report in an output of so many bytes, by the call of this name."""
        given = *asked, self.work, SIZE(WORK), self.filled(ROOM), SIZE(room)
        return self.written(ROOM, *self.ask(name, text, *given, count=2))

    def layout(self, text, room=ROOM):
        return self.report("copybook_layout", text, room=room)

    def details(self, text, room=ROOM):
        return self.report("copybook_details", text, room=room)

    def words(self, text, room=ROOM):
        return self.report("copybook_words", text, room=room)

    def reasons(self, text, entry, room=ROOM):
        return self.report("copybook_reasons", text, LONG(entry), room=room)

    def owner(self, text, position):
        refused, answer, fault = self.ask("copybook_owner", text, LONG(position), self.work, SIZE(WORK), count=4)
        if fault or refused:
            return fault or [0, refused, *answer[:2]]
        return [2, answer[1]] if answer[0] else [1, *answer[1:]]

    def extract(self, text, weights, limit, budget):
        given = (ctypes.c_uint32 * len(weights))(*weights), SIZE(len(weights)), LONG(limit), LONG(budget)
        refused, answer, fault = self.ask("copybook_extract", text, *given, self.work, SIZE(WORK), count=4)
        return fault or ([0, refused, *answer[:2]] if refused else [1, *answer])

    def key(self, texts, lengths, name):
        """The key of copybooks that stand one after the other."""
        stated = (LONG * len(lengths))(*lengths)
        given = stated, SIZE(len(lengths)), bytes(name), SIZE(len(name)), self.work, SIZE(WORK)
        refused, answer, fault = self.ask("copybook_key", texts, *given, count=2)
        return fault or ([0, refused, *answer] if refused else [1, *answer])

    def picture(self, text, usage, sign):
        refused, answer = self.call("copybook_picture", text, SIZE(len(text)), BYTE(usage), BYTE(sign), count=7)
        kind, width, signed, sign, precision, scale, storage = answer
        if refused:
            return [0, refused, kind, width]
        details = {TEXT: [], INT: [signed, sign], BINARY: [signed], DECIMAL: [precision, scale, storage, sign],
                   EDITED: [precision, scale, signed]}[kind]
        return [1, width, kind, *details]

    def mask(self, text, usage, room):
        """The mask in an output of so many bytes, without its length before it."""
        given = text, SIZE(len(text)), BYTE(usage), self.filled(MASK_ROOM), SIZE(room)
        got = self.written(MASK_ROOM, *self.call("copybook_mask", *given, count=2))
        return got if isinstance(got, str) or not got[0] else [1, *got[2:]]
