#!/usr/bin/env python3
"""Columns of a file as numpy has them, by a flat layout:

    copybook layout --json --flat catch.cpy | ./columns.py catch.dat

Text and digits are bytes (S), packed numbers are raw (V), and what a machine computes with has its type. Needs numpy
(Debian's python3-numpy)."""
import json
import sys

import numpy


def column(row):
    """The type of a row of the layout."""
    width = row["width"]
    if row["storage"] == "binary":
        return f"{'=' if row['endian'] == 'native' else '>'}{'i' if row['signed'] else 'u'}{width}"
    if row["storage"] == "float":
        return f"=f{width}"
    return f"{'V' if row['storage'] == 'packed' else 'S'}{width}"


layout = json.load(sys.stdin)
rows = layout["rows"]
record = numpy.dtype({
    "names": [row["name"] for row in rows],
    "formats": [column(row) for row in rows],
    "offsets": [row["first"] for row in rows],
    "itemsize": layout["record_length"],
})
data = numpy.fromfile(sys.argv[1], record)
print(data.dtype.itemsize, "bytes a record,", len(data), "records")
print("TIDE", (data["TIDE"] / 10).tolist())
print("YYYY", data["YYYY"].astype(int).tolist())
print("LATITUDE", data["LATITUDE"].mean())
print("FISH-COUNT", (data["FISH-COUNT(1)"].astype(int) + data["FISH-COUNT(2)"]).tolist())
