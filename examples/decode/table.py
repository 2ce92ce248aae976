#!/usr/bin/env python3
"""A file as a table of an SQL database, by a flat layout:

    copybook layout --json --flat catch.cpy | ./table.py catch.dat

The table has the whole records, and the view a column for each row of the layout: digits as numbers, text as text, and
all else as the bytes."""
import json
import sqlite3
import sys


def column(row):
    """A row of the layout as a column of the view."""
    part = f"substr(bytes, {row['first'] + 1}, {row['width']})"
    as_text = f"CAST({part} AS TEXT)"
    if row["storage"] == "display" and row["sign"] == "none":
        part = f"CAST({as_text} AS INTEGER) / 1{'0' * row['after_point']}.0" if row["after_point"] else \
            f"CAST({as_text} AS INTEGER)"
    elif row["storage"] in (None, "edited"):
        part = as_text
    return f'{part} AS "{row["name"]}"'


layout = json.load(sys.stdin)
length = layout["record_length"]
with open(sys.argv[1], "rb") as file:
    data = file.read()
database = sqlite3.connect(":memory:")
database.execute("CREATE TABLE records (bytes BLOB)")
records = [(data[start:start + length],) for start in range(0, len(data), length)]
database.executemany("INSERT INTO records VALUES (?)", records)
database.execute(f"CREATE VIEW catch AS SELECT {', '.join(map(column, layout['rows']))} FROM records")
asked = 'SELECT BOAT, YYYY, MM, "SPECIES(2)", hex(WEIGHT) FROM catch WHERE YYYY > 0 ORDER BY LANDED'
for row in database.execute(asked):
    print(*row)
