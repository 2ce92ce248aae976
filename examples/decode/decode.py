#!/usr/bin/env python3
"""Decodes the records of a file by a flat layout, a line for each value:

    copybook layout --json --flat catch.cpy | ./decode.py catch.dat

The file is one that a GnuCOBOL program wrote: text and digits are ASCII, and floats are as the machine has them."""
import json
import struct
import sys
from decimal import Decimal


def zoned(data, sign):
    """Digits, one a byte. A sign is a byte of its own, or stands in the last digit or the first: 0x40 more where it is a
    minus."""
    text = data.decode()
    if sign == "separate trailing":
        text = text[-1] + text[:-1]
    at = {"trailing": len(data) - 1, "leading": 0}.get(sign)
    if at is not None and data[at] >= 0x70:
        return -int(text[:at] + chr(data[at] - 0x40) + text[at + 1:])
    return int(text)


def packed(data):
    """Two digits a byte, and in the last half of the last byte the sign: 0xd is a minus."""
    digits = data.hex()
    return -int(digits[:-1]) if digits[-1] == "d" else int(digits[:-1])


def value(row, data):
    """What a row of the layout holds in a record."""
    data = data[row["first"]:row["first"] + row["width"]]
    storage = row["storage"]
    if storage in (None, "edited"):
        return f'"{data.decode()}"'
    if storage == "float":
        return Decimal(struct.unpack({4: "=f", 8: "=d"}[row["width"]], data)[0])
    if storage == "binary":
        order = sys.byteorder if row["endian"] == "native" else "big"
        number = int.from_bytes(data, order, signed=row["signed"])
    elif storage == "packed":
        number = packed(data)
    else:
        number = zoned(data, row["sign"])
    return Decimal(number).scaleb(-row["after_point"])


layout = json.load(sys.stdin)
with open(sys.argv[1], "rb") as file:
    while record := file.read(layout["record_length"]):
        for row in layout["rows"]:
            found = value(row, record)
            print(row["name"], found if isinstance(found, str) else f"{found:15.4f}")
