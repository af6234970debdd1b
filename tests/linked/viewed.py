#!/usr/bin/env python3
"""viewed.py SHEET LISTING: prints what examples/viewer.c has to print for a sheet that is not refused, from the sheet's own lines and from
its listing."""

import struct
import sys
from fractions import Fraction

STATES = {"1": "patched", "2": "long, left open", "3": "no allowed cover, left open", "4": "rim"}


def values(path):
    with open(path, encoding="ascii") as file:
        return [line.rstrip("\n").split("=") for line in file]


lines = values(sys.argv[1])
pitch = int(lines[0][1]) if lines[0][0] == "pitch" else 1
print(f"pitch: {pitch}")
point = triangle = 0
for key, value in lines:
    if key == "p":
        # round takes a tie to the even number, as the grid does to the even multiple
        floats = struct.unpack(">3f", bytes.fromhex(value.replace(",", "")))
        print(f"point {point}:", *(round(Fraction(number) / pitch) * pitch for number in floats))
        point += 1
    elif key == "t":
        print(f"triangle {triangle}:", *value.split(","))
        triangle += 1

loop = -1
for key, value in values(sys.argv[2]):
    if key == "loop":
        loop += 1
        _, state, weight, first, piece, run = value.split(",")
    elif key == "ring":
        source = f"in piece {piece}, from half-edge {first} of triangle {int(first) // 3}"
        print(f"loop {loop}: {STATES[state]}; weight {weight}; run {run}; {source}; ring", *value.split(","))
    elif key == "patch":
        print(f"patch of loop {loop}:", *value.split(","))
