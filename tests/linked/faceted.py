#!/usr/bin/env python3
"""faceted.py SHEET TIMES: prints the triangles of a sheet, so many times over, as a file of facets (binary STL)."""

import struct
import sys


def stl_of(words, count=None):
    """A file of facets with these words, nine each, and with that count, or the one that fits. What a reader does not look at has bytes
    that would be told."""
    facets = [b"\xa5" * 12 + struct.pack("<9I", *words[i : i + 9]) + b"\xa5\xa5" for i in range(0, len(words), 9)]
    return b"solid ".ljust(80, b"\xa5") + struct.pack("<I", len(facets) if count is None else count) + b"".join(facets)


def main(sheet, times):
    points, words = [], []
    with open(sheet, encoding="ascii") as file:
        for key, value in (line.rstrip("\n").split("=") for line in file):
            if key == "p":
                points.append([int(word, 16) for word in value.split(",")])
            elif key == "t":
                words += [word for corner in value.split(",") for word in points[int(corner)]]
    sys.stdout.buffer.write(stl_of(words * int(times)))


if __name__ == "__main__":
    main(*sys.argv[1:])
