#!/usr/bin/env python3
"""facets.py FOLDER: makes files of facets (binary STL) at the limits, in the folder. `full` has 1,024 facets and 1,024 points, as many as
are read; `facets` has a facet more and `points` a point more. There are two of them with a byte more and a byte less besides."""
import pathlib
import struct
import sys

MOST = 1024


def word_of(corner, points):
    """Every point once, in a row, then the last ones again."""
    return 0x3f800000 + (corner if corner < points else points - 1 - corner % 24)


def facets(count, points):
    """Header, normals and attributes are bytes that would show if they were read."""
    file = b'solid facets'.ljust(80, b'\xa5') + struct.pack('<I', count)
    for facet in range(count):
        words = [word for corner in range(3) for word in (word_of(3 * facet + corner, points), 0x80000000, 0x7fc00001)]
        file += b'\xa5' * 12 + struct.pack('<9I', *words) + b'\xa5' * 2
    return file


folder = pathlib.Path(sys.argv[1])
for name, count, points in ('full', MOST, MOST), ('facets', MOST + 1, MOST), ('points', MOST, MOST + 1):
    (folder / name).write_bytes(facets(count, points))
for name in 'full', 'facets':
    file = (folder / name).read_bytes()
    (folder / f'{name}-and-a-byte').write_bytes(file + b'\0')
    (folder / f'{name}-without-its-end').write_bytes(file[:-1])
