"""Binary STL files as the tests make them, and what has to become of a file: a model of its own, from the sentences of the scope."""
import struct

FRONT, FACET = 84, 50  # the bytes before the first facet, and those of a facet
MOST = 1024  # facets, and points
LONGEST = FRONT + FACET * MOST
NAN, INFINITE, MINUS_ZERO = 0x7fc00000, 0x7f800000, 0x80000000
SHEET_BEGINS = b'points=', b'pitch='


def word(value):
    """The bits of a float; a number that is whole already is taken for bits."""
    return value if isinstance(value, int) else struct.unpack('<I', struct.pack('<f', value))[0]


def stl(facets, header=b'made', count=None, order='<', normal=(0.0, 0.0, 1.0), attribute=0):
    """A file of facets, three corners of three numbers each."""
    data = header.ljust(80, b'\0')[:80] + struct.pack(f'{order}I', len(facets) if count is None else count)
    for facet in facets:
        words = [word(number) for corner in facet for number in corner]
        data += struct.pack('<3f9IH', *normal, *words, attribute)
    return data


def grid(columns, rows, up=0.0):
    """The facets of a sheet of squares, two each."""
    facets = []
    for x in range(columns):
        for y in range(rows):
            a, b, c, d = ((float(x + i), float(y + j), up) for i, j in ((0, 0), (1, 0), (1, 1), (0, 1)))
            facets += [(a, b, c), (a, c, d)]
    return facets


def apart(count):
    """Facets without a common point."""
    return [((3.0 * i, 0.0, 0.0), (3.0 * i + 1, 0.0, 0.0), (3.0 * i, 1.0, 0.0)) for i in range(count)]


def answer(number):
    return f'answer={number},0\n'.encode()


def count_of(data):
    return int.from_bytes(data[80:84], 'little')


def is_well_sized(data):
    return len(data) >= FRONT and len(data) == FRONT + FACET * count_of(data)


def surface(data):
    """The points, by first use, and the triangles of a file whose length fits."""
    points, triangles = {}, []
    for at in range(FRONT, len(data), FACET):
        words = [0 if bits == MINUS_ZERO else bits for bits in struct.unpack_from('<9I', data, at + 12)]
        triangles.append([points.setdefault(tuple(words[i:i + 3]), len(points)) for i in (0, 3, 6)])
    return list(points), triangles


def imported(data, pitch=1):
    """What importing prints, and what the front does at another pitch."""
    if not is_well_sized(data):
        return answer(16)
    if count_of(data) > MOST:
        return answer(2)
    points, triangles = surface(data)
    if len(points) > MOST:
        return answer(1)
    lines = [f'pitch={pitch}'] if pitch != 1 else []
    lines += [f'points={len(points)}'] + ['p={:08x},{:08x},{:08x}'.format(*point) for point in points]
    lines += [f'triangles={len(triangles)}'] + ['t={},{},{}'.format(*three) for three in triangles]
    return ('\n'.join(lines) + '\n').encode()


def unmarked(data):
    """A text without its byte order mark."""
    return data[3:] if data.startswith(b'\xef\xbb\xbf') else data


def is_ascii_stl(data):
    seen = data[:LONGEST + 1]
    return unmarked(seen).lstrip().lower().startswith(b'solid') and b'\0' not in seen


def is_taken_for_stl(name, data):
    """Whether what is given for a sheet is a binary STL file."""
    if is_well_sized(data):
        return True
    if unmarked(data).startswith(SHEET_BEGINS) or is_ascii_stl(data):
        return False
    return b'\0' in data[:LONGEST + 1] or name.lower().endswith('.stl')


def counts_of(text):
    """How many points and triangles a sheet's text has, by its counts."""
    return [int(line.split(b'=')[1]) for line in text.split(b'\n') if line.startswith((b'points=', b'triangles='))]


def pitch_of(text):
    """The pitch of a sheet's text whose first line is right."""
    first = text.split(b'\n')[0]
    return int(first.split(b'=')[1]) if first.startswith(b'pitch=') else 1


def made_of(name, text):
    """What is said of a file that is read: `wazelpunt: part.stl: binary STL, 12 facets, 8 points`, and behind that the pitch, if not 1."""
    points, facets = counts_of(text)
    pitch = f', pitch {pitch_of(text)}' if pitch_of(text) != 1 else ''
    return (f'wazelpunt: {name}: binary STL, {facets:,} facet{"" if facets == 1 else "s"}, '
            f'{points:,} point{"" if points == 1 else "s"}{pitch}').encode()
