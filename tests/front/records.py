"""What is kept of a loop, its first half-edge, its piece and its run, and the report of rims, tide pools and lakes, by a model of its own,
from the sentences of the requests; and what is said of them."""
import struct
from fractions import Fraction

STATES = {1: 'patched', 2: 'long', 3: 'open', 4: 'rim'}
KINDS = {1: 'rim', 2: 'tide pool', 3: 'lake'}
MOST_NAMED = 5  # of the loops in a state that stay open


def surface_of(text):
    """The points of a sheet's text on its grid, and its triangles. A coordinate goes to the nearest multiple of the pitch, a tie to the
    even multiple."""
    pitch, points, triangles = 1, [], []
    for line in text.decode().split('\n')[:-1]:
        key, value = line.split('=')
        if key == 'pitch':
            pitch = int(value)
        elif key == 'p':
            floats = (struct.unpack('>f', bytes.fromhex(word))[0] for word in value.split(','))
            points.append([round(Fraction(number) / pitch) * pitch for number in floats])
        elif key == 't':
            triangles.append([int(corner) for corner in value.split(',')])
    return points, triangles


def half_edges(triangles):
    """The number of each half-edge by its two ends: h runs from corner h to the next corner of its triangle."""
    return {(three[i], three[(i + 1) % 3]): 3 * t + i for t, three in enumerate(triangles) for i in range(3)}


def pieces_of(triangles):
    """The piece of each triangle. Pieces are groups of triangles joined through shared edges, numbered in the order of their smallest."""
    edges, pieces = half_edges(triangles), {}
    for start in range(len(triangles)):
        if start in pieces:
            continue
        number, waiting = len(set(pieces.values())), [start]
        while waiting:
            triangle = waiting.pop()
            if triangle in pieces:
                continue
            pieces[triangle] = number
            three = triangles[triangle]
            sides = ((three[i], three[(i + 1) % 3]) for i in range(3))
            waiting += [edges[end, begin] // 3 for begin, end in sides if (end, begin) in edges]
    return pieces


def run_of(points, ring):
    """The sum over the edges of a ring of the three absolute differences."""
    return sum(abs(a - b) for one, other in zip(ring, ring[1:] + ring[:1]) for a, b in zip(points[one], points[other]))


def records_of(text, rings):
    """First half-edge, piece and run of each loop of a sheet's text, whose rings these are."""
    points, triangles = surface_of(text)
    edges, pieces = half_edges(triangles), pieces_of(triangles)
    firsts = [edges[ring[0], ring[1]] for ring in rings]
    return [(first, pieces[first // 3], run_of(points, ring)) for first, ring in zip(firsts, rings)]


def many(count, one):
    """How many there are of something: `1 lake`, `1,024 lakes`."""
    return f'{count:,} {one}{"" if count == 1 else "s"}'


def size_said(ring, record):
    return f'{many(len(ring), "edge")}, run {many(record[2], "plate unit")}'


def begin_said(ring, record, triangle):
    """Where a loop begins; a triangle of a binary STL file is a facet."""
    return f'begins with half-edge {record[0]} of {triangle} {record[0] // 3}, from point {ring[0]} to point {ring[1]}'


def line_said(number, state, ring, record, triangle='triangle'):
    """What is said of a loop."""
    return (f'  loop {number}, {STATES[state]}, in piece {record[1]}: {size_said(ring, record)}; '
            f'{begin_said(ring, record, triangle)}\n').encode()


def lines_said(text, states, rings, is_all, triangle='triangle'):
    """What is said of all loops of a sheet's text, or of those alone that are named, since they stay open."""
    lines, named = [], {2: 0, 3: 0}
    for number, (state, ring, record) in enumerate(zip(states, rings, records_of(text, rings))):
        is_named = state in named and named[state] < MOST_NAMED
        if is_named:
            named[state] += 1
        if is_all or is_named:
            lines.append(line_said(number, state, ring, record, triangle))
    return b''.join(lines)


def loops_of(listing):
    """States and rings of a listing."""
    lines = [line.split('=') for line in listing.decode().split('\n')[:-1]]
    states = [int(value.split(',')[1]) for key, value in lines if key == 'loop']
    return states, [[int(vertex) for vertex in value.split(',')] for key, value in lines if key == 'ring']


def entries_of(text, rings):
    """The entries of the report of a sheet's text, whose rings these are, each a kind and a number: for each piece the piece, its rim,
    which is the loop of the greatest run, of equals the first, its tide pools, which share a vertex with that rim, and its lakes."""
    records, entries = records_of(text, rings), []
    for piece in sorted(set(pieces_of(surface_of(text)[1]).values())):
        own = [loop for loop, record in enumerate(records) if record[1] == piece]
        rim = max(own, key=lambda loop: (records[loop][2], -loop), default=None)
        kinds = {loop: 1 if loop == rim else 2 if set(rings[loop]) & set(rings[rim]) else 3 for loop in own}
        entries += [(0, piece)] + [(kind, loop) for kind in KINDS for loop in own if kinds[loop] == kind]
    return entries


def kinds_of(text, rings):
    """The kind of each loop, by its number."""
    return {loop: kind for kind, loop in entries_of(text, rings) if kind != 0}


def entries_printed(text, listing):
    """What the charting program prints for a sheet's text, whose listing this is; both refuse the same."""
    if not listing.startswith(b'answer=0,0\n'):
        return listing
    entries = entries_of(text, loops_of(listing)[1])
    lines = ['answer=0,0', f'entries={len(entries)}'] + [f'entry={kind},{number}' for kind, number in entries]
    return ('\n'.join(lines) + '\n').encode()


def left_open_said(states):
    """What is said of the loops that stay open, behind how much there is."""
    said = ''
    for state, how in ((2, 'long'), (3, 'without an allowed cover')):
        loops = [str(loop) for loop, each in enumerate(states) if each == state]
        more = f' and {len(loops) - MOST_NAMED} more' if len(loops) > MOST_NAMED else ''
        if loops:
            said += f'; {len(loops)} {how}, LEFT OPEN: loop{"" if len(loops) == 1 else "s"} {", ".join(loops[:MOST_NAMED])}{more}'
    return said


def summary_said(entries, states):
    """How much a report has."""
    count = {kind: sum(each == kind for each, _ in entries) for kind in range(4)}
    if count[0] == 0:
        return 'no triangles, so no pieces'
    closed = f', {count[0] - count[1]:,} closed' if count[0] > count[1] else ''
    parts = [many(count[kind], name) if count[kind] else f'no {name}s' for kind, name in KINDS.items()]
    return f'{many(count[0], "piece")}{closed}: {", ".join(parts)}{left_open_said(states)}'


def parted(entries):
    """The entries by pieces: of each piece its number, and its loops by their kinds."""
    pieces = []
    for kind, number in entries:
        if kind == 0:
            pieces.append((number, {each: [] for each in KINDS}))
        else:
            pieces[-1][1][kind].append(number)
    return pieces


def report_printed(text, listing, made='', triangle='triangle'):
    """The report in words of a sheet's text, whose listing this is; `made` tells what it was made of."""
    if not listing.startswith(b'answer=0,0\n'):
        return listing
    states, rings = loops_of(listing)
    records, entries = records_of(text, rings), entries_of(text, rings)
    lines = [made + summary_said(entries, states)]
    for piece, loops in parted(entries):
        head = [f'piece {piece}: closed']
        for rim in loops.pop(1):
            head = [f'piece {piece}: rim loop {rim} of {size_said(rings[rim], records[rim])}']
        inside = [many(len(some), KINDS[kind]) for kind, some in loops.items() if some]
        lines.append('; '.join(head + [', '.join(inside)] if inside else head))
        for kind, loop in ((kind, loop) for kind, some in loops.items() for loop in some):
            lines.append(f'  loop {loop}, {KINDS[kind]}, {STATES[states[loop]]}: {size_said(rings[loop], records[loop])}; '
                         f'{begin_said(rings[loop], records[loop], triangle)}')
    return ('\n'.join(lines) + '\n').encode()
