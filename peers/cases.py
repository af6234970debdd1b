"""The cases of peers/run: the sheets of examples/, and the field's usual ones, made here, always the same. A case is a name, what it is,
its points (three binary32 numbers each) and its triangles (three point numbers each)."""
import struct
from collections import namedtuple

Case = namedtuple('Case', 'name about points triangles')

EXAMPLES = {
    'bow-tie': 'two triangles that share only a vertex',
    'cone': 'a cone without its base',
    'crossed': 'two triangles, and one on the ends of a diagonal',
    'even-cone': 'a cone whose base has two equal covers',
    'folded': 'two triangles, folded along their edge',
    'islands': 'two pieces, a sheet and a cone',
    'nothing': 'no points and no triangles',
    'pinched': 'a strip whose ring touches itself',
    'plate': 'a triangular plate with a hole of 3',
    'plate-cone': 'a plate with a bent hole of 4',
    'plate-crossed': 'a hole of 4, both of its diagonals there already (barred)',
    'plate-even-cone': 'a hole of 4 with two equal covers',
    'plate-folded': 'a hole of 4, one of its diagonals there already',
    'range': 'a full sheet with many holes, one long and one barred',
    'relief': 'a relief with several holes, one barred',
    'repeated': 'two triangles with one edge, in the same order',
    'sample': 'one triangle',
}


def binary32(number):
    return struct.unpack('<f', struct.pack('<f', number))[0]


def read_sheet(path):
    """The points and triangles of a sheet text."""
    points, triangles = [], []
    for line in path.read_text().splitlines():
        key, _, value = line.partition('=')
        if key == 'p':
            points.append(tuple(struct.unpack('>f', bytes.fromhex(word))[0] for word in value.split(',')))
        if key == 't':
            triangles.append(tuple(int(corner) for corner in value.split(',')))
    return points, triangles


def sheet_text(points, triangles):
    lines = [f'points={len(points)}']
    lines += ['p=' + ','.join(struct.pack('>f', number).hex() for number in point) for point in points]
    lines += [f'triangles={len(triangles)}']
    lines += ['t=' + ','.join(map(str, triangle)) for triangle in triangles]
    return ''.join(line + '\n' for line in lines)


def ring(count, radius, height=0):
    """A ring in plan, of whole coordinates, anticlockwise: a square whose sides are cut evenly."""
    corners = [(-radius, -radius), (radius, -radius), (radius, radius), (-radius, radius), (-radius, -radius)]
    points = []
    for place in range(count):
        side, rest = divmod(4 * place, count)
        (x, y), (u, v) = corners[side], corners[side + 1]
        points.append((round(x + (u - x) * rest / count), round(y + (v - y) * rest / count), height))
    return points


def band(outer, inner):
    """The triangles between two rings of one length, seen from above: the plate round a hole."""
    count = len(outer)
    pairs = [(k, (k + 1) % count) for k in range(count)]
    return [t for k, m in pairs for t in ((outer[k], outer[m], inner[k]), (outer[m], inner[m], inner[k]))]


def plate(count, inner=None):
    """A square plate with a hole of so many edges; `inner` gives the hole's points, where they are not a smaller square."""
    return ring(count, 2000) + (inner or ring(count, 1000)), band(range(count), range(count, 2 * count))


def field(columns, rows, without, step=10, height=lambda i, j: 0):
    """A field of squares, two triangles each, without some of them."""
    points = [(i * step, j * step, height(i, j)) for j in range(rows + 1) for i in range(columns + 1)]

    def at(i, j):
        return j * (columns + 1) + i

    triangles = []
    for j in range(rows):
        for i in range(columns):
            if (i, j) not in without:
                triangles += [(at(i, j), at(i + 1, j), at(i + 1, j + 1)), (at(i, j), at(i + 1, j + 1), at(i, j + 1))]
    return points, triangles


CUBE = [(x, y, z) for z in (0, 100) for y in (0, 100) for x in (0, 100)]
CUBE_SIDES = [(0, 2, 3, 1), (0, 1, 5, 4), (1, 3, 7, 5), (3, 2, 6, 7), (2, 0, 4, 6), (4, 5, 7, 6)]


def halves(sides):
    return [t for a, b, c, d in sides for t in ((a, b, c), (a, c, d))]


def turned():
    points, triangles = plate(4)
    a, b, c = triangles[2]
    return points, triangles[:2] + [(a, c, b)] + triangles[3:]


def doubled():
    points, triangles = plate(4)
    return points, triangles + [triangles[2]]


def named_twice():
    points, triangles = plate(4)
    return points, triangles + [(0, 1, 1)]


def no_area():
    """The middle of one outer edge is a point too: a triangle without area lies along that edge."""
    points, triangles = plate(4)
    return points + [(0, -2000, 0)], triangles + [(1, 0, 8)]


def far():
    points, triangles = plate(4)
    return [(x + 40000, y, z) for x, y, z in points], triangles


def island():
    """A small square piece within the hole of a plate."""
    points, triangles = plate(8)
    return points + ring(4, 200, 50), triangles + [(16, 17, 18), (16, 18, 19)]


def touching_rim():
    """A hole of 3 with a vertex on the plate's rim."""
    points = [(0, 0, 0), (100, 0, 0), (100, 100, 0), (0, 100, 0), (30, 50, 0), (60, 60, 0)]
    return points, [(0, 1, 5), (1, 2, 5), (2, 3, 5), (5, 3, 4), (3, 0, 4)]


def torus():
    """The torus of seven points, each joined to each, without the triangles round the last: every diagonal of its hole is there already."""
    points = [(3, -3, 0), (-3, 3, 0), (-3, -3, 1), (3, 3, 1), (-1, -2, 3), (1, 2, 3), (0, 0, 15)]
    triangles = [(k % 7, (k + 1) % 7, (k + 3) % 7) for k in range(7)] + [(k % 7, (k + 3) % 7, (k + 2) % 7) for k in range(7)]
    return points[:6], [t for t in triangles if 6 not in t]


def torus_with_rim():
    """The same, and one triangle drawn out to a wide rim, so that the hole of 6 is no rim."""
    points, triangles = torus()
    return points + [(100, 0, 0), (0, 100, 0), (0, 0, 100)], triangles[1:] + band(triangles[0], (6, 7, 8))


def seam():
    """Two plates side by side, whose points along the seam differ by a hundredth."""
    left = [(0, 0, 0), (100, 0, 0), (100, 100, 0), (0, 100, 0)]
    right = [(100.01, 0, 0), (200, 0, 0), (200, 100, 0), (100.01, 100, 0)]
    return left + right, [(0, 1, 2), (0, 2, 3), (4, 5, 6), (4, 6, 7)]


def relief(step=10, height=lambda i, j: 0, blocks=((3, 3), (17, 4), (5, 15), (16, 16))):
    """A relief of 24 by 22 squares without some blocks of four; without four blocks it has 1,024 triangles."""
    without = {(i + x, j + y) for i, j in blocks for x in (0, 1) for y in (0, 1)}
    return field(24, 22, without, step, height)


FIELD = [
    ('square', 'a square plate with a hole of 4', lambda: plate(4)),
    ('cube', 'a cube without one face', lambda: (CUBE, halves(CUBE_SIDES[:5]))),
    ('holes-touch', 'two holes that share a vertex', lambda: field(6, 6, {(2, 2), (3, 3)})),
    ('hole-touches-rim', 'a pinched ring: a hole with a vertex on the rim', touching_rim),
    ('hole-64', 'a plate with a hole of 64', lambda: plate(64)),
    ('hole-65', 'a plate with a hole of 65', lambda: plate(65)),
    ('twisted', 'a hole of 4 whose ring crosses itself in plan', lambda: plate(
        4, [(-1000, -1000, 0), (1000, -1000, 300), (-1000, 1000, 0), (1000, 1000, 300)])),
    ('island', 'a plate with a hole of 8, and an island in it', island),
    ('turned', 'the square plate, one triangle turned over', turned),
    ('doubled', 'the square plate, one triangle twice', doubled),
    ('named-twice', 'the square plate, and a triangle that names a point twice', named_twice),
    ('no-area', 'the square plate, and a triangle without area', no_area),
    ('far', 'the square plate, 4 m from the origin', far),
    ('torus', 'the torus of 7 points, without one: all diagonals barred', torus),
    ('torus-rim', 'the same with a wide rim elsewhere: a barred hole of 6', torus_with_rim),
    ('seam', 'two plates whose seam gapes by 0.01', seam),
    ('flat-relief', 'a flat relief: 1,024 triangles, four holes of 8', relief),
    ('flat-relief-1032', 'the same with three holes: 1,032 triangles', lambda: relief(blocks=((3, 3), (17, 4), (5, 15)))),
    ('thirds-relief', 'the one with four holes, but steps of ten thirds, and hills', lambda: relief(
        10 / 3, lambda i, j: (i * i + 3 * j) % 7 / 3)),
]


def cases(examples):
    """All cases: those of the folder of sheets but for coarser grids, of which the others know nothing, then the field's."""
    for path in sorted(examples.glob('*.sheet'), key=lambda path: path.stem):
        if not path.read_text().startswith('pitch='):
            yield Case(path.stem, EXAMPLES.get(path.stem, 'a sheet'), *read_sheet(path))
    for name, about, make in FIELD:
        points, triangles = make()
        yield Case(name, about, [tuple(binary32(number) for number in point) for point in points], [tuple(t) for t in triangles])
