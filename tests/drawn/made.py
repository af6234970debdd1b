"""Sheets for pictures: at the limits of what a sheet may be, and some that are easy to judge by eye."""
import struct
from fractions import Fraction

GREATEST = 32767


def text_of(points, triangles, pitch=1):
    """The text of a sheet with these points, of whole numbers, and these triangles, at a pitch."""
    def word(number):
        return struct.pack('>f', float(number)).hex()

    lines = [f'pitch={pitch}'] if pitch != 1 else []
    lines += [f'points={len(points)}'] + ['p=' + ','.join(map(word, point)) for point in points]
    lines += [f'triangles={len(triangles)}'] + ['t=' + ','.join(map(str, triangle)) for triangle in triangles]
    return ('\n'.join(lines) + '\n').encode()


def numbers_of(text):
    """The points and the triangles of a sheet's text and its pitch, the points rounded as the grid is: to the nearest multiple of the
    pitch, a tie to the even multiple."""
    points, triangles, pitch = [], [], 1
    for line in text.decode().split('\n'):
        key, _, rest = line.partition('=')
        if key == 'pitch':
            pitch = int(rest)
        elif key == 'p':
            values = (Fraction(struct.unpack('>f', bytes.fromhex(word))[0]) for word in rest.split(','))
            points.append(tuple(round(value / pitch) * pitch for value in values))
        elif key == 't':
            triangles.append(tuple(map(int, rest.split(','))))
    return points, triangles, pitch


CUBE = [(x, y, z) for z in (0, 100) for y in (0, 100) for x in (0, 100)]
CUBE_FACES = [(0, 2, 3), (0, 3, 1), (4, 5, 7), (4, 7, 6), (0, 1, 5), (0, 5, 4), (2, 6, 7), (2, 7, 3), (0, 4, 6), (0, 6, 2), (1, 3, 7),
              (1, 7, 5)]


def cells(across, along, step, height):
    """A plate of squares, each of two triangles: its points, and the triangles of each square by its place."""
    points = [(x * step, y * step, height(x, y)) for y in range(along + 1) for x in range(across + 1)]
    squares = {}
    for y in range(along):
        for x in range(across):
            a = y * (across + 1) + x
            b, c, d = a + 1, a + across + 2, a + across + 1
            squares[x, y] = [(a, b, c), (a, c, d)] if (x + y) % 2 else [(a, b, d), (b, c, d)]
    return points, squares


def plate(across, along, step, height, holes=(), braced=()):
    """Such a plate without the squares of `holes`; those of `braced` are crossed by two upright triangles, so that they have no cover."""
    points, squares = cells(across, along, step, height)
    triangles = []
    for place, two in squares.items():
        if place in braced:
            x, y = place
            a = y * (across + 1) + x
            for ends in ((a, a + across + 2), (a + 1, a + across + 1)):
                points.append(tuple((points[ends[0]][i] + points[ends[1]][i]) // 2 + (20 if i == 2 else 0) for i in range(3)))
                triangles.append((*ends, len(points) - 1))
        elif place not in holes:
            triangles += two
    return points, triangles


def wave(x, y):
    return (x * x * 7 + y * y * 5 + x * y * 3) % 23 + 9 * (x % 5) + 6 * (y % 7)


def shore(across, along, step, height, pools, holes=(), braced=()):
    """Such a plate with a tide pool at each of these places, odd numbers along its front: the two triangles before the place that have no
    edge of the border are missing. Both diagonals of those that are braced are edges of upright triangles, so that they have no cover."""
    points, triangles = plate(across, along, step, height, holes)
    row = across + 1
    for x in pools:
        gone = [{x, row + x, row + x - 1}, {x, row + x, row + x + 1}]
        triangles = [triangle for triangle in triangles if set(triangle) not in gone]
        for ends in ((x, row + x), (row + x - 1, row + x + 1)) if x in braced else ():
            points = points + [(x * step, step, height(x, 1) + 60 + ends[0])]
            triangles = triangles + [(*ends, len(points) - 1)]
    return points, triangles


def with_more(sheet, points, triangles):
    """A sheet with further points, and triangles on these."""
    return sheet[0] + points, sheet[1] + [tuple(len(sheet[0]) + corner for corner in triangle) for triangle in triangles]


def made():
    """The sheets by their names."""
    far = GREATEST
    corners = [(-far, -far, -far), (far, -far, far), (far, far, -far), (-far, far, far)]
    slit = {(x, 1) for x in range(1, 33)}
    braced = plate(20, 14, 30, wave, set(), {(x, y) for x in range(1, 19, 2) for y in range(1, 13, 2)})
    lake = plate(6, 6, 40, lambda x, y: 3 * x, {(2, 2), (3, 2), (2, 3), (3, 3)})
    fan = [(0, 1, 2)] + [(0, k, k + 1) for k in range(2, 1023)]
    sheets = {
        'nothing': ([], []),
        'points': ([(0, 0, 0), (300, 10, 0), (40, 200, 120)], []),
        'full-of-points': ([(k % 32 * 9, k // 32 * 7, k % 13) for k in range(1024)], []),
        'one': ([(0, 0, 0), (300, 10, 0), (40, 200, 120)], [(0, 1, 2)]),
        'turned': ([(0, 0, 0), (300, 10, 0), (40, 200, 0)], [(0, 2, 1)]),
        'stray': ([(0, 0, 0), (300, 10, 0), (40, 200, 0), (far, far, far)], [(0, 1, 2)]),
        'one-place': ([(7, 7, 7)] * 3, [(0, 1, 2)]),
        'one-line': ([(0, 0, 0), (10, 0, 0), (25, 0, 0)], [(0, 1, 2)]),
        'upright': ([(0, 0, 0), (100, 0, 0), (100, 0, 80), (0, 0, 80)], [(0, 1, 2), (0, 2, 3)]),
        'far': (corners, [(0, 1, 2), (0, 2, 3), (0, 3, 1)]),
        'far-and-flat': ([(-far, -far, 0), (far, -far, 0), (far, far, 1), (-far, far, 0)], [(0, 1, 2), (0, 2, 3)]),
        'tall': ([(0, 0, 0), (10, 0, 0), (5, 8, 0), (5, 3, 20000)], [(0, 1, 3), (1, 2, 3), (2, 0, 3)]),
        'needle': ([(0, 0, -far), (1, 0, -far), (0, 1, -far), (0, 0, far)], [(0, 1, 3), (1, 2, 3), (2, 0, 3)]),
        'cube': (CUBE, CUBE_FACES),
        'cube-with-a-hole-behind': (CUBE, CUBE_FACES[:6] + CUBE_FACES[7:]),
        'cube-without-its-lid': (CUBE, CUBE_FACES[:2] + CUBE_FACES[4:]),
        'cube-with-two-holes': (CUBE, CUBE_FACES[:1] + CUBE_FACES[2:11]),
        'cube-with-holes-that-meet-behind': (CUBE, CUBE_FACES[1:6] + CUBE_FACES[7:]),
        'pools': shore(12, 5, 40, wave, {3, 7, 11}, {(5, 2), (6, 2)}),
        'many-pools': shore(40, 6, 40, wave, set(range(1, 40, 4)), {(x, 3) for x in range(1, 39, 3)}, {5, 9, 29}),
        # a hole of 65 edges or more that meets the rim in a vertex
        'long-pool': shore(36, 4, 40, wave, {17}, {(x, 1) for x in range(1, 35)}),
        # a lake that the rim of another piece meets, and an island in it
        'lake-met': (lake[0] + [(110, 90, 9), (90, 110, 9), (120, 120, 8), (140, 125, 8), (125, 140, 8)],
                     lake[1] + [(16, 49, 50), (51, 52, 53)]),
        'relief': plate(16, 16, 40, wave, {(3, 3), (4, 3), (9, 9), (12, 4), (12, 12)}),
        'flat-relief': plate(6, 6, 1000, lambda x, y: (x + y) % 2, {(2, 2)}),
        'many-holes': plate(23, 23, 40, wave, {(x, y) for x in range(1, 23, 3) for y in range(1, 23, 3)}),
        'long': plate(34, 3, 40, wave, slit),
        'braced': plate(5, 5, 60, lambda x, y: 4 * x, {(1, 1)}, {(3, 3)}),
        'many-braced': braced,
        # far away from another piece, so that there is no room for all flags
        'crowd-of-braced': with_more(braced, [(far, far, 0), (far - 90, far, 0), (far, far - 90, 0)], [(0, 1, 2)]),
        # a relief over two triangles as large as it is: their middles do not tell that they lie below it
        'box': with_more(plate(12, 12, 40, wave, {(5, 5)}), [(0, 0, -12), (480, 0, -12), (480, 480, -12), (0, 480, -12)],
                         [(0, 2, 1), (0, 3, 2)]),
        'islands': ([(40 * (k // 3 % 32) + 12 * (k % 3), 40 * (k // 96) + 15 * (k % 3 // 2), k % 7) for k in range(1023)],
                    [(k, k + 1, k + 2) for k in range(0, 1023, 3)]),
        'fan': ([(0, 0, 500)] + [(k * 10, (k * k) % 977, (k * 37) % 100) for k in range(1, 1024)], fan),
        # on a coarser grid: far out, with squares that are no squares any more, and where all points go to one place
        'relief-at-2': (*plate(8, 8, 43, wave, {(3, 3), (6, 2)}), 2),
        'relief-at-5': (*plate(8, 8, 43, wave, {(3, 3), (6, 2)}), 5),
        'relief-at-10': (*plate(8, 8, 43, wave, {(3, 3), (6, 2)}), 10),
        'far-at-10': ([tuple(number * 32765 // far for number in corner) for corner in corners], [(0, 1, 2), (0, 2, 3), (0, 3, 1)], 10),
        'one-place-at-5': ([(11, 9, 12), (12, 8, 10), (9, 12, 11)], [(0, 1, 2)], 5),
    }
    return {name: text_of(*sheet) for name, sheet in sheets.items()}
