"""The judge of peers/run: what became of a surface, told by its directed edges. A surface is a list of triangles, and a triangle three
points, each by its coordinates: two points are the same exactly if their coordinates are equal as numbers, whatever file they are from."""
import math
import struct
from collections import Counter, namedtuple

# Open edges, edges that are there already, points gone and how far the nearest point left is from them, new points, and triangles deleted,
# turned over and added.
Verdict = namedtuple('Verdict', 'open twice gone how_far new_points deleted turned added')


def read_off(path, by_number=False):
    """OFF, a text: a head, then points, then faces. `by_number` gives the points by the file's own numbers instead."""
    words = path.read_text().split()
    assert words[0] == 'OFF', path
    points, faces = int(words[1]), int(words[2])
    numbers = list(map(float, words[4:4 + 3 * points]))
    corners = list(map(int, words[4 + 3 * points:]))
    assert len(corners) == 4 * faces and all(size == 3 for size in corners[::4]), f'{path}: not triangles alone'
    at = range(points) if by_number else list(zip(numbers[::3], numbers[1::3], numbers[2::3]))
    return [tuple(at[corner] for corner in corners[k + 1:k + 4]) for k in range(0, 4 * faces, 4)]


def read_ply(path):
    """Binary PLY as MeshLab writes it: three floats a point, and faces of a byte and three numbers."""
    head, body = path.read_bytes().split(b'end_header\n', 1)
    lines = head.decode('ascii').splitlines()
    assert lines[1] == 'format binary_little_endian 1.0', path
    kept = [line for line in lines if line.startswith(('element', 'property'))]
    points, faces = int(kept[0].split()[2]), int(kept[4].split()[2])
    properties = [line.split(' ', 1)[1] for line in kept[1:4] + kept[5:]]
    assert properties == ['float x', 'float y', 'float z', 'list uchar int vertex_indices'], path
    at = [struct.unpack_from('<3f', body, 12 * k) for k in range(points)]
    triangles = []
    for k in range(faces):
        size, *corners = struct.unpack_from('<B3i', body, 12 * points + 13 * k)
        assert size == 3, path
        triangles.append(tuple(at[corner] for corner in corners))
    return triangles


def read_stl(path):
    """STL, a text. Its numbers are those of binary32 in nine digits, which name one such number each."""
    numbers = [word for line in path.read_text().splitlines() if line.split()[:1] == ['vertex'] for word in line.split()[1:4]]
    exact = [struct.unpack('<f', struct.pack('<f', float(number)))[0] for number in numbers]
    at = list(zip(exact[::3], exact[1::3], exact[2::3]))
    return list(zip(at[::3], at[1::3], at[2::3]))


def smallest_first(triangle):
    """The same triangle begun at its smallest corner, so that where it begins does not matter."""
    return min(triangle[k:] + triangle[:k] for k in range(3))


def turned_over(triangle):
    return smallest_first(triangle[::-1])


def edges(triangles):
    """How often each directed edge occurs. One that ends where it begins is none."""
    return Counter((a, b) for t in triangles for a, b in zip(t, t[1:] + t[:1]) if a != b)


def loose_ends(triangles):
    """How many directed edges are open, which no edge runs back along, and how often one occurs that is there already."""
    there = edges(triangles)
    return sum((b, a) not in there for a, b in there), sum(count - 1 for count in there.values())


def judge(before, after):
    """What became of the triangles `before`, where the triangles `after` are left."""
    old, new = Counter(map(smallest_first, before)), Counter(map(smallest_first, after))
    lost, fresh = old - new, new - old
    # a triangle that is lost, but is there turned over, was turned
    turned = Counter(map(turned_over, lost.elements())) & fresh
    points_before, points_after = ({point for t in triangles for point in t} for triangles in (before, after))
    missing = points_before - points_after
    how_far = max((min(math.dist(point, other) for other in points_after) for point in missing if points_after), default=0)
    return Verdict(*loose_ends(after), len(missing), how_far, len(points_after - points_before),
                   lost.total() - turned.total(), turned.total(), fresh.total() - turned.total())


def tried():
    """Whether the judge sees what was done to a tetrahedron: nothing, a triangle less, more, turned over and doubled, and a point moved."""
    points = [(0, 0, 0), (4, 0, 0), (0, 4, 0), (0, 0, 4)]
    whole = [tuple(points[k] for k in corners) for corners in ((0, 2, 1), (0, 1, 3), (1, 2, 3), (2, 0, 3))]
    last = whole[3]
    moved = [tuple((0, 0, 5) if point == points[3] else point for point in t) for t in whole]
    return [judge(whole, whole), judge(whole, whole[:3]), judge(whole[:3], whole), judge(whole, whole[:3] + [last[::-1]]),
            judge(whole, whole + [last]), judge(whole, moved)] == [
        Verdict(open=0, twice=0, gone=0, how_far=0, new_points=0, deleted=0, turned=0, added=0),
        Verdict(open=3, twice=0, gone=0, how_far=0, new_points=0, deleted=1, turned=0, added=0),
        Verdict(open=0, twice=0, gone=0, how_far=0, new_points=0, deleted=0, turned=0, added=1),
        Verdict(open=3, twice=3, gone=0, how_far=0, new_points=0, deleted=0, turned=1, added=0),
        Verdict(open=0, twice=3, gone=0, how_far=0, new_points=0, deleted=0, turned=0, added=1),
        Verdict(open=0, twice=0, gone=1, how_far=1, new_points=1, deleted=3, turned=0, added=3)]
