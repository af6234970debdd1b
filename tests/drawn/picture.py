"""A picture of the front taken apart again: panels with their triangles, loops, marks, numbers and legend."""
import itertools
import re
import xml.etree.ElementTree as ElementTree

SVG = '{http://www.w3.org/2000/svg}'
ELEMENTS = {'svg', 'style', 'defs', 'pattern', 'g', 'title', 'rect', 'path', 'text', 'circle'}
ATTRIBUTES = {'class', 'd', 'x', 'y', 'cx', 'cy', 'r', 'rx', 'width', 'height', 'viewBox', 'version', 'transform', 'fill', 'id', 'type',
              'patternUnits', 'patternTransform'}
NUMBER = re.compile(r'-?(?:\d+\.?\d*|\.\d+)')
SHORT = re.compile(r'(?:0|-?[1-9]\d*|-?\d+\.[1-9]|-?\.\d)')
PANEL = 720, 540


class NotWhole(Exception):
    """The bytes are no picture as it should be."""


def tenths(number):
    return round(float(number) * 10)


def steps_of(path):
    """The lines of a path, in tenths, each by its two ends."""
    at, lines = (0, 0), []
    for command, rest in re.findall(r'([Ml])([^A-Za-z]*)', path):
        x, y = (tenths(number) for number in NUMBER.findall(rest))
        to = (x, y) if command == 'M' else (at[0] + x, at[1] + y)
        if command == 'l':
            lines.append((at, to))
        at = to
    return lines


class Face:
    """A triangle that is painted."""

    def __init__(self, element):
        kind = re.fullmatch(r'([fbp])(\d|1[0-5])', element.get('class'))
        path = element.get('d')
        if not kind or not re.fullmatch(r'M[^a-zA-Z]+l[^a-zA-Z]+l[^a-zA-Z]+z', path):
            raise NotWhole(f'a triangle {element.attrib}')
        self.kind = kind[1]
        (first, second), (_, third) = steps_of(path)
        self.corners = first, second, third

    def area(self):
        """Twice the area, positive where the corners go round to the left as one sees it."""
        (ax, ay), (bx, by), (cx, cy) = self.corners
        return (by - ay) * (cx - ax) - (bx - ax) * (cy - ay)

    def side_is_right(self):
        # where next to nothing is seen of a triangle, tenths do not tell its side
        return self.kind == 'p' or abs(self.area()) < 400 or (self.area() < 0) == (self.kind == 'b')


class Diamond:
    """The sign where a tide pool meets the rim of its piece: its middle, how far it reaches, and whether it is hollow."""

    def __init__(self, path):
        kind, lines = path.get('class'), steps_of(path.get('d'))
        corners = [start for start, _ in lines] + [lines[-1][1]] if len(lines) == 3 else []
        if kind not in ('diamond', 'diamond hollow') or not corners or not path.get('d').endswith('z'):
            raise NotWhole(f'a diamond {path.attrib}')
        (left, y), (x, top), (right, _), (_, bottom) = corners
        self.at, self.size, self.is_hollow = (x, y), x - left, kind == 'diamond hollow'
        if corners != [(x - self.size, y), (x, y - self.size), (x + self.size, y), (x, y + self.size)]:
            raise NotWhole(f'a diamond {path.attrib}')


class Loop:
    """A loop: what its title tells of it, the lines of its ring as they are seen and hidden, the core of its line, and its diamonds."""

    CLASSES = {'rim': '', 'tide pool': ' pool', 'lake': ' lake'}

    def __init__(self, element):
        told = re.fullmatch(r'loop (\d+): (rim|(tide pool|lake), (patched|long|open)), (\d+) edges', element[0].text)
        if not told:
            raise NotWhole(f'a loop {element.attrib}, {element[0].text}')
        self.number, self.kind, self.state, self.length = int(told[1]), told[3] or 'rim', told[4] or 'rim', int(told[5])
        names = [path.get('class').split()[0] for path in element[1:]]
        paths = {name: steps_of(path.get('d')) for name, path in zip(names, element[1:]) if name != 'diamond'}
        is_once = len(paths) == sum(name != 'diamond' for name in names)
        if element.get('class') != f'loop {self.state}{self.CLASSES[self.kind]}' or not is_once or \
                set(paths) - {'hatch', 'casing', 'seen', 'core', 'hidden'}:
            raise NotWhole(f'a loop {element.attrib}, {element[0].text}, {names}')
        self.seen, self.hidden, self.core = (paths.get(name, []) for name in ('seen', 'hidden', 'core'))
        self.diamonds = [Diamond(path) for name, path in zip(names, element[1:]) if name == 'diamond']

    def is_closed(self):
        """Whether as many lines go to each place as go from it, and there are as many as the ring has edges, or more."""
        lines = self.seen + self.hidden
        return sorted(a for a, _ in lines) == sorted(b for _, b in lines) and len(lines) >= self.length


class Mark:
    """The arrow where a loop begins: what its title tells, where its shaft goes from and to, its tail and the tip of its head, if it has
    one."""

    def __init__(self, element):
        told = re.fullmatch(r'loop (\d+), in piece (\d+), run (\d+): half-edge (\d+) of triangle (\d+), from point (\d+) to point (\d+)',
                            element[0].text)
        kinds = [child.get('class') for child in element[1:]]
        if not told or element.get('class') not in ('mark', 'mark fine') or set(kinds) - {'halo', 'shaft', 'shaft dots', 'head', 'tail'}:
            raise NotWhole(f'a mark {element.attrib}, {element[0].text}, {kinds}')
        self.number, *self.told = map(int, told.groups())
        parts = {kind: [child for child in element[1:] if child.get('class') == kind] for kind in kinds}
        (tail,), heads = parts.get('tail', [None]), parts.get('head', [])
        if tail is None or len(heads) > 1:
            raise NotWhole(f'a mark without a tail, or with two heads: {kinds}')
        self.tail = tenths(tail.get('cx')), tenths(tail.get('cy'))
        self.seen, self.hidden = ([line for child in parts.get(kind, []) for line in steps_of(child.get('d'))]
                                  for kind in ('shaft', 'shaft dots'))
        self.lines = self.seen + self.hidden
        wings = steps_of(heads[0].get('d')) if heads else []
        self.tip = wings[0][1] if len(wings) == 2 and wings[0][1] == wings[1][0] else None
        self.ends = self.followed()

    def followed(self):
        """Where one comes from and to along the lines; nowhere, if they are not one way."""
        after = dict(self.lines)
        starts = [start for start in after if start not in after.values()] or list(after)[:1]
        if len(after) != len(self.lines) or len(starts) != 1:
            return None, None
        at = starts[0]
        while at in after:
            at = after.pop(at)
        return (starts[0], at) if not after else (None, None)

    def length(self):
        (ax, ay), (bx, by) = self.ends
        return ((bx - ax) ** 2 + (by - ay) ** 2) ** 0.5


class Panel:
    def __init__(self, element):
        self.element = element
        self.place = tuple(int(number) for number in NUMBER.findall(element.get('transform')))
        self.title = element.find(f'{SVG}title').text
        self.inner = [ElementTree.tostring(child) for child in element]
        self.faces = [Face(path) for path in self.group('faces')]
        self.loops = [Loop(child) for child in element if (child.get('class') or '').startswith('loop ')]
        self.marks = [Mark(child) for child in self.group('marks')]
        self.dots = len([child for child in element if child.get('class') == 'point'])
        self.set_numbers()

    def group(self, name):
        found = [child for child in self.element if child.get('class') == name]
        return list(found[0]) if found else []

    def text(self, name):
        """The text of this class, None where there is none."""
        found = [child.text for child in self.element.iter(f'{SVG}text') if name in child.get('class').split()]
        return found[0] if found else None

    def texts(self, group):
        return [child.text for child in self.group(group) if child.tag == f'{SVG}text']

    def has(self, message):
        return any(child.text == message for child in self.element.iter(f'{SVG}text') if child.get('class') == 'message')

    def swatches(self):
        """The classes of the signs that stand before each entry of the legend."""
        found, signs = {}, []
        for child in self.group('legend'):
            if child.tag == f'{SVG}text':
                found[child.text], signs = signs, []
            else:
                signs = [part.get('class') for part in child.iter() if part.get('class')]
        return found

    def states(self):
        if len({loop.number for loop in self.loops}) < len(self.loops):
            return 'a loop is drawn twice'
        return {loop.number: loop.state for loop in self.loops}

    def kinds_wrong(self, kinds, meetings, view, size):
        """What is wrong with the signs of the loops' kinds, by these, by the vertices where each meets the rim of its piece, and by the
        view, if there is one; diamonds are so large."""
        wrong = []
        for loop in self.loops:
            at = [diamond.at for diamond in loop.diamonds]
            if loop.kind != kinds[loop.number]:
                wrong.append((loop.number, 'is told as', loop.kind))
            if loop.core != (loop.seen if loop.kind == 'lake' else []):
                wrong.append((loop.number, 'has the core', loop.core))
            if len(at) != len(meetings[loop.number]) or any(diamond.size != size for diamond in loop.diamonds):
                wrong.append((loop.number, 'has diamonds at', at))
            elif view and not all(view.is_at(point, place) for point, place in zip(meetings[loop.number], at)):
                wrong.append((loop.number, 'has diamonds elsewhere, at', at))
        return wrong[:3]

    def hollow_wrong(self, view, meetings):
        """Diamonds that are hollow and seen, or the other way round; those at an edge of what hides them are not judged."""
        drawn, wrong = view.faces_of(self.faces) or [], []
        for loop in self.loops:
            for point, diamond in zip(meetings[loop.number], loop.diamonds):
                surely, maybe = (is_covered(drawn, view.spots[point], within) for within in (WITHIN, -WITHIN))
                if (surely and not diamond.is_hollow) or (not maybe and diamond.is_hollow):
                    wrong.append((loop.number, point, diamond.is_hollow))
        return wrong[:3]

    def set_numbers(self):
        self.numbers, self.flags = {}, []
        for child in self.group('numbers'):
            if child.tag != f'{SVG}text':
                continue
            number, _, state = child.text.partition(' ')
            place = float(child.get('x')), float(child.get('y'))
            if child.get('class') == 'flag':
                self.flags.append((int(number), state, *place))
            else:
                self.numbers[int(number)] = place
        told = [re.fullmatch(r'\((\d+) numbers? ha(?:s|ve) no room\)', text) for text in self.texts('legend')]
        self.without_room = sum(int(one[1]) for one in told if one)

    def is_inside(self):
        places = [corner for face in self.faces for corner in face.corners]
        places += [end for loop in self.loops for line in loop.seen + loop.hidden for end in line]
        places += [diamond.at for loop in self.loops for diamond in loop.diamonds]
        places += [end for mark in self.marks for line in mark.lines for end in line]
        for child in self.group('numbers') + self.group('legend'):
            if child.tag == f'{SVG}text':
                places.append((tenths(child.get('x')), tenths(child.get('y'))))
            elif child.tag == f'{SVG}rect':
                x, y, width, height = (tenths(child.get(key)) for key in ('x', 'y', 'width', 'height'))
                places += [(x, y), (x + width, y + height)]
        return all(0 <= x <= 10 * PANEL[0] and 0 <= y <= 10 * PANEL[1] for x, y in places)

    def fills_area(self):
        """Whether the sheet is as large as the area for it allows, 660 by 392 pixels, or is no more than a place."""
        places = [corner for face in self.faces for corner in face.corners]
        wide, high = (max(place[i] for place in places) - min(place[i] for place in places) for i in (0, 1))
        return (wide, high) == (0, 0) or abs(wide - 6600) <= 2 or abs(high - 3920) <= 2

    def painted_wrong(self, view):
        """Where in the middle of a triangle another one is seen than the nearest, by the sheet's own points; some of them."""
        drawn = view.faces_of(self.faces)
        if drawn is None:
            return ['triangles that are not where they should be']
        wrong = []
        for middle in map(middle_of, drawn):
            over = [(face, depth) for face in drawn if (depth := depth_at(face, middle, WITHIN)) is not None]
            nearest = max((depth for _, depth in over), default=None)
            # a triangle that is seen edge-on covers nothing, not even its middle
            if over and is_more(nearest, over[-1][1]):
                wrong.append((over[-1][0][3], 'is seen, not', max(over, key=lambda each: each[1])[0][3]))
        return wrong[:3]

    def hidden_wrong(self, view, rings):
        """Edges of rings that are seen and drawn as hidden, or the other way round; some of them. Edges half hidden are not judged."""
        drawn, wrong = view.faces_of(self.faces) or [], []
        for loop in self.loops:
            ring = rings[loop.number]
            for ends in zip(ring, ring[1:] + ring[:1]):
                near = [view.spots[i] for i in ends]
                middle = tuple((near[0][i] + near[1][i]) / 2 for i in range(3))
                surely, maybe = (is_covered(drawn, middle, within) for within in (WITHIN, -WITHIN))
                if (surely and view.has_line(loop.seen, ends)) or (not maybe and view.has_line(loop.hidden, ends)):
                    wrong.append((loop.number, ends))
        return wrong[:3]

    def marks_wrong(self, records, rings, view):
        """What is wrong with the marks, by the loops' first half-edges, pieces and runs, their rings, and the view, if there is one."""
        if [mark.number for mark in self.marks] != list(range(len(rings))):
            return [('marks of', [mark.number for mark in self.marks])]
        wrong = []
        loops = {loop.number: loop for loop in self.loops}
        for mark, (first, piece, run), (begin, end, *_) in zip(self.marks, records, rings):
            loop = loops[mark.number]
            if mark.told != [piece, run, first, first // 3, begin, end]:
                wrong.append((mark.number, 'tells', mark.told))
            elif mark.ends == (None, None) or mark.tail != mark.ends[0]:
                wrong.append((mark.number, 'goes', mark.lines, 'with its tail at', mark.tail))
            elif not (set(mark.seen) <= set(loop.seen) and set(mark.hidden) <= set(loop.hidden)):
                wrong.append((mark.number, 'is seen at', mark.seen, 'and hidden at', mark.hidden))
            elif mark.tip != (mark.ends[1] if mark.tip or mark.length() > 50 else None):
                wrong.append((mark.number, 'has its tip at', mark.tip))
            elif view and not (view.is_at(begin, mark.ends[0]) and view.is_at(end, mark.ends[1])):
                wrong.append((mark.number, 'is drawn at', mark.ends))
        return wrong[:3]

    def numbers_on_diamonds(self):
        """The numbers that lie on a diamond."""
        return [number for number, (x, y) in self.numbers.items() for loop in self.loops for diamond in loop.diamonds
                if abs(10 * x - diamond.at[0]) < diamond.size + (52 * len(str(number)) + 10) / 2 - 1
                and abs(10 * y - 32 - diamond.at[1]) < diamond.size + 42 - 1]

    def numbers_on_marks(self):
        """The numbers that lie on a mark."""
        return [(number, mark.number) for number, (x, y) in self.numbers.items() for mark in self.marks
                if meets(*mark.ends, (10 * x, 10 * y - 32), (52 * len(str(number)) + 10, 84))]


def meets(begin, end, middle, size):
    """Whether a line goes through a box, with this middle and size."""
    left, top = (at - long / 2 for at, long in zip(middle, size))
    first, last = 0.0, 1.0  # what of the line is between the sides so far
    for at, along, low, long in zip(begin, (end[0] - begin[0], end[1] - begin[1]), (left, top), size):
        if along == 0:
            if not low < at < low + long:
                return False
            continue
        one, other = sorted(((low - at) / along, (low + long - at) / along))
        first, last = max(first, one), min(last, other)
    return first < last


# a place is surely within a triangle if it is so far from its edges, as a part of the triangle's height
WITHIN = 0.02


def is_more(a, b):
    return a > b + 1e-6 * (1 + abs(a))


class View:
    """How the points of a sheet are seen, told by themselves and by how far the picture of its triangles reaches."""

    def __init__(self, points, triangles, plan, larger, smaller, faces):
        def look(x, y, z):
            x, y, z = smaller * x, smaller * y, larger * z
            return (x, y, z) if plan else (10 * x + 3 * y, 10 * z + 5 * y, -y)

        self.numbers = {triangle: number for number, triangle in enumerate(triangles)}
        self.spots = {i: look(*points[i]) for triangle in triangles for i in triangle}
        drawn = [corner for face in faces for corner in face.corners]
        seen = list(self.spots.values())
        left, bottom = min(x for x, _ in drawn), max(y for _, y in drawn)
        least, low = min(spot[0] for spot in seen), min(spot[1] for spot in seen)
        wide, high = max(spot[0] for spot in seen) - least, max(spot[1] for spot in seen) - low
        scale = (max(x for x, _ in drawn) - left) / wide if wide >= high else (bottom - min(y for _, y in drawn)) / high
        self.places = {i: (left + (x - least) * scale, bottom - (up - low) * scale) for i, (x, up, _) in self.spots.items()}
        self.cells = {}
        for i, (x, y) in self.places.items():
            for cell in {(round((x + dx) / 10), round((y + dy) / 10)) for dx in (-4, 4) for dy in (-4, 4)}:
                self.cells.setdefault(cell, []).append(i)

    def is_at(self, point, place):
        return all(abs(a - b) <= 3 for a, b in zip(self.places[point], place))

    def faces_of(self, faces):
        """Of each painted face, in order, the three spots of its triangle and its number; None where there is none for it."""
        left, result = dict(self.numbers), []
        for face in faces:
            near = [[i for i in self.cells.get((round(x / 10), round(y / 10)), []) if self.is_at(i, (x, y))] for x, y in face.corners]
            found = [triple for triple in itertools.product(*near) if triple in left]
            if not found:
                return None
            result.append((*(self.spots[i] for i in found[0]), left.pop(found[0])))
        return result

    def has_line(self, lines, ends):
        return any(self.is_at(ends[0], a) and self.is_at(ends[1], b) for a, b in lines)


def is_covered(faces, at, within):
    """Whether some face is nearer than a spot that lies within it, by so much of its height."""
    depths = (depth_at(face, at, within) for face in faces)
    return any(depth is not None and is_more(depth, at[2]) for depth in depths)


def middle_of(face):
    return tuple(sum(spot[axis] for spot in face[:3]) / 3 for axis in (0, 1))


def depth_at(face, at, within):
    """How near a face is at a place within it, by so much of its height; None where the place is not."""
    (ax, ay, an), (bx, by, bn), (cx, cy, cn), _ = face
    x, y = at[:2]
    if within > 0 and not (min(ax, bx, cx) < x < max(ax, bx, cx) and min(ay, by, cy) < y < max(ay, by, cy)):
        return None
    area = (bx - ax) * (cy - ay) - (by - ay) * (cx - ax)
    if area == 0:
        return None
    of_b = ((x - ax) * (cy - ay) - (y - ay) * (cx - ax)) / area
    of_c = ((bx - ax) * (y - ay) - (by - ay) * (x - ax)) / area
    if min(of_b, of_c, 1 - of_b - of_c) < within:
        return None
    return an + of_b * (bn - an) + of_c * (cn - an)


def look_over(root):
    """Whether it is plain SVG 1.1 with short numbers."""
    for element in root.iter():
        name = element.tag.replace(SVG, '')
        if name not in ELEMENTS or set(element.attrib) - ATTRIBUTES:
            raise NotWhole(f'an element {name} with {element.attrib}')
        for key in set(element.attrib) & {'d', 'x', 'y', 'cx', 'cy', 'width', 'height', 'transform'}:
            for number in NUMBER.findall(element.get(key)):
                if not SHORT.fullmatch(number):
                    raise NotWhole(f'a number {number} in {key}')
        if element.get('fill') and not re.fullmatch(r'url\(#(?:open|long)\)|#[0-9a-f]{6}', element.get('fill')):
            raise NotWhole(f'a fill {element.get("fill")}')
    styles = [element.text for element in root.iter(f'{SVG}style')]
    if len(styles) != 1 or 'font-family:sans-serif' not in styles[0] or re.search(r'@|url|font-family:(?!sans-serif[;}])', styles[0]):
        raise NotWhole('another style')


def panels_of(picture, count):
    """The panels of a picture, which has to be whole and to have so many."""
    try:
        root = ElementTree.fromstring(picture)
    except ElementTree.ParseError as why:
        raise NotWhole(f'no XML: {why}') from why
    look_over(root)
    columns = next(n for n in itertools.count(1) if n * n >= count)
    rows = -(-count // columns)
    wide, high = columns * PANEL[0], rows * PANEL[1]
    own = min(wide, 2 * PANEL[0])
    due = {'version': '1.1', 'viewBox': f'0 0 {wide} {high}', 'width': str(own), 'height': str(high * own // wide)}
    if root.tag != f'{SVG}svg' or root.attrib != due:
        raise NotWhole(f'a root {root.tag} {root.attrib}')
    panels = [Panel(child) for child in root if child.get('class') == 'panel']
    if len(panels) != count:
        raise NotWhole(f'{len(panels)} panels, where {count} are due')
    return panels
