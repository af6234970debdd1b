#!/usr/bin/env python3
"""drawn.py ROOM: tries the pictures of the front that the command FRONT runs; see run."""
import os
import re
import subprocess
import sys
import xml.etree.ElementTree as ElementTree

sys.path.insert(0, os.path.join(os.path.dirname(os.path.realpath(__file__)), '..', 'front'))
from calls import HOME, Tally, front_of_caller, read, sheets_of, write  # noqa: E402
from made import made, numbers_of  # noqa: E402
from picture import NotWhole, SVG, View, panels_of, steps_of  # noqa: E402
from records import KINDS, STATES, kinds_of  # noqa: E402

EXAMPLES = f'{HOME}/examples'
PICTURES = f'{HOME}/docs/pictures'
MOST_BYTES = 300_000
# in these no triangle pierces another, so it can be told at each spot which one is seen
PLAIN = {'box', 'cube', 'cube-with-a-hole-behind', 'cube-without-its-lid', 'cube-with-two-holes', 'relief', 'many-holes', 'far', 'tall',
         'cone', 'flat-relief', 'relief-at-2', 'relief-at-5', 'relief-at-10', 'cube-with-holes-that-meet-behind', 'pools', 'shore'}
# the signs before entries of the legend, by the word behind the count
SIGNS = {'rim': ['rim seen'], 'tide': ['any seen', 'diamond'], 'lake': ['lake', 'any seen', 'core'], 'patched': ['p10', 'patched seen'],
         'long': ['hatch', 'long seen'], 'open': ['hatch', 'open seen']}
# with marks each loop of these has its number, though some are crowded
ALL_NUMBERED = {'plate, oblique', 'range, oblique', 'relief of the examples, oblique', 'plate-crossed, oblique', 'islands, plan',
                'many-holes, oblique', 'many-holes, plan', 'many-braced, plan', 'cube-with-two-holes, oblique'}
NAMES = {
    b'quo"te\'s.sheet': 'quo"te\'s.sheet',
    b'a<b&c>d.sheet': 'a<b&c>d.sheet',
    b']]>&amp;<!--.sheet': ']]>&amp;<!--.sheet',
    b'line\nfeed\ttab\x01\x7f.sheet': 'line\\nfeed\\ttab\\x01\\x7f.sheet',
    b'latin-\xe9\xff.sheet': 'latin-\\xe9\\xff.sheet',
    b'cut-\xe2\x82.sheet': 'cut-\\xe2\\x82.sheet',
    b'overlong-\xc0\xaf.sheet': 'overlong-\\xc0\\xaf.sheet',
    b'surrogate-\xed\xa0\x80.sheet': 'surrogate-\\xed\\xa0\\x80.sheet',
    b'five-\xf9\x80\x80\x80.sheet': 'five-\\xf9\\x80\\x80\\x80.sheet',
    b'beyond-\xf8\xb0\x80\x80.sheet': 'beyond-\\xf8\\xb0\\x80\\x80.sheet',
    b'no-sign-\xef\xbf\xbf.sheet': 'no-sign-\\xef\\xbf\\xbf.sheet',
    b'no-sign-of-a-plane-\xf0\x9f\xbf\xbe.sheet': 'no-sign-of-a-plane-\\xf0\\x9f\\xbf\\xbe.sheet',
    b'last-signs-\xef\xbe\xbf\xef\xbf\xbd\xf0\x9f\xbe\xbf.sheet': 'last-signs-\uffbf\ufffd\U0001ffbf.sheet',
    b'next-line-\xc2\x85.sheet': 'next-line-\\xc2\\x85.sheet',
    'Plätze-地图-🗺.sheet'.encode(): 'Plätze-地图-🗺.sheet',
    b'x' * 240 + b'.sheet': 'x' * 240 + '.sheet',
}


class Listing:
    """What `list` prints of a sheet: its loops' states, rings, first half-edges, pieces and runs, and its patch triangles."""

    def __init__(self, printed):
        lines = [line.partition('=') for line in printed.decode().split('\n')]
        loops = [rest.split(',') for key, _, rest in lines if key == 'loop']
        self.answer = lines[0][2]
        self.states = [STATES[int(loop[1])] for loop in loops]
        self.records = [tuple(map(int, loop[3:])) for loop in loops]
        self.rings = [list(map(int, rest.split(','))) for key, _, rest in lines if key == 'ring']
        self.patches = [tuple(map(int, rest.split(','))) for key, _, rest in lines if key == 'patch']


def taken_apart(tally, what, drawn, count):
    """The panels of a picture; none, and that is told, where it is not whole."""
    panels, told = [], ''
    try:
        panels = panels_of(drawn.out, count)
    except NotWhole as why:
        told = why
    tally.true(f'{what}, the picture', panels, told)
    return panels


def plural(count, one, many):
    return f'{count} {one if count == 1 else many}'


def loops_told(listing, kinds):
    """What the legend has to say of the kinds and of the states."""
    count = {state: listing.states.count(state) for state in STATES.values()}
    texts = {
        'patched': f"{count['patched']} patched with {plural(len(listing.patches), 'triangle', 'triangles')}",
        'long': f"{count['long']} long, LEFT OPEN",
        'open': f"{count['open']} open (no allowed cover), LEFT OPEN",
    }
    of_kinds = [(list(kinds.values()).count(kind), kind) for kind in KINDS.values()]
    return [plural(many, kind, f'{kind}s') for many, kind in of_kinds if many] + [text for state, text in texts.items() if count[state] > 0]


def kinds_named(text, listing):
    """What each loop is, and the vertices of each where it meets the rim of its piece, if it is a tide pool, in its order."""
    kinds = {loop: KINDS[kind] for loop, kind in kinds_of(text, listing.rings).items()}
    rims = {listing.records[loop][1]: set(listing.rings[loop]) for loop, kind in kinds.items() if kind == 'rim'}
    meetings = {loop: [vertex for vertex in listing.rings[loop] if vertex in rims[listing.records[loop][1]]] if kind == 'tide pool' else []
                for loop, kind in kinds.items()}
    return kinds, meetings


def heights_told(points, triangles):
    """How heights are drawn, by the rule in draw_view.h."""
    used = {corner for triangle in triangles for corner in triangle} or range(len(points))
    sizes = [max(axis) - min(axis) for axis in zip(*(points[i] for i in used))] or [0, 0, 0]
    side, high = max(sizes[:2]), sizes[2]
    larger = smaller = 1
    while high > 0 and 12 * larger * high < side:
        larger *= 2
    while side > 0 and 4 * smaller * side < high:
        smaller *= 2
    return (f'heights × {larger}' if larger > 1 else f'heights ÷ {smaller}' if smaller > 1 else None), larger, smaller


def try_legend(tally, what, panel, listing, kinds, triangles, pitch, marked):
    entries = panel.texts('legend')
    due = loops_told(listing, kinds)
    for text, signs in panel.swatches().items():
        if text in due:
            tally.same(f'{what}, the sign of {text}', signs, SIGNS[text.split(' ')[1].rstrip('s,')])
    if not listing.states:
        due = ['no loops: the surface is closed' if triangles else 'no triangles, so no loops']
    told = [text for text in entries if text[0].isdigit() or text.startswith('no ')]
    tally.same(f'{what}, the kinds and states of the legend', told, due)
    tally.same(f'{what}, hidden in the legend', 'hidden' in entries, any(loop.hidden for loop in panel.loops))
    if 'back side' in entries:
        tally.true(f'{what}, back sides', any(face.kind == 'b' for face in panel.faces), 'are in the legend, and none is drawn')
    extra = [text for text in entries if text not in due + ['hidden', 'back side'] and not text.startswith('(')]
    more = ['first half-edge'] if marked and listing.states else []
    tally.same(f'{what}, other entries of the legend', extra, more + ([f'pitch {pitch}'] if pitch != 1 else []))


def try_numbers(tally, what, panel, listing):
    """Each loop has its number once or is counted as one without; open and long loops always have theirs, and no other two overlap."""
    flags = {number: (state, x, y) for number, state, x, y in panel.flags}
    due = {i: state for i, state in enumerate(listing.states) if state in ('open', 'long')}
    tally.same(f'{what}, flags', sorted(flags), sorted(due))
    if len(due) <= 24:
        tally.same(f'{what}, words of flags', {number: flag[0] for number, flag in flags.items()}, due)
    plain = panel.numbers
    tally.true(f'{what}, numbers', len(set(plain)) == len(plain) and all(listing.states[n] in ('rim', 'patched') for n in plain), plain)
    tally.same(f'{what}, numbers without room', panel.without_room, len(listing.states) - len(plain) - len(flags))
    places = list(plain.values())
    close = [(a, b) for i, a in enumerate(places) for b in places[:i] if abs(a[0] - b[0]) < 5 and abs(a[1] - b[1]) < 8]
    tally.same(f'{what}, numbers on one another', close, [])
    if len(listing.states) <= 12:
        tally.true(f'{what}, numbers of few loops', len(plain) + len(flags) >= min(len(listing.states), 3), plain)


def view_of(points, triangles, listing, plan, heights, panel):
    """How the sheet is seen; None where it is not, or is no more than a place."""
    places = {corner for face in panel.faces for corner in face.corners}
    return View(points, triangles + listing.patches, plan, heights[1], heights[2], panel.faces) if len(places) > 1 else None


def try_marks(tally, what, panel, triangles, listing, view):
    """Each loop has its arrow, along its own first half-edge, and tells of it; no number lies on an arrow."""
    ends = [(triangles[first // 3][first % 3], triangles[first // 3][(first + 1) % 3]) for first, _, _ in listing.records]
    tally.same(f'{what}, first half-edges', ends, [(ring[0], ring[1]) for ring in listing.rings])
    tally.same(f'{what}, marks', panel.marks_wrong(listing.records, listing.rings, view), [])
    tally.same(f'{what}, numbers on marks', panel.numbers_on_marks(), [])
    if what.rpartition(', ')[0] in ALL_NUMBERED:
        tally.same(f'{what}, numbers of all loops', panel.without_room, 0)


def try_panel(tally, what, panel, text, listing, plan, marked=False):
    """One panel against its sheet."""
    points, triangles, pitch = numbers_of(text)
    size = f'{plural(len(points), "point", "points")}, {plural(len(triangles), "triangle", "triangles")}, '
    size += plural(len(listing.states), 'loop', 'loops')
    tally.same(f'{what}, the line below the name', panel.text('sizes').partition(';')[0], size)
    tally.same(f'{what}, triangles', sum(face.kind in 'fb' for face in panel.faces), len(triangles))
    tally.same(f'{what}, patch triangles', sum(face.kind == 'p' for face in panel.faces), len(listing.patches))
    tally.same(f'{what}, states of the loops', panel.states(), {i: state for i, state in enumerate(listing.states)})
    tally.true(f'{what}, rings', all(loop.is_closed() for loop in panel.loops), 'are not closed by what is drawn')
    tally.true(f'{what}, sides', all(face.side_is_right() for face in panel.faces), 'some triangle has the tint of its other side')
    tally.true(f'{what}, places', panel.is_inside(), 'something lies outside of the panel')
    kinds, meetings = kinds_named(text, listing)
    told = heights_told(points, triangles)
    tally.same(f'{what}, heights', panel.text('strong'), None if plan else told[0])
    tally.same(f'{what}, points', panel.dots, len(points) if not triangles or panel.has('all points lie in one place') else 0)
    try_legend(tally, what, panel, listing, kinds, triangles, pitch, marked)
    try_numbers(tally, what, panel, listing)
    tally.true(f'{what}, size', not triangles or panel.fills_area(), 'is less than there is room for')
    view = view_of(points, triangles, listing, plan, told, panel)
    tally.same(f'{what}, kinds', panel.kinds_wrong(kinds, meetings, view, 64 if marked else 40), [])
    tally.same(f'{what}, numbers on diamonds', panel.numbers_on_diamonds(), [])
    if marked:
        try_marks(tally, what, panel, triangles, listing, view)
    else:
        tally.same(f'{what}, marks', panel.marks, [])
    if what.split(',')[0] in PLAIN and not marked:
        tally.same(f'{what}, what is seen', panel.painted_wrong(view), [])
        tally.same(f'{what}, what is hidden', panel.hidden_wrong(view, listing.rings), [])
        tally.same(f'{what}, diamonds that are hidden', panel.hollow_wrong(view, meetings), [])
    return {(loop.kind, loop.state) for loop in panel.loops} | {diamond.is_hollow for loop in panel.loops for diamond in loop.diamonds}


def try_sheets(front, tally, room):
    sheets, met = made(), set()
    for name in sheets_of(EXAMPLES):
        stem = name[:-len('.sheet')]
        sheets[f'{stem} of the examples' if stem in sheets else stem] = read(f'{EXAMPLES}/{name}')
    for name, text in sorted(sheets.items()):
        path = write(f'{room}/{name}.sheet', text)
        listing = Listing(front('list', '--quiet', path).out)
        for plan, marked in ((False, False), (True, False), (False, True), (True, True)):
            what = f'{name}, {"plan" if plan else "oblique"}{", marked" if marked else ""}'
            drawn = front('draw', '--quiet', *(['--plan'] if plan else []), *(['--loops'] if marked else []), path)
            if listing.answer != '0,0':
                tally.same(what, (drawn.status, drawn.out), (1, b''))
                continue
            tally.same(f'{what}, status', drawn.status, 0)
            for panel in taken_apart(tally, what, drawn, 1):
                tally.same(f'{what}, name', panel.title, path)
                met |= try_panel(tally, what, panel, text, listing, plan, marked)
    due = {(kind, state) for kind in ('tide pool', 'lake') for state in ('patched', 'long', 'open')} | {('rim', 'rim'), True, False}
    tally.same('the kinds and states that are drawn, and diamonds that are hollow and that are not', met, due)


def spoilt(picture, spoil):
    """A picture whose marks are spoilt."""
    root = ElementTree.fromstring(picture)
    (marks,) = (element for element in root.iter(f'{SVG}g') if element.get('class') == 'marks')
    spoil(marks)
    return ElementTree.tostring(root)


def spoilt_loops(picture, spoil):
    """A picture whose loops, by their numbers, are spoilt."""
    root = ElementTree.fromstring(picture)
    loops = [element for element in root.iter(f'{SVG}g') if (element.get('class') or '').startswith('loop ')]
    spoil({int(loop[0].text.split(' ')[1].rstrip(':')): loop for loop in loops})
    return ElementTree.tostring(root)


def part(mark, kind):
    (found,) = (child for child in mark if child.get('class') == kind)
    return found


def redraw(mark, begin, end):
    """The shaft of a mark from one place to another, in tenths, with the tail at its beginning and the head at its end."""
    (ax, ay), (bx, by) = begin, end
    part(mark, 'shaft').set('d', f'M{ax / 10:g} {ay / 10:g}l{(bx - ax) / 10:g} {(by - ay) / 10:g}')
    part(mark, 'tail').set('cx', f'{ax / 10:g}')
    part(mark, 'tail').set('cy', f'{ay / 10:g}')
    part(mark, 'head').set('d', f'M{(bx - 30) / 10:g} {by / 10:g}l3 0l-3 0')


def turn_round(mark):
    ((begin, end),) = steps_of(part(mark, 'shaft').get('d'))
    redraw(mark, end, begin)


def halve(mark):
    ((begin, end),) = steps_of(part(mark, 'shaft').get('d'))
    redraw(mark, begin, tuple((a + b) // 2 for a, b in zip(begin, end)))


def exchange(marks, kind, attribute):
    """What this part of the first two marks says, in each other's place."""
    one, other = part(marks[0], kind), part(marks[1], kind)
    mine, others = one.get(attribute), other.get(attribute)
    one.set(attribute, others)
    other.set(attribute, mine)


def exchange_titles(marks):
    """Each of the first two has what is told of the other, but for the number."""
    (one, mine), (other, others) = (mark[0].text.split(',', 1) for mark in marks[:2])
    marks[0][0].text, marks[1][0].text = f'{one},{others}', f'{other},{mine}'


SPOILT = {
    'turned round': lambda marks: turn_round(marks[1]),
    'half as long': lambda marks: halve(marks[0]),
    'exchanged': lambda marks: [exchange(marks, kind, key)
                                for kind, key in (('shaft', 'd'), ('head', 'd'), ('tail', 'cx'), ('tail', 'cy'))],
    'with shafts of each other': lambda marks: exchange(marks, 'shaft', 'd'),
    'with heads of each other': lambda marks: exchange(marks, 'head', 'd'),
    'with tails of each other': lambda marks: [exchange(marks, 'tail', key) for key in ('cx', 'cy')],
    'with titles of each other': exchange_titles,
    'left out': lambda marks: marks.remove(marks[1]),
    'drawn as hidden': lambda marks: part(marks[0], 'shaft').set('class', 'shaft dots'),
    'without a head': lambda marks: marks[0].remove(part(marks[0], 'head')),
}


def try_wrong_marks(front, tally, room):
    """The trial of marks itself: one that is drawn or told wrongly is found out."""
    text = read(f'{EXAMPLES}/plate.sheet')
    points, triangles, _ = numbers_of(text)
    listing = Listing(front('list', '--quiet', f'{EXAMPLES}/plate.sheet').out)
    for plan in ([], ['--plan']):
        drawn = front('draw', '--quiet', '--loops', *plan, f'{EXAMPLES}/plate.sheet').out
        for how, spoil in [('as they are', lambda marks: None), *SPOILT.items()]:
            (panel,) = panels_of(spoilt(drawn, spoil), 1)
            view = view_of(points, triangles, listing, bool(plan), heights_told(points, triangles), panel)
            wrong = panel.marks_wrong(listing.records, listing.rings, view)
            tally.true(f'marks {how}, {plan}', (wrong == []) == (how == 'as they are'), wrong)
        # a picture whose loops and marks are both those of another sheet, of which two points are exchanged
        (panel,) = panels_of(drawn, 1)
        exchanged = [points[i] for i in (1, 0, 2, 3, 4, 5)]
        view = view_of(exchanged, triangles, listing, bool(plan), heights_told(points, triangles), panel)
        wrong = panel.marks_wrong(listing.records, listing.rings, view)
        tally.true(f'marks of another sheet, {plan}', [fault[:2] for fault in wrong] == [(0, 'is drawn at')], wrong)
    # a number on an arrow
    (panel,) = panels_of(front('draw', '--quiet', '--loops', f'{EXAMPLES}/plate.sheet').out, 1)
    (ax, ay), (bx, by) = panel.marks[1].ends
    panel.numbers[1] = (ax + bx) / 20, (ay + by) / 20 + 3.2
    tally.same('a number on a mark', panel.numbers_on_marks(), [(1, 1)])


def exchange_loops(loops, one, other):
    """Each of the two has the title and the class of the other, but for the number."""
    (mine, rest), (others, more) = (loops[loop][0].text.split(': ') for loop in (one, other))
    loops[one][0].text, loops[other][0].text = f'{mine}: {more}', f'{others}: {rest}'
    classes = loops[one].get('class'), loops[other].get('class')
    loops[other].set('class', classes[0])
    loops[one].set('class', classes[1])


# of the shore, where loops 0 and 1 are tide pools, 3 is a lake and 2, 4 and 5 are rims
SPOILT_KINDS = {
    'without a diamond': lambda loops: loops[0].remove(part(loops[0], 'diamond')),
    'with two diamonds': lambda loops: loops[0].append(part(loops[0], 'diamond')),
    'with a diamond of another': lambda loops: exchange([loops[0], loops[1]], 'diamond', 'd'),
    'with a diamond at a lake': lambda loops: loops[3].append(part(loops[0], 'diamond')),
    'with a diamond at a rim': lambda loops: loops[2].append(part(loops[0], 'diamond')),
    'with a smaller diamond': lambda loops: part(loops[0], 'diamond').set('d', 'M100 100l2-2l2 2l-2 2z'),
    'with a crooked diamond': lambda loops: part(loops[0], 'diamond').set('d', 'M100 100l4-4l4 4l-4 3z'),
    'without a core': lambda loops: loops[3].remove(part(loops[3], 'core')),
    'with a core in a tide pool': lambda loops: part(loops[0], 'seen').set('class', 'core'),
    'with a core elsewhere': lambda loops: part(loops[3], 'core').set('d', part(loops[0], 'seen').get('d')),
    'with kinds of each other': lambda loops: exchange_loops(loops, 0, 3),
    'with the class of another kind': lambda loops: loops[3].set('class', 'loop patched pool'),
}


def is_found_out(picture, kinds, meetings, view):
    try:
        (panel,) = panels_of(picture, 1)
    except NotWhole:
        return True
    return panel.kinds_wrong(kinds, meetings, view, 40) != []


def try_wrong_kinds(front, tally, room):
    """The trial of kinds itself: a sign that is missing, too many or elsewhere is found out."""
    text = read(f'{EXAMPLES}/shore.sheet')
    points, triangles, _ = numbers_of(text)
    listing = Listing(front('list', '--quiet', f'{EXAMPLES}/shore.sheet').out)
    kinds, meetings = kinds_named(text, listing)
    tally.same('the kinds of the shore', [kinds[loop] for loop in range(6)], ['tide pool', 'tide pool', 'rim', 'lake', 'rim', 'rim'])
    for plan in ([], ['--plan']):
        drawn = front('draw', '--quiet', *plan, f'{EXAMPLES}/shore.sheet').out
        (panel,) = panels_of(drawn, 1)
        view = view_of(points, triangles, listing, bool(plan), heights_told(points, triangles), panel)
        for how, spoil in [('as they are', lambda loops: None), *SPOILT_KINDS.items()]:
            is_wrong = is_found_out(spoilt_loops(drawn, spoil), kinds, meetings, view)
            tally.same(f'kinds {how}, {plan}', is_wrong, how != 'as they are')
    # a number on a diamond, and a diamond that is hidden and is not
    number, diamond = next((loop.number, loop.diamonds[0]) for loop in panel.loops if loop.diamonds)
    panel.numbers[number] = diamond.at[0] / 10, diamond.at[1] / 10 + 3.2
    tally.same('a number on a diamond', panel.numbers_on_diamonds(), [number])
    diamond.is_hollow = True
    tally.same('a diamond that is hollow and seen', [fault[0] for fault in panel.hollow_wrong(view, meetings)], [number])


def luminance(colour):
    """How light a colour is, from 0 to 1, as in a grey print."""
    digits = [2 * digit for digit in colour] if len(colour) == 3 else [colour[i:i + 2] for i in (0, 2, 4)]
    return sum(weight * int(each, 16) for weight, each in zip((0.299, 0.587, 0.114), digits)) / 255


def try_grey(front, tally, room):
    """What is told by a colour is told by a shape too: in grey the core of a lake is lighter than every line that it lies in, and narrower,
    and the line of each state has dashes of its own."""
    picture = front('draw', '--quiet', f'{EXAMPLES}/shore.sheet').out.decode()
    rules = dict(re.findall(r'^(\.[^{\n]+)\{([^}]*)\}$', picture, re.MULTILINE))
    style = {name: dict(each.split(':') for each in rule.split(';')) for name, rule in rules.items()}
    core, diamond, dashes = style['.core'], style['.diamond'], set()
    for state, own in (('patched', '.lake .seen'), ('long', '.lake.long .seen'), ('open', '.lake.open .seen')):
        line = style[f'.{state}']
        lighter = luminance(core['stroke'][1:]) - luminance(line['stroke'][1:])
        is_narrow = 2 * float(core['stroke-width']) < float(style[own]['stroke-width'])
        tally.true(f'the core of a lake that is {state}', lighter > 0.3 and is_narrow, (core, line, style[own]))
        dashes.add(line.get('stroke-dasharray'))
    tally.same('the dashes of the states', len(dashes), 3)
    tally.true('the core goes with the dashes of its line', 'stroke-dasharray' not in core, core)
    tally.true('a diamond', luminance(diamond['stroke'][1:]) - luminance(diamond['fill'][1:]) > 0.5 and style['.hollow']['fill'] == 'none',
               (diamond, style['.hollow']))


def try_names(front, tally, room):
    text = read(f'{EXAMPLES}/plate.sheet')
    folder = os.path.join(room, 'names')
    os.mkdir(folder)
    for name, shown in NAMES.items():
        with open(os.path.join(os.fsencode(folder), name), 'wb') as file:
            file.write(text)
        drawn = front('draw', '--quiet', name, cwd=folder)
        tally.same(f'{name}, status', drawn.status, 0)
        for panel in taken_apart(tally, name, drawn, 1):
            tally.same(f'{name}, title', panel.title, shown)
            seen = panel.text('name')
            tally.true(f'{name}, name', seen == shown or (len(shown) > 54 and len(seen) == 54 and shown.endswith(seen[1:])), seen)


def try_panels(front, tally, room):
    """Several sheets: panels of one size, in a grid, each as if it were alone."""
    names = ['plate.sheet', 'range.sheet', 'none.sheet', 'repeated.sheet', 'plate-crossed.sheet', 'nothing.sheet', 'relief.sheet']
    for count, options in ((2, []), (3, []), (4, []), (5, []), (7, []), (7, ['--loops'])):
        drawn = front('draw', '--quiet', *options, *names[:count], cwd=EXAMPLES)
        tally.same(f'{count} sheets, status', drawn.status, 0 if count < 3 else 2)
        panels = taken_apart(tally, f'{count} sheets', drawn, count)
        columns = next(n for n in range(1, 9) if n * n >= count)
        places = [(720 * (i % columns), 540 * (i // columns)) for i in range(count)]
        tally.same(f'{count} sheets, places', [panel.place for panel in panels], places)
        tally.same(f'{count} sheets, names', [panel.text('name') for panel in panels], names[:count])
        for name, panel in zip(names, panels):
            if name == 'none.sheet':
                tally.true(f'{count} sheets, {name}', panel.has('could not be read'))
            elif name == 'repeated.sheet':
                tally.true(f'{count} sheets, {name}', panel.has('refused, answer 6,3') and not panel.faces)
            else:
                for alone in taken_apart(tally, name, front('draw', '--quiet', *options, name, cwd=EXAMPLES), 1):
                    tally.same(f'{count} sheets, {name}', panel.inner, alone.inner)
    given = front('draw', '--quiet', '-', given=read(f'{EXAMPLES}/plate.sheet'))
    for panel in taken_apart(tally, 'standard input', given, 1):
        tally.same('standard input, name', panel.text('name'), 'standard input')


def pictures(*arguments, front=None):
    """The status of examples/pictures, and what it says."""
    own = dict(os.environ, FRONT=front or os.environ['FRONT'])
    done = subprocess.run([f'{EXAMPLES}/pictures', *arguments], stdout=subprocess.PIPE, stderr=subprocess.STDOUT, check=False, env=own)
    return done.returncode, done.stdout


def try_current(front, tally, room):
    tally.same('pictures of docs', pictures('--check'), (0, b''))
    sizes = [os.path.getsize(f'{PICTURES}/{name}') for name in os.listdir(PICTURES)]
    tally.true('pictures of docs, bytes', 0 < sum(sizes) <= MOST_BYTES, sum(sizes))
    # the check itself: a picture of another sheet is found out
    other = os.path.join(room, 'other')
    write(other, b'#!/bin/sh\nexec ' + os.environ['FRONT'].encode() + b' draw --quiet nothing.sheet\n')
    os.chmod(other, 0o755)
    status, said = pictures('--check', front=other)
    tally.true('pictures that are not current', status == 1 and b'plate.svg is not what is drawn today' in said, (status, said))
    tally.same('pictures, wrong use', pictures('--chek')[0], 2)


tally = Tally('drawn')
front = front_of_caller(tally)
for trial in (try_current, try_sheets, try_wrong_marks, try_wrong_kinds, try_grey, try_names, try_panels):
    before = tally.tried, tally.wrong
    trial(front, tally, sys.argv[1])
    print(f'drawn: {trial.__name__[4:]}: {tally.tried - before[0]} tried, {tally.wrong - before[1]} wrong', flush=True)
sys.exit(tally.end())
