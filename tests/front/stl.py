"""Binary STL files given for sheets: what they are taken for, what is printed and said of them, against the model of facets.py and what the
reference prints for the model's text."""
import json
import os
import random
import shlex
import subprocess
import threading
import time
from fractions import Fraction

from calls import HOME, read, write
from facets import (FACET, FRONT, INFINITE, LONGEST, MINUS_ZERO, MOST, NAN, answer, apart, count_of, counts_of, grid, imported,
                    is_taken_for_stl, is_well_sized, made_of, stl)
from printed import programs

WHOLE = grid(1, 1)  # two facets
PLATE = [((0.0, 0.0, 0.0), (30.0, 0.0, 0.0), (5.0, 5.0, 0.0)), ((30.0, 0.0, 0.0), (15.0, 5.0, 0.0), (5.0, 5.0, 0.0)),
         ((30.0, 0.0, 0.0), (0.0, 30.0, 0.0), (15.0, 5.0, 0.0)), ((0.0, 30.0, 0.0), (5.0, 15.0, 0.0), (15.0, 5.0, 0.0)),
         ((0.0, 30.0, 0.0), (0.0, 0.0, 0.0), (5.0, 15.0, 0.0)), ((0.0, 0.0, 0.0), (5.0, 5.0, 0.0), (5.0, 15.0, 0.0))]


class Bench:
    """A folder where files are given, with what is due for each."""

    def __init__(self, front, tally, room):
        self.front = front
        self.tally = tally
        self.folder = os.path.join(room, 'stl')
        os.mkdir(self.folder)
        self.reference = shlex.split(os.environ['REFERENCE'])
        self.known = {}

    def call(self, *arguments, **more):
        return self.front(*arguments, cwd=self.folder, **more)

    def write(self, name, data):
        write(os.path.join(self.folder, name), data)
        return name

    def ask(self, kind, text, patches=None):
        """What the reference prints for a text and, where one is given, a set."""
        key = kind, text, patches
        if key not in self.known:
            paths = [write(os.path.join(self.folder, 'asked'), text)]
            if patches is not None:
                paths.append(write(os.path.join(self.folder, 'asked.patches'), patches))
            self.known[key] = subprocess.run([*self.reference, kind, *paths], stdout=subprocess.PIPE, check=True).stdout
        return self.known[key]

    def due(self, kind, name, data, patches=None):
        """What a command prints for a file of this name: of a binary STL file importing's answer, or what is printed for its text."""
        if kind == 'import':
            return imported(data)
        text = imported(data) if is_taken_for_stl(name, data) else data
        return text if text.startswith(b'answer=') and text != data else self.ask(kind, text, patches)

    def try_together(self, kind, files):
        """All files in one call."""
        names = [self.write(name, data) for name, data in files]
        got = self.call(kind, '-q', *names)
        due = [(name, self.due(kind, name, data)) for name, data in files]
        at = 0
        for name, printed in due:
            part = b'# ' + name.encode() + b'\n' + printed
            is_so = got.out.startswith(part, at)
            self.tally.true(f'{kind} {name}, among others', is_so, f'{got.out[at:at + 100]}, but due is {part[:100]}')
            at = at + len(part) if is_so else max(at, got.out.find(b'# ', at + 1))
        refused = any(printed.startswith(b'answer=') and not printed.startswith(b'answer=0,0\n') for _, printed in due)
        self.tally.same(f'{kind}, the status of all', (got.status, got.out[at:]), (1 if refused else 0, b''))
        return got

    def try_input(self, kind, data):
        """One file through a pipe, where no name tells anything."""
        due = self.due(kind, '-', data)
        refused = due.startswith(b'answer=') and not due.startswith(b'answer=0,0\n')
        got = self.call(kind, '-q', '-', given=data)
        self.tally.same(f'{kind} of {len(data)} bytes on standard input', (got.status, got.out), (1 if refused else 0, due))


def try_lengths(bench):
    """A small file cut at every byte, with bytes behind it, and with other counts; under names that tell and that do not."""
    whole = stl(WHOLE)
    changed = [whole[:length] for length in range(len(whole) + 1)] + [whole + bytes(more) for more in (1, 2, 49, 50, 51, 100)]
    changed += [whole + b'\n', whole[:-1] + b'\n\n', whole + whole]
    changed += [stl(WHOLE, count=count) for count in (0, 1, 3, 0x02000000, 85899348, 0xffffffff)]
    changed += [stl(WHOLE, order='>'), stl([]), stl([], order='>'), stl([], count=1), stl(WHOLE[:1])]
    for ending in ('stl', 'sheet'):
        files = [(f'length-{number:03}.{ending}', data) for number, data in enumerate(changed)]
        for kind in ('list', 'rewrite', 'import'):
            bench.try_together(kind, files)
    for data in changed[::7] + changed[-12:]:
        for kind in ('list', 'import'):
            bench.try_input(kind, data)


def try_headers(bench):
    """What begins as something else, whole and cut, with a NUL byte and without: the order of the rules, and the names' endings."""
    headers = [b'solid part', b'SOLID', b' \t solid x', b'\nsolid\n', b'solidus', b'\xef\xbb\xbf \nSolid_', b' \xef\xbb\xbfsolid',
               b'\xef\xbb\xbf', b'soli', b'points=3\n', b'points=', b'states=1\n', b'answer=0,0\n', b'ply\n', b'OFF\n', b'v 1 2 3\n',
               b'\x1f\x8b\x08', b'\xef\xbb\xbfpoints=0\n', b'\xff\xfep\0', b'p=', b'\n', b'facet', b'-', b'pitch=5\n', b'pitch=', b'pitch',
               b'\xef\xbb\xbfpitch=3\n']
    files = []
    for number, header in enumerate(headers):
        filled = header + b' ' * (80 - len(header))
        for what, data in (('whole', stl(WHOLE, header=filled)), ('cut', stl(WHOLE, header=filled)[:120]), ('short', filled[:79]),
                           ('bare', header), ('fed', header + b'\n' + b'x' * 200), ('nul', header + b'\0')):
            files += [(f'{what}-{number:02}{ending}', data) for ending in ('.stl', '.sheet')]
    plain = b'no sheet and no facets\n'
    files += [(name, plain) for name in ('a.STL', 'a.Stl', 'a.stl.txt', 'stl', 'astl', '.stl', 'a.stlx')]
    # a sheet's text is one under any name
    files += [(name, read(f'{HOME}/examples/plate.sheet')) for name in ('sheet.stl', 'sheet.STL', 'sheet')]
    for kind in ('list', 'rewrite', 'import'):
        bench.try_together(kind, files)
    taken = {is_taken_for_stl(name, data) for name, data in files}
    bench.tally.same('what the headers are taken for', taken, {True, False})


def try_points(bench):
    """Which corners are the same point, and how many there may be."""
    odd = [MINUS_ZERO, 0, NAN, NAN | 1, NAN | MINUS_ZERO, INFINITE, INFINITE | MINUS_ZERO, 1, 1 | MINUS_ZERO, 0x7f800001, 0x3f800000]
    files = [('zeros.stl', stl([((0, 0, 0), (MINUS_ZERO, 0x3f800000, 0), (0x3f800000, MINUS_ZERO, MINUS_ZERO)),
                                ((0, MINUS_ZERO, 0), (0x3f800000, 0, 0), (0, 0x3f800000, MINUS_ZERO))]))]
    random_ = random.Random(1)
    for number in range(40):
        facets = [[[random_.choice(odd) for _ in range(3)] for _ in range(3)] for _ in range(random_.randint(1, 30))]
        files.append((f'odd-{number}.stl', stl(facets, attribute=random_.randrange(65536), normal=(NAN, 1.0, 2.0))))
    files += [(f'full-{count}.stl', stl(apart(count))) for count in (341, 342, 1023, 1024, 1025)]
    files += [('grid.stl', stl(grid(32, 16))), ('grid-points.stl', stl(grid(31, 31)[:1024])), ('one-more.stl', stl(apart(341) + WHOLE))]
    for kind in ('import', 'rewrite', 'list'):
        bench.try_together(kind, files)
    answers = {imported(data).split(b'\n')[0] for _, data in files if imported(data).startswith(b'answer=')}
    bench.tally.same('the answers on points', answers, {answer(number).strip() for number in (1, 2)})


def made(random_):
    """A surface of small whole numbers, with gaps, some facets turned over, some of no area."""
    facets = grid(random_.randint(1, 5), random_.randint(1, 5))
    kept = [facet for facet in facets if random_.random() > 0.15]
    for _ in range(random_.randrange(3) if random_.random() < 0.3 else 0):
        at = random_.randrange(len(facets))
        kept.append(random_.choice([facets[at], facets[at][::-1], (facets[at][0], facets[at][0], facets[at][1])]))
    if random_.random() < 0.5:
        random_.shuffle(kept)
    return kept


def set_of(listing):
    """The set that a listing lays."""
    lines = listing.decode().split('\n')
    states = [line.split(',')[1] for line in lines if line.startswith('loop=')]
    laid = [line[len('patch='):] for line in lines if line.startswith('patch=')]
    text = [f'states={len(states)}'] + [f's={state}' for state in states] + [f'triangles={len(laid)}'] + [f't={three}' for three in laid]
    return ('\n'.join(text) + '\n').encode()


def try_made(bench):
    """Made files: every command says and prints of one what it does of its text."""
    random_ = random.Random(2)
    files = [(f'made-{number}.stl', stl(made(random_))) for number in range(30)]
    for kind in ('import', 'rewrite', 'list'):
        bench.try_together(kind, files)
    numbers = {bench.due('list', name, data).split(b',')[0] for name, data in files}
    bench.tally.true('the made files are answered in several ways', {b'answer=0', b'answer=5', b'answer=6'} <= numbers, f'{numbers}')
    for name, data in files:
        text = imported(data)
        listing = bench.ask('list', text)
        bench.write('part.sheet', text)
        for patches in (set_of(listing), set_of(listing) + b'\n', b'states=0\ntriangles=0\n', b'states=x\n'):
            bench.write('part.patches', patches)
            bench.write('part.stl', data)
            due = bench.ask('check', text, patches)
            for names in (('part.stl',), ('part.stl', 'part.patches')):
                got = bench.call('check', '-q', *names)
                bench.tally.same(f'check {names} of {name}', (got.status, got.out), (0 if due == b'answer=0,0\n' else 1, due))
        try_as_text(bench, name, data)


def report_of_facets(made, of_text):
    """The report in words of a file, by that of its text: it begins with what the file holds, and speaks of facets."""
    return made.split(b': ', 2)[2] + b': ' + of_text.replace(b' of triangle ', b' of facet ')


def try_as_text(bench, name, data):
    """Objects, reports and pictures of part.stl are those of part.sheet, but for the name and for what is said of facets; so is what is
    said."""
    for options in (['list'], ['list', '--patches'], ['report']):
        objects = [json.loads(bench.call(*options, '--json', f'part.{ending}').out) for ending in ('stl', 'sheet')]
        points, facets = counts_of(imported(data))
        bench.tally.same(f'the object of {name}: stl', objects[0].pop('stl', None), {'facets': facets, 'points': points})
        for found in objects:
            del found['file']
            found.pop('explanation', None)
        bench.tally.same(f'the object of {name}', objects[0], objects[1])
    reports = [bench.call('report', '-q', *options, f'part.{ending}').out for options in ([], ['--entries']) for ending in ('stl', 'sheet')]
    if not reports[1].startswith(b'answer='):
        reports[1] = report_of_facets(made_of('part.stl', imported(data)), reports[1])
    bench.tally.same(f'the reports of {name}', reports[::2], reports[1::2])
    pictures = [bench.call('draw', *options, f'part.{ending}').out for options in ([], ['--plan'], ['--loops'])
                for ending in ('stl', 'sheet')]
    for one, other in zip(pictures[::2], pictures[1::2]):
        bench.tally.true(f'the picture of {name}', one.replace(b'part.stl', b'part.sheet') == other, 'is not that of its text')
    for options in ([], ['--loops']):
        said, of_text = (bench.call('list', *options, f'part.{ending}').err for ending in ('stl', 'sheet'))
        if b'refused' not in of_text:
            due = made_of('part.stl', imported(data)) + of_text[len(b'wazelpunt: part.sheet'):].replace(b' of triangle ', b' of facet ')
            bench.tally.same(f'what is said of {name}, {options}', said, due)


def try_long(bench):
    """Files that are longer than what is read: 2 where the length fits, 16 elsewhere, however they come."""
    many = stl(apart(MOST + 1))
    files = {'2': many, '2 of 2,000': stl(apart(2000)), '16, a byte more': many + b'\0', '16, a byte less': many[:-1],
             '16, the longest and a byte': stl(apart(MOST)) + b'\0', '16, much more': stl(WHOLE) + bytes(200000),
             '16, a count of 1 more': stl(apart(2000), count=2001), '16, a count of 1 less': stl(apart(2000), count=1999),
             '16, highest byte first': stl(apart(1300), order='>')}
    for what, data in files.items():
        due = answer(what.split(',')[0].split(' ')[0])
        bench.tally.same(f'the model on {what}', imported(data), due)
        path = os.path.join(bench.folder, 'long.stl')
        bench.write('long.stl', data)
        for kind in ('list', 'import', 'rewrite'):
            got = bench.call(kind, '-q', 'long.stl')
            bench.tally.same(f'{kind} of {what}', (got.status, got.out), (1, due))
            bench.try_input(kind, data)
            with open(path, 'rb') as file:
                got = bench.call(kind, '-q', '-', stdin=file)
            bench.tally.same(f'{kind} of {what}, a file as standard input', (got.status, got.out), (1, due))
    # a file that was read in part already has no more than its rest
    bench.write('begun', b'x' * 1000 + many)
    for skipped, due in ((1000, 2), (999, 16), (1001, 16)):
        with open(os.path.join(bench.folder, 'begun'), 'rb', buffering=0) as file:
            file.seek(skipped)
            got = bench.call('import', '-q', '-', stdin=file)
        bench.tally.same(f'import behind {skipped} bytes', (got.status, got.out), (1, answer(due)))
    try_huge(bench)
    try_fifo(bench, many)


def try_huge(bench):
    """Files of gigabytes: their length is asked for, and nothing is read on."""
    count = 50_000_000
    path = os.path.join(bench.folder, bench.write('huge.stl', stl([], count=count)))
    for more, due in ((0, 2), (1, 16), (-1, 16)):
        os.truncate(path, FRONT + FACET * count + more)
        for kind in ('list', 'import'):
            got = bench.call(kind, '-q', 'huge.stl')
            bench.tally.same(f'{kind} of {count} facets and {more} bytes', (got.status, got.out), (1, answer(due)))
        with open(path, 'rb', buffering=0) as file:
            bench.call('list', '-q', '-', stdin=file)
            bench.tally.same('how much of it is read', file.tell(), LONGEST + 1)
    # a count with its highest byte first, all four of them others
    count = 0x01020304
    write(path, stl([], count=count, order='>'))
    os.truncate(path, FRONT + FACET * count)
    got = bench.call('import', 'huge.stl')
    bench.tally.true('a count with its highest byte first', got.out == answer(16) and b' it tells 16,909,060 facets, which fits' in got.err,
                     repr(got))
    # a count that no file has, in one that is not much shorter
    write(path, stl([], count=0xffffffff))
    os.truncate(path, 5_000_000_000)
    got = bench.call('import', 'huge.stl')
    bench.tally.true('the highest count', got.out == answer(16) and b': more likely the count, ' in got.err, repr(got))
    os.remove(path)
    # the count goes beyond 32 bits where it is multiplied
    got = bench.call('list', '-q', bench.write('wrapped.stl', stl(WHOLE[:1], count=85899346)))
    bench.tally.same('a count that would wrap', (got.status, got.out), (1, answer(16)))


def try_fifo(bench, many):
    path = os.path.join(bench.folder, 'fifo')
    os.mkfifo(path)
    for data, due in ((many, answer(2)), (stl(WHOLE), imported(stl(WHOLE))), (many + b'\0', answer(16))):
        feeding = threading.Thread(target=feed, args=(path, data), daemon=True)
        feeding.start()
        got = bench.call('rewrite', '-q', 'fifo')
        bench.tally.same('a fifo', (got.status, got.out), (1 if due.startswith(b'answer') else 0, due))
        feeding.join(60)
        bench.tally.true('a fifo is read to its end, or given up', not feeding.is_alive())
    os.remove(path)


def feed(path, data):
    """Feeds the last byte late, so that the file ends for a while where its count says."""
    try:
        with open(path, 'wb', buffering=0) as fifo:
            fifo.write(data[:-1])
            time.sleep(0.2)
            fifo.write(data[-1:])
    except BrokenPipeError:
        pass


def try_said(bench):
    """What is said of files that are too large to lie among the told cases, and where nothing is to be said."""
    many = 'it has more points than the 1,024 that a sheet has at most: facet'
    cases = [('2', stl(apart(2000)), ['it has 2,000 facets, and a sheet has 1,024 at most']),
             ('1', stl(apart(342)), [f'{many} 341 has the 1,025th',
                                     'facet 341, bytes 17134 to 17183: (1023, 0, 0), (1024, 0, 0), (1023, 1, 0)']),
             ('1', stl(WHOLE * 300 + apart(360)[1:]), [f'{many} 940 has the 1,025th',
                                                       'facet 940, bytes 47084 to 47133: (1023, 0, 0), (1024, 0, 0), (1023, 1, 0)']),
             ('16', stl(apart(2000))[:-1], ['its count says 2,000 facets: that takes 100,084 bytes, and it has 100,083: 1 too few',
                                            'cause: perhaps the file is cut off, within facet 1999, which has 49 of its 50 bytes, or its '
                                            'count, bytes 80 to 83, is wrong, or this is no STL file'])]
    for number, data, lines in cases:
        said = f'wazelpunt: part.stl: refused, answer {number},0: ' + '\n  '.join(lines) + '\n'
        bench.write('part.stl', data)
        for command in ('import', 'list'):
            due = said
            if number == '16' and command == 'list':
                due = said.replace(': its', ': taken for binary STL, since it has a NUL byte, byte 4: its')
            got = bench.call(command, 'part.stl')
            bench.tally.same(f'what {command} says of {number}', got.err.decode(), due)
        found = json.loads(bench.call('list', '--json', 'part.stl').out)
        facets = None if number == '16' else count_of(data)
        bench.tally.same(f'the object of {number}', found.get('stl'), {'facets': facets, 'points': None})
    # how far a pipe goes on is not known, also where what was read of it would be facets
    for more in (1, FACET):
        got = bench.call('import', '-', given=stl(apart(2000)) + bytes(more))
        bench.tally.same(f'what is said of a pipe with {more} bytes too many', got.err.decode().split(': ', 3)[3],
                         'its count says 2,000 facets: that takes 100,084 bytes, and it goes on behind them\n'
                         '  cause: perhaps bytes were put behind the last facet, from byte 100084 on, or the count, bytes 80 to 83, is too '
                         'low, or this is no STL file\n')
    # of a long file no more is told than was looked at
    got = bench.call('import', bench.write('text', b'x' * LONGEST + b'x\0'))
    bench.tally.true('what is said of a NUL byte that is not looked at', b': none of its first 51,285 bytes is NUL,' in got.err, repr(got))
    bench.write('part.stl', stl(PLATE))
    text = imported(stl(PLATE))
    for command in ('import', 'rewrite'):
        got = bench.call(command, 'part.stl')
        bench.tally.same(f'{command} of a plate', (got.status, got.out, got.err), (0, text, made_of('part.stl', text) + b'\n'))
    got = bench.call('import', '-q', 'part.stl', '-', given=stl(PLATE))
    bench.tally.same('import of two', (got.status, got.out, got.err), (0, b'# part.stl\n' + text + b'# -\n' + text, b''))


def try_several(bench):
    """Files, texts and what is refused or missing in one call: each is done, and the worst decides."""
    bench.write('part.stl', stl(PLATE))
    bench.write('cut.stl', stl(PLATE)[:-1])
    bench.write('ascii.stl', b'solid x\nendsolid x\n')
    bench.write('plate.sheet', read(f'{HOME}/examples/plate.sheet'))
    kinds = {'part.stl': 0, 'plate.sheet': 0, 'cut.stl': 1, 'ascii.stl': 1, 'missing.stl': 2}
    for command in ('list', 'report', 'rewrite', 'draw', 'import'):
        for names in (['part.stl', 'plate.sheet'], ['part.stl', 'cut.stl'], ['missing.stl', 'part.stl', 'cut.stl'], ['ascii.stl'],
                      list(kinds)):
            # only a file of facets is imported
            statuses = [1 if command == 'import' and name == 'plate.sheet' else kinds[name] for name in names]
            got = bench.call(command, '-q', *names)
            bench.tally.same(f'the status of {command} {names}', got.status, max(statuses))
            if command != 'draw' and len(names) > 1:
                shown = [line[2:].decode() for line in got.out.split(b'\n') if line.startswith(b'# ')]
                bench.tally.same(f'what {command} {names} does', shown, [name for name in names if kinds[name] != 2])
            bench.tally.same(f'what {command} {names} says', got.err.count(b'wazelpunt: '), sum(status > 0 for status in statuses))
    got = bench.call('draw', 'part.stl', 'cut.stl', 'plate.sheet')
    bench.tally.true('draw of three', got.status == 1 and got.out.count(b'<svg') == 1 and b'cut.stl' in got.out, repr(got))
    got = bench.call('draw', 'cut.stl')
    bench.tally.true('draw of one that is refused', got.status == 1 and got.out == b'' and b'answer 16,0' in got.err, repr(got))
    # a panel speaks of the file's facets and points
    bench.write('facets.stl', stl(apart(1025)))
    bench.write('points.stl', stl(apart(342)))
    got = bench.call('draw', 'part.stl', 'facets.stl', 'points.stl')
    for number, what in (2, b'facets'), (1, b'points'):
        said = got.out.partition(f'answer {number},0'.encode())[2]
        bench.tally.true(f'the panel of {number}', b'the file has more than 1,024 ' + what in said, repr(said[:200]))
    # the set beside a file, and a set that cannot be read before a file that is refused
    for name in ('part.STL', 'Part.Stl'):
        bench.write(name, stl(PLATE))
        bench.write(name[:-4] + '.patches', set_of(bench.ask('list', imported(stl(PLATE)))))
        got = bench.call('check', '-q', name)
        bench.tally.same(f'the set beside {name}', (got.status, got.out, got.err), (0, b'answer=0,0\n', b''))
    got = bench.call('check', 'cut.stl', 'missing.patches')
    bench.tally.true('a missing set', got.status == 2 and got.out == b'' and b'missing.patches' in got.err, repr(got))
    got = bench.call('check', '--json', 'cut.stl', 'part.patches')
    found = json.loads(got.out)
    bench.tally.same('the object of check', (got.status, got.err, list(found), found['stl']),
                     (1, b'', ['file', 'patches', 'stl', 'answer', 'explanation'], {'facets': None, 'points': None}))
    got = bench.call('check', '--json', 'part.stl')
    bench.tally.same('the object of a set that passes', (got.status, json.loads(got.out)),
                     (0, {'file': 'part.stl', 'patches': 'part.patches', 'stl': {'facets': 6, 'points': 6},
                          'answer': {'number': 0, 'place': 0, 'sentence': 'done'}, 'left_open': []}))


# a box whose corners lie off every grid but the finest, two of them on a tie of pitch 5, and a facet of which one number is too far at some
OFF_GRID = [tuple((x + 2.5, y - 0.25, z + 1.75 * x) for x, y, z in facet) for facet in PLATE]
FURTHEST = {32767.0: (1, 5), 32766.5: (1, 2, 5), 32765.0: (1, 2, 5, 10), -32765.001953125: (1, 2, 5), -32767.498046875: (1, 5), 32767.5: (),
            32785.0: (), -32772.5: ()}


def try_pitches(bench):
    """Files at each pitch: the text has its line, and everything is printed, said and drawn as of that text."""
    bench.write('cut.stl', stl(PLATE)[:-1])
    files = {'plate.stl': stl(PLATE), 'off.stl': stl(OFF_GRID), 'empty.stl': stl([]), 'large.stl': stl(grid(31, 31)[:MOST]),
             'points.stl': stl(apart(342)), 'facets.stl': stl(apart(MOST + 1)), 'cut.stl': stl(PLATE)[:-1], 'twice.stl': stl(WHOLE[:1] * 2),
             'nan.stl': stl([((0, 0, NAN), (0, 1, 0), (1, 0, 0))])}
    for name, data in files.items():
        bench.write(name, data)
    listings = set()
    for pitch in (1, 2, 5, 10):
        for name, data in files.items():
            text = imported(data, pitch)
            refused = text.startswith(b'answer=')
            for command in ('import', 'rewrite'):
                got = bench.call(command, '--pitch', str(pitch), name)
                bench.tally.same(f'{command} of {name} at pitch {pitch}', (got.status, got.out), (1 if refused else 0, text))
                if not refused:
                    bench.tally.same(f'what {command} says of {name} at pitch {pitch}', got.err, made_of(name, text) + b'\n')
            listing = text if refused else bench.ask('list', text)
            for names, given in (([name], None), (['-'], data)):
                got = bench.call('list', '-q', f'--pitch={pitch}', *names, given=given)
                bench.tally.same(f'list of {name} at pitch {pitch}, {names}', got.out, listing)
            bench.tally.same(f'its status, {name} at pitch {pitch}', got.status, 0 if listing.startswith(b'answer=0,0') else 1)
            if listing.startswith(b'answer=0,0'):
                try_pitched_as_text(bench, name, text, pitch)
        listings.add(bench.call('list', '-q', '--pitch', str(pitch), 'off.stl').out)
        try_furthest(bench, pitch)
    bench.tally.same('how many listings one file has at four pitches', len(listings), 4)
    bench.tally.same('without a pitch it is 1', bench.call('list', 'off.stl').out, bench.call('list', '--pitch=1', 'off.stl').out)
    # a text that is no sheet's is told as ever, and not that it says its pitch
    bench.write('ascii.stl', b'solid x\nendsolid x\n')
    bench.write('other.sheet', b'states=0\n')
    for name in ('ascii.stl', 'other.sheet'):
        plain, pitched = bench.call('list', name), bench.call('list', '--pitch', '5', name)
        bench.tally.same(f'{name} at a pitch', (pitched.status, pitched.out, pitched.err), (1, b'answer=10,1\n', plain.err))


def try_pitched_as_text(bench, name, text, pitch):
    """Objects, pictures, sets and what is said of a file at a pitch are those of its text."""
    option = f'--pitch={pitch}'
    sheet = bench.write(f'{name}.sheet', text)
    patches = bench.write(f'{name}.patches', set_of(bench.ask('list', text)))
    found, due = (json.loads(bench.call('list', '--json', '--patches', *words).out) for words in ((option, name), (sheet,)))
    bench.tally.same(f'the object of {name} at pitch {pitch}: its pitch', found.get('pitch'), pitch)
    for each in (found, due):
        each.pop('stl', None)
        del each['file']
    bench.tally.same(f'the object of {name} at pitch {pitch}', found, due)
    drawn, of_text = bench.call('draw', option, name).out, bench.call('draw', sheet).out
    is_same = drawn.replace(name.encode(), sheet.encode()) == of_text
    bench.tally.true(f'the picture of {name} at pitch {pitch}', is_same, 'is not that of its text')
    bench.tally.same(f'the pitch in the picture of {name} at pitch {pitch}', b'>pitch %d<' % pitch in drawn, pitch != 1)
    said = bench.call('list', '--loops', option, name).err
    loops = bench.call('list', '--loops', sheet).err.partition(b': pitch %d: ' % pitch if pitch != 1 else b'.sheet: ')[2]
    loops = loops.replace(b' of triangle ', b' of facet ')
    bench.tally.same(f'what is said of {name} at pitch {pitch}', said, made_of(name, text) + b': ' + loops)
    got, of_text = bench.call('report', option, name), bench.call('report', sheet).out
    due = report_of_facets(made_of(name, text), of_text.removeprefix(b'pitch %d: ' % pitch))
    bench.tally.same(f'report of {name} at pitch {pitch}', (got.status, got.out, got.err), (0, due, b''))
    got = bench.call('check', '-q', option, name, patches)
    bench.tally.same(f'check of {name} at pitch {pitch}', (got.status, got.out, got.err), (0, b'answer=0,0\n', b''))
    # the lines of a set are counted on from the text's last
    wrong = bench.write('wrong.patches', b'states=x\n')
    got = bench.call('check', '-q', option, name, wrong)
    bench.tally.same(f'a wrong set of {name} at pitch {pitch}', got.out, b'answer=10,%d\n' % (text.count(b'\n') + 1))


def try_furthest(bench, pitch):
    """How far the grid reaches at a pitch, by facets that are refused with 8, which are told with the multiple."""
    for value, pitches in FURTHEST.items():
        name = bench.write('far.stl', stl([((0.0, 0.0, 0.0), (10.0, 0.0, 0.0), (0.0, value, 0.0))]))
        got = bench.call('list', '--pitch', str(pitch), name)
        if pitch in pitches:
            bench.tally.same(f'{value} at pitch {pitch}', (got.status, got.out.split(b'\n')[0]), (0, b'answer=0,0'))
            continue
        bench.tally.same(f'{value} at pitch {pitch}', (got.status, got.out), (1, b'answer=8,7\n'))
        multiple = round(Fraction(value) / pitch) * pitch
        goes = f', which goes to {multiple:,} at pitch {pitch}' if pitch != 1 else ''
        said, due = got.err.decode().split('\n')[0], f' is {value:.9g}{goes}: the grid goes from -32,767 to 32,767'
        bench.tally.true(f'what is said of {value} at pitch {pitch}', said.endswith(due), said)


def try_program(bench):
    """The program itself, against the front."""
    many = stl(apart(MOST + 1))
    for data in (read(f'{HOME}/examples/box.stl'), stl(PLATE), stl([]), stl(grid(31, 31)[:MOST]), stl(apart(400)), many, many + b'\0', b'',
                 stl(PLATE)[:-1], stl(WHOLE) + bytes(100_000)):
        ran = subprocess.run(programs() + [f'{HOME}/target/bin/importing'], input=data, stdout=subprocess.PIPE)
        bench.tally.same(f'import of {len(data)} bytes against the program importing', front_out(bench, 'import', data), ran.stdout)


def try_named(bench):
    """The named cases of the programs, each with what importing has to print."""
    folder = f'{HOME}/tests/programs/cases'
    stems = [os.path.join(folder, name[:-len('.imported')]) for name in sorted(os.listdir(folder)) if name.endswith('.imported')]
    bench.tally.true('there are named cases', len(stems) > 5)
    for stem in stems:
        due = read(f'{stem}.imported')
        got = bench.call('import', '-q', f'{stem}.stl')
        bench.tally.same(f'import {os.path.basename(stem)}', (got.out, imported(read(f'{stem}.stl'))), (due, due))


def try_example(bench):
    """The example is what it is said to be: a box whose sheet has a rim and a hole, with its set beside it."""
    data = read(f'{HOME}/examples/box.stl')
    bench.tally.true('the example is a binary STL file', is_well_sized(data))
    bench.tally.same('import of the example', front_out(bench, 'import', data), imported(data))
    got = bench.call('check', '-q', '--closed', f'{HOME}/examples/box.stl')
    bench.tally.same('check of the example', (got.status, got.out), (0, b'answer=0,0\n'))


def front_out(bench, kind, data):
    return bench.call(kind, '-q', given=data).out


def try_files(front, tally, room):
    """Everything of this file but the program."""
    bench = Bench(front, tally, room)
    for part in (try_lengths, try_headers, try_points, try_made, try_long, try_said, try_several, try_pitches, try_named, try_example):
        part(bench)
    return bench


def try_stl(front, tally, room):
    try_program(try_files(front, tally, room))
