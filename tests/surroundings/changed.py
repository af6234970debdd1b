"""Sheets, binary STL files and sets that are changed at random, from a fixed seed."""
import os
import random

from calls import HOME, read, sheets_of, write
from facets import FACET, FRONT
from objects import parsed

BEGINNINGS = [b'\xef\xbb\xbf', b'\xff\xfe', b'\xfe\xff', b'\x1f\x8b', b'solid ', b'OFF\n', b'ply\n', b'# \n', b'v ', b'\n',
              b'pitch=5\n', b'pitch=1\n', b'pitch=']
NUMBERS = [b'0', b'1', b'4', b'9', b'1023', b'1024', b'1025', b'3072', b'3073', b'65536', b'18446744073709551616', b'-1', b'01']
WORDS = [b'7f800000', b'7fc00001', b'ff800000', b'47000000', b'c7000000', b'7f7fffff', b'00000001', b'46fffeff', b'80000000']
ENDS = [b'\n', b't=0,1,2\n', b's=1\n', b'x' * 100, bytes(100), b'p=00000000,00000000,00000000\n']


def changed_number(random_, data):
    """Another corner, another word or another state somewhere, so that the text stays one that can be read."""
    lines = data.split(b'\n')
    at = random_.choice([number for number, line in enumerate(lines) if line[:2] in (b't=', b'p=', b's=')] or [0])
    parts = lines[at][2:].split(b',')
    others = {b't=': [b'%d' % random_.randrange(9), parts[-1]], b'p=': WORDS, b's=': [b'1', b'2', b'3', b'4', b'5']}
    parts[random_.randrange(len(parts))] = random_.choice(others.get(lines[at][:2], NUMBERS))
    lines[at] = lines[at][:2] + b','.join(parts)
    return b'\n'.join(lines)


def changed_lines(random_, data):
    """Lines that are doubled, dropped or exchanged."""
    lines = data.split(b'\n')
    line, other = random_.randrange(len(lines)), random_.randrange(len(lines))
    kind = random_.randrange(3)
    if kind == 0:
        lines.insert(line, lines[line])
    elif kind == 1:
        del lines[line]
    else:
        lines[line], lines[other] = lines[other], lines[line]
    return b'\n'.join(lines)


def changed_bytes(random_, data):
    """Bytes that are others, too many or too few, or ends of lines that are others."""
    at = random_.randrange(len(data) + 1)
    kind = random_.randrange(7)
    if kind == 0:
        return data[:at] + bytes([random_.randrange(256)]) + data[at + 1:]
    if kind == 1:
        return data[:at] + data[at + random_.randint(1, 9):]
    if kind == 2:
        return data[:at] + bytes(random_.choices(b'0123456789abcdefABCDEFpts=, .-\r\n\t\0', k=random_.randint(1, 3))) + data[at:]
    if kind == 3:
        return data[:at]
    if kind == 4:
        return random_.choice(BEGINNINGS) + data
    if kind == 5:
        return data.replace(b'\n', random_.choice([b'\r\n', b'\r', b'\n\n', b' \n']), random_.choice([1, -1]))
    return data + random_.choice(ENDS)


def changed(random_, data):
    """One or two small changes of a text."""
    for _ in range(random_.randint(1, 2)):
        data = random_.choice([changed_number, changed_number, changed_lines, changed_bytes])(random_, data)
    return data


def changed_facets(random_, data):
    """A binary STL file with another word, corner, facet, header or count, or other bytes of any kind; mostly its length still fits."""
    facets = (len(data) - FRONT) // FACET
    at = FRONT + FACET * random_.randrange(facets)
    kind = random_.randrange(6)
    if kind == 0:
        word = at + 12 + 4 * random_.randrange(9)
        return data[:word] + bytes.fromhex(random_.choice(WORDS).decode())[::-1] + data[word + 4:]
    if kind == 1:
        one, other = (at + 12 * random_.randint(1, 3) for _ in range(2))
        return data[:one] + data[other:other + 12] + data[one + 12:]
    if kind == 2:
        count = facets + random_.choice([-1, 1])
        rest = data[at + FACET:] if count < facets else data[at:at + FACET] + data[at:]
        return data[:80] + count.to_bytes(4, 'little') + data[FRONT:at] + rest
    if kind == 3:
        return random_.choice(BEGINNINGS + [b'points=', b'pitch=']).ljust(80) + data[80:random_.choice([len(data), at])]
    if kind == 4:
        return data[:80] + random_.choice([0, facets - 1, facets << 24, 1 << 31]).to_bytes(4, 'little') + data[FRONT:]
    return changed_bytes(random_, data)


def changed_pair(random_, number, stems):
    """A sheet, by its name and its bytes, and a set, of which one is changed. Every third sheet is a binary STL file."""
    if number % 3 == 0:
        sheet, patches = (read(f'{HOME}/examples/box.{ending}') for ending in ('stl', 'patches'))
        return f'{number:04}.stl', changed_facets(random_, sheet), patches
    stem = random_.choice(stems)
    sheet = read(f'{stem}.sheet')
    patches = read(f'{stem}.patches') if os.path.exists(f'{stem}.patches') else b'states=0\ntriangles=0\n'
    if number % 2 == 0:
        return f'{number:04}.sheet', changed(random_, sheet), patches
    return f'{number:04}.sheet', sheet, changed(random_, patches)


def try_changed(front, tally, room, count, seed):
    """Changed sheets and sets, all in few calls: each has to be answered and told, and the objects have to say the same. What is printed
    and said is given back."""
    random_ = random.Random(seed)
    folder = os.path.join(room, 'changed')
    os.mkdir(folder)
    cases = f'{HOME}/tests/programs/cases'
    stems = [f'{HOME}/examples/{name[:-len(".sheet")]}' for name in sheets_of(f'{HOME}/examples')]
    stems = [stem for stem in stems if os.path.getsize(f'{stem}.sheet') < 1000]
    stems += [f'{cases}/{name}' for name in ('hole-65', 'island-in-a-hole', 'equal-runs', 'closed')]
    names = []
    for number in range(count):
        name, sheet, patches = changed_pair(random_, number, stems)
        names.append(name)
        write(f'{folder}/{name}', sheet)
        write(f'{folder}/{number:04}.patches', patches)
    numbers = {}
    results = []
    for command in (['list'], ['check', '--beside'], ['report', '--entries']):
        got = front(*command, *names, cwd=folder)
        answers = [line[len(b'answer='):].decode() for line in got.out.split(b'\n') if line.startswith(b'answer=')]
        numbers[command[0]] = {answer.split(',')[0] for answer in answers}
        tally.same(f'{command} of changed ones', (got.status, len(answers), got.out.count(b'# ')), (1, count, count))
        tally.same(f'what {command} says of changed ones', got.err.count(b'wazelpunt: '), count)
        json = front(*(word for word in command if word != '--entries'), '--json', *names, cwd=folder)
        objects = parsed(tally, f'{command} --json of changed ones', json.out)
        told = [f'{found["answer"]["number"]},{found["answer"]["place"]}' for found in objects]
        tally.same(f'{command} --json of changed ones', (json.status, json.err, told), (1, b'', answers))
        results += [got.out, got.err, json.out]
    # the changes are worth something only if they are answered in many ways
    tally.true('the changed ones are of many kinds', len(numbers['list']) >= 7 and len(numbers['check']) >= 10, f'{numbers}')
    for command in ('rewrite', 'import', 'report'):
        got = front(command, *names, cwd=folder)
        tally.same(f'{command} of changed ones', (got.status, got.out.count(b'# ')), (1, count))
        results += [got.out, got.err]
    for options in ([], ['--plan']):
        got = front('draw', *options, *names[:60], cwd=folder)
        tally.true('draw of changed ones', got.status in (0, 1) and got.out.count(b'<svg') == 1, repr(got))
        results.append(got.out)
    return results
