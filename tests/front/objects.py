"""What --json prints: a line for each sheet, whose object says what the listing says."""
import json
import os
import shutil

from calls import HOME, read, write
from facets import count_of, counts_of, imported, is_taken_for_stl, pitch_of, surface
from records import STATES, records_of

# names that are odd in a string or in a line; from b'\xff\xfe' on they are not UTF-8
ODD = [b'plain', b'two words', b'a\nb', b'quo"te', b'back\\slash', b'tab\there', b'\x01\x1f\x7f', b'-dash',
       b'\xc2\x9b', '\u00e9\u20ac\U0001f600'.encode(), '\u0080\u07ff\u0800\uffff\U00010000\U0010ffff'.encode(),
       b'\xff\xfe', b'\xc3', b'\xe2\x82', b'\xf0\x9f\x98', b'\xed\xa0\x80', b'\xc0\x80', b'\xf4\x90\x80\x80', b'\xe0\x80\x80',
       b'\xc3\xa9\x80\xc3', b'\xf9\x80\x80\x80']


def numbers(text):
    return [int(number) for number in text.split(',')]


def object_of(listing, sheet, with_patches):
    """The parts of an object that a listing fixes, and the text of the sheet for the two counts."""
    lines = [line.split('=', 1) for line in listing.decode().split('\n')[:-1]]
    number, place = numbers(lines[0][1])
    due = {'answer': {'number': number, 'place': place}}
    if number != 0:
        return due
    counts = counts_of(sheet)
    due.update(points=counts[0], triangles=counts[1], pitch=pitch_of(sheet), left_open=[], loops=[])
    for key, value in lines[2:]:
        if key == 'loop':
            length, state, weight, first, piece, run = numbers(value)
            if state in (2, 3):
                due['left_open'].append(len(due['loops']))
            due['loops'].append({'length': length, 'state': state, 'name': STATES[state], 'weight': weight, 'first': first, 'piece': piece,
                                 'run': run})
            if with_patches:
                due['loops'][-1]['patches'] = []
        elif key == 'ring':
            due['loops'][-1]['ring'] = numbers(value)
        elif with_patches:
            due['loops'][-1]['patches'].append(numbers(value))
    return due


def parsed(tally, what, printed):
    """The objects of what was printed: each line one, in UTF-8, without a key twice."""
    def once(pairs):
        tally.true(f'{what}: keys', len({key for key, _ in pairs}) == len(pairs), f'one is there twice: {pairs}')
        return dict(pairs)
    lines = printed.split(b'\n')
    if not tally.true(f'{what}: lines', lines[-1] == b'', f'the last one is not ended: {lines[-1]}'):
        return []
    try:
        return [json.loads(line.decode(), object_pairs_hook=once) for line in lines[:-1]]
    except ValueError as error:
        tally.true(f'{what}: parses', False, f'{error}')
        return []


def name_of(text):
    """The bytes of a name: those that are not UTF-8 are told as Python tells them."""
    return text.encode('utf-8', 'surrogateescape')


def try_explanation(tally, what, found, files):
    """An explanation is a sentence, lines of the files that are there, and what is due and the cause where there is one."""
    told = found.get('explanation')
    if not tally.true(f'{what}: is explained', isinstance(told, dict) and 'loops' not in found, f'{found}'):
        return
    tally.true(f'{what}: the explanation', set(told) <= {'said', 'lines', 'facets', 'due', 'cause'} and isinstance(told.get('said'), str)
               and told['said'] != '' and isinstance(told.get('lines'), list), f'{told}')
    for facet in told.get('facets', []):
        first = 84 + 50 * facet['facet']
        tally.true(f'{what}: a facet', list(facet) == ['file', 'facet', 'bytes', 'text'] and facet['file'] in files
                   and facet['bytes'] == [first, first + 49] and first + 50 <= len(files[facet['file']]), f'{facet}')
    parts = [told[key] for key in ('due', 'cause') if key in told]
    tally.true(f'{what}: due and cause', all(isinstance(part, str) and part for part in parts), f'{told}')
    for line in told.get('lines', []):
        tally.true(f'{what}: a line', list(line) == ['file', 'line', 'text'] and line['file'] in files, f'{line}')
        text = files.get(line['file'], b'').split(b'\n')
        # a line of plain letters is told as it is, or cut
        if 0 < line['line'] <= len(text) and text[line['line'] - 1].isascii() and text[line['line'] - 1].decode().isprintable():
            plain = text[line['line'] - 1].decode()
            cut = line['text'][:-3] if line['text'].endswith('...') else line['text']
            ends = plain == '' and line['line'] == len(text)
            tally.true(f'{what}: the text of a line', ends or (plain.startswith(cut) and len(cut) >= min(60, len(plain))), f'{line}')


def stl_of(name, data):
    """What an object says of a binary STL file, as far as it is known; None for a text."""
    if not is_taken_for_stl(name, data):
        return None
    text = imported(data)
    return {'facets': None if text == b'answer=16,0\n' else count_of(data),
            'points': None if text.startswith(b'answer=') else len(surface(data)[0])}


def try_object(tally, name, found, listing, sheet, with_patches):
    stl = stl_of(name, sheet)
    tally.same(f'the object of {name}: stl', (found.get('stl'), 'stl' in found), (stl, stl is not None))
    due = object_of(listing, imported(sheet) if stl else sheet, with_patches)
    due['file'] = name
    found = {key: value for key, value in found.items() if key != 'stl'}
    explained = due['answer']['number'] != 0
    sentence = found.get('answer', {}).get('sentence')
    tally.true(f'the sentence of {name}', isinstance(sentence, str) and sentence and (sentence == 'done') != explained, f'{sentence}')
    found = dict(found, answer={key: value for key, value in found.get('answer', {}).items() if key != 'sentence'})
    if explained:
        try_explanation(tally, f'list of {name}', found, {name: sheet})
        found.pop('explanation', None)
    tally.same(f'the object of {name}', found, due)
    if not explained:
        try_records(tally, name, found['loops'], imported(sheet) if stl else sheet)


def try_records(tally, name, loops, text):
    """Where loops begin, their pieces and their runs, against the model of records.py."""
    told = [(loop.get('first'), loop.get('piece'), loop.get('run')) for loop in loops]
    tally.same(f'the object of {name}: first half-edges, pieces and runs', told, records_of(text, [loop['ring'] for loop in loops]))


def try_lists(front, tally, folder, names):
    """All sheets of a folder in one call, and what the objects say against the listings."""
    listed = front('list', '--quiet', *names, cwd=folder)
    # no sheet of these has a line that begins with #, so the outputs can be parted
    listings = listed.out.split(b'# ')[1:]
    tally.same('how many listings there are', len(listings), len(names))
    listings = [listing.split(b'\n', 1)[1] for listing in listings]
    for options in ((), ('--patches',)):
        got = front('list', '--json', *options, *names, cwd=folder)
        tally.same(f'list --json {options} of all', (got.status, got.err), (listed.status, b''))
        objects = parsed(tally, f'list --json {options}', got.out)
        tally.same(f'how many objects there are, {options}', len(objects), len(names))
        for name, found, listing in zip(names, objects, listings):
            sheet = read(os.path.join(folder, name))
            try_object(tally, os.fsdecode(name), found, listing, sheet, bool(options))


def try_checks(front, tally, folder, names):
    """All sheets of a folder with the sets beside them."""
    judged = front('check', '--beside', '--quiet', *names, cwd=folder)
    verdicts = [line for line in judged.out.decode().split('\n') if line.startswith('answer=')]
    got = front('check', '--json', '--beside', *names, cwd=folder)
    tally.same('check --json of all', (got.status, got.err), (judged.status, b''))
    objects = parsed(tally, 'check --json', got.out)
    tally.same('how many objects of check there are', (len(objects), len(verdicts)), (len(names), len(names)))
    for name, found, verdict in zip(names, objects, verdicts):
        beside = os.path.splitext(name)[0] + '.patches'
        number, place = numbers(verdict.split('=')[1])
        answer = found.get('answer', {})
        tally.same(f'the object of check of {name}', (found.get('file'), found.get('patches'), answer.get('number'), answer.get('place')),
                   (name, beside, number, place))
        stl = stl_of(name, read(os.path.join(folder, name)))
        tally.same(f'the object of check of {name}: stl', found.pop('stl', None), stl)
        tally.same(f'the keys of check of {name}', set(found) - {'file', 'patches', 'answer'}, {'explanation' if number else 'left_open'})
        if number == 0:
            states = [line for line in read(os.path.join(folder, beside)).split(b'\n') if line.startswith(b's=')]
            left_open = [loop for loop, line in enumerate(states) if line in (b's=2', b's=3')]
            tally.same(f'the open loops of check of {name}', found.get('left_open'), left_open)
        else:
            files = {name: read(os.path.join(folder, name)), beside: read(os.path.join(folder, beside))}
            try_explanation(tally, f'check of {name}', found, files)


def try_plate(front, tally, folder):
    """Objects that are fixed to the byte."""
    for ending in ('sheet', 'patches'):
        shutil.copy(f'{HOME}/examples/plate.{ending}', folder)
    due = (b'{"file":"plate.sheet","answer":{"number":0,"place":0,"sentence":"done"},"points":6,"triangles":6,"pitch":1,"left_open":[],'
           b'"loops":[{"length":3,"state":4,"name":"rim","weight":0,"first":0,"piece":0,"run":120,"ring":[0,1,2]},'
           b'{"length":3,"state":1,"name":"patched","weight":100,"first":4,"piece":0,"run":40,"ring":[4,3,5]}]}\n')
    got = front('list', '--json', 'plate.sheet', cwd=folder)
    tally.same('list --json plate.sheet', (got.status, got.out, got.err), (0, due, b''))
    given = read(f'{HOME}/examples/plate.sheet')
    for arguments in (('list', '--json'), ('list', '--json', '-'), ('list', '-', '--json', '--quiet')):
        got = front(*arguments, cwd=folder, given=given)
        tally.same(f'{arguments}', (got.status, got.out, got.err), (0, due.replace(b'plate.sheet', b'-'), b''))
    for sheet, patches in (('plate.sheet', 'plate.patches'), ('-', 'plate.patches'), ('plate.sheet', '-')):
        given = read(f'{folder}/plate.patches') if patches == '-' else read(f'{folder}/plate.sheet')
        got = front('check', '--json', sheet, patches, cwd=folder, given=given)
        due = f'{{"file":"{sheet}","patches":"{patches}","answer":{{"number":0,"place":0,"sentence":"done"}},"left_open":[]}}\n'.encode()
        tally.same(f'check --json {sheet} {patches}', (got.status, got.out, got.err), (0, due, b''))
    got = front('list', '--json', '--patches', 'plate.sheet', cwd=folder)
    found = parsed(tally, 'list --json --patches', got.out)
    tally.same('the patches of the plate', [loop.get('patches') for loop in found[0]['loops']] if found else None, [[], [[4, 5, 3]]])
    due = (b'{"file":"schoolroom.sheet","answer":{"number":0,"place":0,"sentence":"done"},"points":8,"triangles":8,"pitch":5,'
           b'"left_open":[],"loops":[{"length":4,"state":4,"name":"rim","weight":0,"first":0,"piece":0,"run":240,"ring":[0,1,2,3],'
           b'"patches":[]},{"length":4,"state":1,"name":"patched","weight":1500,"first":4,"piece":0,"run":120,"ring":[5,4,7,6],'
           b'"patches":[[5,6,4],[4,6,7]]}]}\n')
    got = front('list', '--json', '--patches', 'schoolroom.sheet', cwd=f'{HOME}/examples')
    tally.same('list --json --patches schoolroom.sheet', (got.status, got.out, got.err), (0, due, b''))


def try_odd_names(front, tally, folder):
    """Names of any bytes come back from the objects, and stay in one line of a message and of standard output."""
    plate, listing = read(f'{HOME}/examples/plate.sheet'), read(f'{HOME}/tests/programs/cases/plate.listing')
    names = [name + b'.sheet' for name in ODD]
    for name in names:
        write(os.path.join(os.fsencode(folder), name), plate)
    got = front('list', '--json', '--', *names, cwd=folder)
    objects = parsed(tally, 'odd names', got.out)
    tally.same('odd names in objects', (got.status, got.err, [name_of(found['file']) for found in objects]), (0, b'', names))
    got = front('list', '--', *names, cwd=folder)
    tally.same('odd names in messages', (got.status, got.err.count(b'\n'), got.err.count(b': 2 loops: ')), (0, len(names), len(names)))
    tally.same('odd names before outputs', (got.out.count(b'\n# '), got.out.count(listing)), (len(names) - 1, len(names)))
    for said, part in ((got.err, b'wazelpunt: a\\nb.sheet: 2 loops'), (got.out, b'# a\\nb.sheet\n'), (got.err, b': tab\\there.sheet: '),
                       (got.out, b'# tab\\there.sheet\n'), (got.err.lower(), b': \\x01\\x1f\\x7f.sheet: '),
                       (got.err, b': \\xc2\\x9b.sheet: '), (got.out, b'# \\xc3.sheet\n'),
                       (got.err, ': \u00e9\u20ac\U0001f600.sheet: '.encode())):
        tally.true(f'odd names, {part}', part in said, 'is not said')
    for said in (got.err, got.out):
        # nothing of a name steers a terminal: no control signs but line feeds, and no bytes that are not UTF-8
        steering = set(map(chr, range(160))) - set(map(chr, range(32, 127))) - {'\n'}
        tally.same('odd names, as they are shown', {sign for sign in said.decode(errors='surrogateescape')
                                                    if sign in steering or '\ud800' <= sign < '\ue000'}, set())
    # a file that is not there has its name told as well, and the others are done
    missing = [name + b'.gone' for name in ODD]
    got = front('list', '--json', '--', *missing, names[0], cwd=folder)
    objects = parsed(tally, 'odd names that are missing', got.out)
    tally.same('odd names that are missing', (got.status, got.err.count(b'\n'), [name_of(found['file']) for found in objects]),
               (2, len(missing), missing + [names[0]]))
    for found in objects[:-1]:
        tally.same('a missing file', {key: found[key] for key in found if key != 'file'}, {'error': 'No such file or directory'})
    for name in names:
        os.remove(os.path.join(os.fsencode(folder), name))


def try_unreadable(front, tally, folder):
    """What cannot be read has an object of its own, and a sentence."""
    os.makedirs(f'{folder}/folder.sheet', exist_ok=True)
    for name, error in (('gone.sheet', 'No such file or directory'), ('plate.sheet/x.sheet', 'Not a directory')):
        got = front('list', '--json', name, cwd=folder)
        tally.same(f'list --json {name}', (got.status, got.out), (2, f'{{"file":"{name}","error":"{error}"}}\n'.encode()))
        tally.true(f'list --json {name}: a sentence', name.encode() in got.err and error.encode() in got.err, repr(got))
    got = front('list', '--json', 'folder.sheet', 'plate.sheet', cwd=folder)
    found = parsed(tally, 'a folder', got.out)
    tally.true('list --json of a folder', got.status == 2 and len(found) == 2 and set(found[0]) == {'file', 'error'} and 'loops' in found[1]
               and b'is a directory' in got.err, repr(got))
    os.rmdir(f'{folder}/folder.sheet')
    got = front('list', '--json', '', cwd=folder)
    tally.same('list --json of an empty name', (got.status, got.out, got.err), (2, b'{"file":"","error":"No such file or directory"}\n',
                                                                             b"wazelpunt: '': No such file or directory\n"))
    # a set that is missing
    got = front('check', '--json', 'plate.sheet', 'gone.patches', cwd=folder)
    found = parsed(tally, 'a missing set', got.out)
    tally.true('check --json of a missing set', got.status == 2 and len(found) == 1 and found[0].get('error') == 'No such file or directory'
               and 'answer' not in found[0] and b'gone.patches' in got.err, repr(got))
    # wrong use prints no object
    for arguments in (('list', '--json', '--frob'), ('list', '--json', '-', '-'), ('check', '--json')):
        got = front(*arguments, cwd=folder, given=b'')
        tally.same(f'{arguments}', (got.status, got.out), (2, b''))


def try_objects(front, tally, room):
    """Everything of this file; the sheets, texts and binary STL files, are those of the told cases, the named ones and the examples."""
    for folder in ('tests/told/cases', 'tests/programs/cases', 'examples'):
        folder = os.path.join(HOME, folder)
        names = sorted(name for name in os.listdir(folder) if name.lower().endswith(('.sheet', '.stl')))
        try_lists(front, tally, folder, names)
        try_checks(front, tally, folder, [name for name in names if os.path.exists(f'{folder}/{os.path.splitext(name)[0]}.patches')])
    folder = os.path.join(room, 'objects')
    os.mkdir(folder)
    try_plate(front, tally, folder)
    try_odd_names(front, tally, folder)
    try_unreadable(front, tally, folder)
