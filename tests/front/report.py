"""What report prints and says: in words, as its entries and as objects, against the model of records.py."""
import os
import shutil

from calls import HOME, read, write
from facets import imported, is_taken_for_stl, made_of, pitch_of
from objects import object_of, parsed, try_explanation
from records import KINDS, entries_of, entries_printed, loops_of, parted, report_printed, summary_said

FOLDERS = 'examples', 'tests/programs/cases', 'tests/told/cases'
KEYS = {1: 'rims', 2: 'pools', 3: 'lakes'}


class Sheet:
    """A sheet by its name, with its text, what it was made of, what triangles of it are called, and its listing."""

    def __init__(self, folder, name, listing):
        self.name = name
        self.given = read(os.path.join(folder, name))
        self.is_stl = is_taken_for_stl(name, self.given)
        self.text = imported(self.given) if self.is_stl else self.given
        self.triangle = 'facet' if self.is_stl else 'triangle'
        self.listing, self.refusal = listing, b''
        self.is_done = self.listing.startswith(b'answer=0,0\n')
        self.states, self.rings = loops_of(self.listing) if self.is_done else ([], [])
        self.entries = entries_of(self.text, self.rings) if self.is_done else []

    def made(self):
        """What is told before how much there is: what it was made of, and its pitch, if not 1."""
        if self.is_stl:
            return made_of(self.name, self.text).decode().split(': ', 2)[2] + ': '
        return f'pitch {pitch_of(self.text)}: ' if pitch_of(self.text) != 1 else ''

    def words(self):
        return report_printed(self.text, self.listing, self.made() if self.is_done else '', self.triangle)

    def plain(self):
        return entries_printed(self.text, self.listing)

    def summary(self):
        return f'wazelpunt: {self.name}: {self.made()}{summary_said(self.entries, self.states)}\n'.encode()


def outputs_of(printed):
    """What was printed of each of several sheets, of which none has a line that begins with #."""
    return [output.split(b'\n', 1)[1] for output in printed.split(b'# ')[1:]]


def sheets_in(front, tally, folder):
    """The sheets of a folder, with what list prints and says of them."""
    names = sorted(name for name in os.listdir(folder) if name.lower().endswith(('.sheet', '.stl')))
    listed = front('list', '--quiet', *names, cwd=folder)
    sheets = [Sheet(folder, name, listing) for name, listing in zip(names, outputs_of(listed.out))]
    refused, named = [sheet for sheet in sheets if not sheet.is_done], b'wazelpunt: '
    refusals = listed.err.split(named)[1:]
    tally.same(f'the sheets of {folder}', (len(sheets), len(refused)), (len(names), len(refusals)))
    for sheet, refusal in zip(refused, refusals):
        sheet.refusal = named + refusal
    return sheets


def headed(sheets, printed):
    """What is printed of several sheets."""
    return b''.join(b'# ' + sheet.name.encode() + b'\n' + printed(sheet) for sheet in sheets)


def try_together(front, tally, folder, sheets):
    """All sheets of a folder in one call, in words, as entries and quietly: what is refused is explained as list explains it, and is all
    that is said of words."""
    names = [sheet.name for sheet in sheets]
    status = 0 if all(sheet.is_done for sheet in sheets) else 1
    refusals = b''.join(sheet.refusal for sheet in sheets)
    told = b''.join(sheet.summary() if sheet.is_done else sheet.refusal for sheet in sheets)
    for options, printed, said in (([], Sheet.words, refusals), (['--quiet'], Sheet.words, refusals),
                                   (['--entries'], Sheet.plain, told), (['--entries', '-q'], Sheet.plain, refusals)):
        got = front('report', *options, *names, cwd=folder)
        what = f'report {options} of {os.path.basename(folder)}'
        if not tally.same(f'{what}: status and what is said', (got.status, got.err), (status, said)):
            continue
        at = 0
        for sheet in sheets:
            due = headed([sheet], printed)
            tally.same(f'{what}: {sheet.name}', got.out[at:at + len(due)], due)
            at += len(due)
        tally.same(f'{what}: behind the last', got.out[at:], b'')


def try_alone(front, tally, folder, sheet):
    """One sheet alone has no heading; by its name, and as standard input, which has none to tell."""
    for options, printed in (([], sheet.words()), (['--entries'], sheet.plain())):
        got = front('report', *options, '--quiet', sheet.name, cwd=folder)
        tally.same(f'report {options} of {sheet.name} alone', (got.status, got.out, got.err),
                   (0 if sheet.is_done else 1, printed, sheet.refusal))
        if is_taken_for_stl('-', sheet.given) == sheet.is_stl:
            for names in (['-'], []):
                got = front('report', *options, *names, cwd=folder, given=sheet.given)
                tally.same(f'report {options} {names} of {sheet.name}', (got.status, got.out), (0 if sheet.is_done else 1, printed))


def object_due(sheet):
    """The parts of an object that the listing and the entries fix."""
    listed = object_of(sheet.listing, sheet.text, False)
    if not sheet.is_done:
        return listed
    loops = [dict(loop=number, **loop) for number, loop in enumerate(listed.pop('loops'))]
    counts = {KEYS[kind]: sum(each == kind for each, _ in sheet.entries) for kind in KINDS}
    pieces = parted(sheet.entries)
    listed['counts'] = dict(entries=len(sheet.entries), pieces=len(pieces), closed=len(pieces) - counts['rims'], **counts)
    listed['pieces'] = [{'piece': piece, 'rim': loops[own[1][0]] if own[1] else None, 'pools': [loops[loop] for loop in own[2]],
                         'lakes': [loops[loop] for loop in own[3]]} for piece, own in pieces]
    return listed


def entries_told(found):
    """The entries that an object tells."""
    entries = []
    for piece in found.get('pieces', []):
        rims = [piece['rim']] if piece['rim'] is not None else []
        entries.append((0, piece['piece']))
        entries += [(kind, loop['loop']) for kind, some in ((1, rims), (2, piece['pools']), (3, piece['lakes'])) for loop in some]
    return entries


def try_objects(front, tally, folder, sheets):
    """The objects of all sheets of a folder, with the listing, the model and the entries that are printed; what is refused has the object
    that list has."""
    names = [sheet.name for sheet in sheets]
    got = front('report', '--json', *names, cwd=folder)
    tally.same(f'report --json of {folder}', (got.status, got.err), (0 if all(sheet.is_done for sheet in sheets) else 1, b''))
    objects = parsed(tally, f'report --json of {folder}', got.out)
    plain = outputs_of(front('report', '--entries', '-q', *names, cwd=folder).out)
    listed = parsed(tally, f'list --json of {folder}', front('list', '--json', *names, cwd=folder).out)
    tally.same(f'how many objects there are of {folder}', (len(objects), len(listed), len(plain)), (len(sheets),) * 3)
    for sheet, found, other, entries in zip(sheets, objects, listed, plain):
        if not sheet.is_done:
            tally.same(f'the object of {sheet.name}, which is refused', found, other)
            try_explanation(tally, f'report of {sheet.name}', found, {sheet.name: sheet.given})
            continue
        told = [f'entry={kind},{number}' for kind, number in entries_told(found)]
        tally.same(f'the object of {sheet.name}, its entries', told, entries.decode().split('\n')[2:-1])
        due = dict(object_due(sheet), file=sheet.name, answer=other['answer'])
        tally.same(f'the object of {sheet.name}', {key: value for key, value in found.items() if key != 'stl'}, due)
        tally.same(f'the object of {sheet.name}: stl', found.get('stl'), other.get('stl'))
        tally.same(f'the object of {sheet.name}: keys', [key for key in found if key not in ('counts', 'pieces')],
                   [key for key in other if key != 'loops'])


def try_shore(front, tally, room):
    """What is fixed to the byte: the shore, with every kind; and where it is refused, alone and among others."""
    folder = os.path.join(room, 'report')
    os.mkdir(folder)
    for name in ('shore.sheet', 'plate.sheet', 'repeated.sheet', 'box.stl', 'nothing.sheet'):
        shutil.copy(f'{HOME}/examples/{name}', folder)
    words = (b'4 pieces, 1 closed: 3 rims, 2 tide pools, 1 lake\n'
             b'piece 0: rim loop 2 of 24 edges, run 1,492 plate units; 2 tide pools, 1 lake\n'
             b'  loop 0, tide pool, patched: 4 edges, run 316 plate units; begins with half-edge 22 of triangle 7, '
             b'from point 4 to point 11\n'
             b'  loop 1, tide pool, patched: 4 edges, run 406 plate units; begins with half-edge 108 of triangle 36, '
             b'from point 25 to point 26\n'
             b'  loop 3, lake, patched: 10 edges, run 542 plate units; begins with half-edge 58 of triangle 19, '
             b'from point 20 to point 19\n'
             b'piece 1: rim loop 4 of 4 edges, run 156 plate units\n'
             b'piece 2: rim loop 5 of 4 edges, run 276 plate units\n'
             b'piece 3: closed\n')
    entries = (b'answer=0,0\nentries=10\nentry=0,0\nentry=1,2\nentry=2,0\nentry=2,1\nentry=3,3\nentry=0,1\nentry=1,4\nentry=0,2\n'
               b'entry=1,5\nentry=0,3\n')
    said = b'wazelpunt: shore.sheet: 4 pieces, 1 closed: 3 rims, 2 tide pools, 1 lake\n'
    plate = (b'{"file":"plate.sheet","answer":{"number":0,"place":0,"sentence":"done"},"points":6,"triangles":6,"pitch":1,"left_open":[],'
             b'"counts":{"entries":3,"pieces":1,"closed":0,"rims":1,"pools":0,"lakes":1},"pieces":[{"piece":0,'
             b'"rim":{"loop":0,"length":3,"state":4,"name":"rim","weight":0,"first":0,"piece":0,"run":120,"ring":[0,1,2]},"pools":[],'
             b'"lakes":[{"loop":1,"length":3,"state":1,"name":"patched","weight":100,"first":4,"piece":0,"run":40,"ring":[4,3,5]}]}]}\n')
    nothing = (b'{"file":"nothing.sheet","answer":{"number":0,"place":0,"sentence":"done"},"points":0,"triangles":0,"pitch":1,'
               b'"left_open":[],"counts":{"entries":0,"pieces":0,"closed":0,"rims":0,"pools":0,"lakes":0},"pieces":[]}\n')
    refusal = front('list', 'repeated.sheet', cwd=folder).err
    for arguments, due in ((('shore.sheet',), (0, words, b'')), (('-q', 'shore.sheet'), (0, words, b'')),
                           (('--entries', 'shore.sheet'), (0, entries, said)), (('shore.sheet', '-q', '--entries'), (0, entries, b'')),
                           (('--json', 'plate.sheet'), (0, plate, b'')), (('-q', '--json', 'nothing.sheet'), (0, nothing, b'')),
                           (('nothing.sheet',), (0, b'no triangles, so no pieces\n', b'')),
                           (('--entries', '-q', 'nothing.sheet'), (0, b'answer=0,0\nentries=0\n', b'')),
                           (('repeated.sheet',), (1, b'answer=6,3\n', refusal)),
                           (('-q', 'repeated.sheet'), (1, b'answer=6,3\n', refusal)),
                           (('--entries', 'repeated.sheet'), (1, b'answer=6,3\n', refusal)),
                           (('shore.sheet', 'repeated.sheet', 'shore.sheet'),
                            (1, b'# shore.sheet\n' + words + b'# repeated.sheet\nanswer=6,3\n# shore.sheet\n' + words, refusal)),
                           (('missing.sheet', 'shore.sheet'), (2, b'# shore.sheet\n' + words,
                                                               b'wazelpunt: missing.sheet: No such file or directory\n'))):
        got = front('report', *arguments, cwd=folder)
        tally.same(f'report {arguments}', (got.status, got.out, got.err), due)
    got = front('report', '--pitch', '5', 'box.stl', cwd=folder)
    tally.same('report --pitch 5 box.stl, how it begins', (got.status, got.out.split(b'\n')[0], got.err),
               (0, b'binary STL, 9 facets, 8 points, pitch 5: 1 piece: 1 rim, 1 tide pool, no lakes', b''))
    got = front('report', '--pitch', '5', '--entries', 'box.stl', cwd=folder)
    tally.same('report --pitch 5 --entries box.stl, what is said', got.err,
               b'wazelpunt: box.stl: binary STL, 9 facets, 8 points, pitch 5: 1 piece: 1 rim, 1 tide pool, no lakes\n')
    got = front('report', '--entries', '--json', 'shore.sheet', cwd=folder)
    tally.same('report --entries --json', (got.status, got.out, got.err),
               (2, b'', b'wazelpunt: report: --entries does not go with --json; see wazelpunt report --help\n'))
    write(os.path.join(folder, 'cut.stl'), read(f'{HOME}/examples/box.stl')[:-1])
    got, listed = (front(command, 'cut.stl', cwd=folder) for command in ('report', 'list'))
    tally.same('report of a file that is refused', (got.status, got.out, got.err), (1, b'answer=16,0\n', listed.err))


def try_report(front, tally, room, with_made=True):
    """Everything of this file; the sheets are the examples, the named and the told cases, and, if they are wanted, those that the reference
    made. The entries by the model are those that are stored for the named cases, and that the reference prints for those it made."""
    met, stored = set(), 0
    for folder in [os.path.join(HOME, name) for name in FOLDERS] + ([os.path.join(room, 'made')] if with_made else []):
        sheets = sheets_in(front, tally, folder)
        tally.true(f'there are sheets in {folder}', len(sheets) > 10)
        try_together(front, tally, folder, sheets)
        try_objects(front, tally, folder, sheets)
        for sheet in sheets[::9]:
            try_alone(front, tally, folder, sheet)
        for sheet in sheets:
            path = os.path.join(folder, os.path.splitext(sheet.name)[0] + '.report')
            if os.path.exists(path):
                tally.same(f'the entries of {sheet.name} that are stored', read(path), sheet.plain())
                stored += 1
            met |= {(kind, sheet.states[loop]) for kind, loop in sheet.entries if kind != 0}
            met |= {(0, 'closed') for _, loops in parted(sheet.entries) if not loops[1]}
    tally.true('there are entries that are stored', stored > 80, stored)
    # rims, pieces without one, and tide pools and lakes in every state
    due = {(0, 'closed'), (1, 4)} | {(kind, state) for kind in (2, 3) for state in (1, 2, 3)}
    tally.same('the kinds and states that are met', met, due)
    try_shore(front, tally, room)
