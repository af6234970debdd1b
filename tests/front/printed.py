"""What list, check, rewrite and report --entries print: byte for byte what the proved programs print."""
import os
import shlex
import shutil
import subprocess

from calls import HOME, LONGEST_SET, LONGEST_SHEET, read, sheets_of, write
from records import entries_printed

KINDS = ('list', 'check', 'rewrite')
# the programs that print what each command does, and its options for that
PROGRAMS = {'list': 'listing', 'check': 'judging', 'rewrite': 'rewriting', 'report': 'charting'}
OPTIONS = {'report': ['--entries']}


class Case:
    """A sheet, its set if it has one, and what each program prints for them."""

    def __init__(self, sheet, patches, listing, verdict, rewritten):
        self.sheet = sheet
        self.patches = patches if os.path.exists(patches) else None
        self.due = {'list': listing, 'check': verdict, 'rewrite': rewritten,
                    'report': entries_printed(read(os.path.join(HOME, sheet)), listing)}

    def beside(self):
        return os.fsencode(self.sheet)


def named_cases():
    folder = 'tests/programs/cases'
    for name in sorted(os.listdir(os.path.join(HOME, folder))):
        if not name.endswith('.listing'):
            continue
        expected = f'{HOME}/{folder}/{name[:-len(".listing")]}'
        source = f'{folder}/{name[:-len(".listing")]}'
        source = source if os.path.exists(f'{HOME}/{source}.sheet') else f'examples/{os.path.basename(expected)}'
        # what is accepted is written as it was
        rewritten = f'{expected}.rewritten' if os.path.exists(f'{expected}.rewritten') else f'{HOME}/{source}.sheet'
        yield Case(f'{source}.sheet', f'{HOME}/{source}.patches', read(f'{expected}.listing'), read(f'{expected}.verdict'), read(rewritten))


def made_cases(folder):
    """The cases that the reference made."""
    for name in sheets_of(folder):
        stem = os.path.join(folder, name[:-len('.sheet')])
        yield Case(f'{stem}.sheet', f'{stem}.patches', read(f'{stem}.listing'), read(f'{stem}.verdict'), read(f'{stem}.rewritten'))


def examples():
    """All examples, with what the reference, which the command REFERENCE runs, prints."""
    reference = shlex.split(os.environ['REFERENCE'])
    for name in sheets_of(f'{HOME}/examples'):
        sheet, patches = f'{HOME}/examples/{name}', f'{HOME}/examples/{name[:-len(".sheet")]}.patches'
        printed = [subprocess.run([*reference, kind, sheet] + ([patches] if kind == 'check' else []), stdout=subprocess.PIPE).stdout
                   for kind in KINDS]
        yield Case(f'examples/{name}', patches, *printed)


def status_of(printed):
    """The exit status for what a program printed: 1 where the answer's number is not 0."""
    return 1 if printed.startswith(b'answer=') and not printed.startswith(b'answer=0,0\n') else 0


def try_together(front, tally, kind, cases, options=()):
    """All cases in one call: the outputs are parted by lines that name them."""
    got = front(kind, *OPTIONS.get(kind, []), *options, *(case.sheet for case in cases))
    at = 0
    for case in cases:
        due = b'# ' + case.beside() + b'\n' + case.due[kind]
        if not tally.true(f'{kind} {case.sheet}, among others', got.out.startswith(due, at), f'printed {got.out[at:at + 200]}'):
            # the next one that is named is gone on with
            at = max(at, got.out.find(b'# ', at + 1))
            continue
        at += len(due)
    tally.same(f'{kind}, what is printed after the last', got.out[at:], b'')
    tally.same(f'{kind}, the status of all', got.status, max(status_of(case.due[kind]) for case in cases))


def try_alone(front, tally, case):
    """One case in single calls: by its name, and by standard input as a pipe and as a file."""
    sheet = read(os.path.join(HOME, case.sheet))
    for kind in ('list', 'rewrite', 'report'):
        options = OPTIONS.get(kind, [])
        due = (status_of(case.due[kind]), case.due[kind])
        for names, given in (([case.sheet], None), (['-'], sheet), ([], sheet)):
            got = front(kind, *options, *names, given=given)
            tally.same(f'{kind} {names}, {case.sheet}', (got.status, got.out), due)
        with open(os.path.join(HOME, case.sheet), 'rb') as file:
            got = front(kind, *options, '--quiet', '-', stdin=file)
        tally.same(f'{kind} of a file as standard input, {case.sheet}', (got.status, got.out), due)
    due = (status_of(case.due['check']), case.due['check'])
    patches = case.patches or '/dev/null'
    calls = [('two names', front('check', case.sheet, patches)), ('the sheet as standard input', front('check', '-', patches, given=sheet)),
             ('the set as standard input', front('check', case.sheet, '-', given=read(patches)))]
    if case.patches:
        calls.append(('one name', front('check', case.sheet)))
    for what, got in calls:
        tally.same(f'check, {what}, {case.sheet}', (got.status, got.out), due)


def programs():
    """How the programs are run here: on another processor than x86-64 by an emulator, which tests/native names."""
    return shlex.split(os.environ['PROGRAM'])


def try_programs(front, tally, case, room):
    """The programs themselves on one case, against the front."""
    folder = os.path.join(room, 'program')
    shutil.rmtree(folder, ignore_errors=True)
    os.mkdir(folder)
    if case.patches:
        shutil.copy(case.patches, os.path.join(folder, 'patches'))
    for kind, program in PROGRAMS.items():
        with open(os.path.join(HOME, case.sheet), 'rb') as sheet:
            ran = subprocess.run(programs() + [f'{HOME}/target/bin/{program}'], stdin=sheet, stdout=subprocess.PIPE, cwd=folder)
        names = OPTIONS.get(kind, []) + [case.sheet] + ([case.patches or '/dev/null'] if kind == 'check' else [])
        tally.same(f'{kind} against the program {program}, {case.sheet}', front(kind, *names).out, ran.stdout)


def longest():
    """The longest sheet, of a pitch of two digits, and the longest set. Any corners of four digits do for reading; the second triangle of
    the sheet runs along an edge of the first."""
    def corners(count):
        return f'triangles={count}\n' + ''.join(f't={1000 + i % 24},{1000 + (i + 1) % 24},{1000 + (i + 2) % 24}\n' for i in range(count))
    sheet = 'pitch=10\npoints=1024\n' + ''.join(f'p={3 * i:08x},{3 * i + 1:08x},{3 * i + 2:08x}\n' for i in range(1024)) + corners(1024)
    return sheet.encode(), ('states=1024\n' + 's=4\n' * 1024 + corners(3072)).encode()


def try_longest(front, tally, room):
    """The longest texts, a byte more and a byte less: a front with room for less than the longest and a byte answers otherwise."""
    sheet, patches = longest()
    tally.same('the longest texts', (len(sheet), len(patches)), (LONGEST_SHEET, LONGEST_SET))
    files = {}
    for name, text in (('sheet', sheet), ('set', patches), ('small', read(f'{HOME}/examples/plate.sheet'))):
        for what, changed in (('', text), (' and a byte', text + b'\n'), (' without its end', text[:-1])):
            files[name + what] = write(os.path.join(room, name + what), changed)
    for arguments, answer in ((['list', 'sheet'], '6,3'), (['list', 'sheet and a byte'], '10,2052'),
                              (['list', 'sheet without its end'], '10,2051'), (['rewrite', 'sheet and a byte'], '10,2052'),
                              (['rewrite', 'sheet without its end'], '10,2051'), (['report', 'sheet'], '6,3'),
                              (['report', 'sheet and a byte'], '10,2052'), (['report', 'sheet without its end'], '10,2051'),
                              (['check', 'sheet', 'set'], '6,3'), (['check', 'sheet', 'set and a byte'], '10,6150'),
                              (['check', 'sheet', 'set without its end'], '10,6149'), (['check', 'sheet and a byte', 'set'], '10,2052'),
                              (['check', 'small', 'set'], '9,2'), (['check', 'small', 'set and a byte'], '10,4113')):
        got = front(arguments[0], '-q', *(files[name] for name in arguments[1:]))
        tally.same(f'{arguments}', (got.status, got.out), (1, f'answer={answer}\n'.encode()))
    tally.same('rewrite of the longest sheet', front('rewrite', files['sheet']).out, sheet)


def try_printed(front, tally, room):
    named = list(named_cases())
    made = list(made_cases(os.path.join(room, 'made')))
    shown = list(examples())
    tally.true('there are cases', len(named) > 50 and len(made) > 20 and len(shown) > 10)
    for cases in (named, made, shown):
        try_together(front, tally, 'list', cases)
        try_together(front, tally, 'rewrite', cases)
        try_together(front, tally, 'report', cases)
        try_together(front, tally, 'check', [case for case in cases if case.patches], ['--beside'])
    for case in named + made:
        if not case.patches:
            got = front('check', case.sheet, '/dev/null')
            tally.same(f'check {case.sheet} without a set', (got.status, got.out), (status_of(case.due['check']), case.due['check']))
    try_longest(front, tally, room)
    for case in shown + named[::6] + made[::10]:
        try_alone(front, tally, case)
    for case in shown[::2] + named[1::9] + made[:2] + made[20::40]:
        try_programs(front, tally, case, room)
