"""How the front is used: commands, options, names, standard input, and the exit statuses with their order."""
import itertools
import os
import pty
import re
import shutil
import subprocess

from calls import HOME, read, write
from facets import imported
from records import lines_said, loops_of

COMMANDS = ('list', 'report', 'check', 'rewrite', 'import', 'draw', 'example')
NO_SHEET = b'wazelpunt: no sheet is given; name a file, or - for standard input\n'
NO_FILE = NO_SHEET.replace(b'sheet', b'STL file')


class Bench:
    """A folder with a sheet of each kind, and calls that are made there."""

    def __init__(self, front, tally, room):
        self.front = front
        self.tally = tally
        self.folder = os.path.join(room, 'bench')
        os.mkdir(self.folder)
        examples, cases = f'{HOME}/examples', f'{HOME}/tests/programs/cases'
        for name, source in (('plate', f'{examples}/plate'), ('rim', f'{examples}/sample'), ('open', f'{examples}/plate-crossed'),
                             ('long', f'{cases}/hole-65'), ('refused', f'{cases}/upper-case'), ('cone', f'{examples}/plate-cone'),
                             ('closed', f'{cases}/closed'), ('nothing', f'{examples}/nothing')):
            for ending in ('sheet', 'patches'):
                shutil.copy(f'{source}.{ending}', f'{self.folder}/{name}.{ending}')
        # what the patcher leaves passes, so these sets pass with loops that stay open
        for name in ('open', 'long', 'cone'):
            self.make_set(name)
        shutil.copy(f'{cases}/set-declared-open.patches', f'{self.folder}/misdeclared.patches')
        shutil.copy(f'{cases}/set-declared-open.sheet', f'{self.folder}/misdeclared.sheet')
        for name in ('box.stl', 'box.patches', 'schoolroom.sheet', 'schoolroom.patches'):
            shutil.copy(f'{examples}/{name}', self.folder)
        self.plate = read(f'{self.folder}/plate.sheet')
        self.listing = read(f'{cases}/plate.listing')

    def make_set(self, name):
        """Writes the set that the listing of a sheet lays."""
        lines = self.call('list', '--quiet', f'{name}.sheet').out.decode().split('\n')
        states = [line.split(',')[1] for line in lines if line.startswith('loop=')]
        laid = [line[len('patch='):] for line in lines if line.startswith('patch=')]
        text = [f'states={len(states)}'] + [f's={state}' for state in states]
        text += [f'triangles={len(laid)}'] + [f't={three}' for three in laid]
        write(f'{self.folder}/{name}.patches', ('\n'.join(text) + '\n').encode())

    def call(self, *arguments, **more):
        return self.front(*arguments, cwd=self.folder, **more)

    def status(self, due, *arguments, **more):
        got = self.call(*arguments, **more)
        self.tally.same(f'the status of {arguments}', got.status, due)
        return got

    def wrong_use(self, *arguments, says=(), **more):
        """Wrong use: status 2, nothing printed, and a sentence with these parts."""
        got = self.status(2, *arguments, **more)
        self.tally.true(f'{arguments}', got.out == b'' and got.err != b'' and all(part in got.err for part in says), repr(got))
        return got

    def right_use(self, out, *arguments, err=b'', **more):
        got = self.call(*arguments, **more)
        self.tally.same(f'{arguments}', (got.status, got.out, got.err), (0, out, err))


def try_help(bench):
    version = re.search(rb'#define WAZELPUNT_VERSION "([^"]+)"', read(f'{HOME}/include/wazelpunt.h'))
    for arguments in (('--help',), ('-h',), ('help',)):
        got = bench.status(0, *arguments)
        is_whole = all(name.encode() in got.out for name in COMMANDS)
        bench.tally.true(f'{arguments} names the commands', got.err == b'' and is_whole, repr(got))
    for name in COMMANDS:
        texts = {bench.status(0, *arguments).out for arguments in ((name, '--help'), (name, '-h'), ('help', name))}
        text = texts.pop()
        bench.tally.true(f'the help of {name}', not texts and b'wazelpunt ' + name.encode() in text, repr(text))
        # asked for among names, it is the help that is given, and no file is looked for
        got = bench.status(0, name, 'plate.sheet', '--help')
        bench.tally.same(f'{name} plate.sheet --help', (got.out, got.err), (text, b''))
    bench.tally.true('the header has a version', version)
    for option in ('--version', '-V'):
        got = bench.status(0, option)
        bench.tally.same(option, (got.out, got.err), (b'wazelpunt ' + version[1] + b'\n' if version else b'', b''))


def try_wrong_use(bench):
    bench.wrong_use()
    bench.wrong_use('')
    bench.wrong_use('mend', says=[b'mend'])
    bench.wrong_use('LIST', 'plate.sheet')
    bench.wrong_use('lis', 'plate.sheet')
    bench.wrong_use('help', 'mend', says=[b'mend'])
    bench.wrong_use('--frob', says=[b'--frob'])
    for name in COMMANDS:
        bench.wrong_use(name, '--frob', says=[b'--frob'])
        bench.wrong_use(name, 'plate.sheet', '-Q', says=[b'-Q'])
        bench.wrong_use(name, '--quiet=yes', 'plate.sheet', says=[b'--quiet'])
    for arguments in (('rewrite', '--json'), ('rewrite', '--closed'), ('rewrite', '--patches'), ('rewrite', '--plan'), ('list', '--plan'),
                      ('list', '--beside'), ('check', '--plan'), ('check', '--json', '--patches'), ('draw', '--json'), ('draw', '--closed'),
                      ('draw', '--beside'), ('example', '--json'), ('example', '--closed'), ('import', '--json'), ('import', '--closed'),
                      ('import', '--plan'), ('check', '--loops'), ('rewrite', '--loops'), ('import', '--loops'), ('example', '--loops'),
                      ('report', '--loops'), ('report', '--closed'), ('report', '--plan'), ('report', '--beside'),
                      ('report', '--json', '--patches'), ('list', '--entries'), ('check', '--entries'), ('rewrite', '--entries'),
                      ('import', '--entries'), ('draw', '--entries'), ('example', '--entries')):
        bench.wrong_use(*arguments, 'plate.sheet' if arguments[0] != 'example' else 'patches', says=[arguments[-1].encode()])
    # patches are told in objects alone
    bench.wrong_use('list', '--patches', 'plate.sheet', says=[b'--patches', b'--json'])
    # and entries are no object
    for options in (('--entries', '--json'), ('--json', '--entries', '-q')):
        bench.wrong_use('report', *options, 'plate.sheet', says=[b'report: --entries', b'--json'])
    bench.wrong_use('check', 'plate.sheet', 'plate.patches', 'open.sheet', says=[b'--beside'])
    bench.wrong_use('check', '-', '-', given=bench.plate)
    bench.wrong_use('check', '-', given=bench.plate)
    bench.wrong_use('check', '--beside', '-', given=bench.plate)
    bench.wrong_use('check', '--beside', '-', 'plate.sheet', '-', given=bench.plate)
    for name in ('list', 'report', 'rewrite', 'import', 'draw'):
        bench.wrong_use(name, '-', '-', given=bench.plate)
        bench.wrong_use(name, '-', 'plate.sheet', '-', given=bench.plate)
    bench.wrong_use('example', 'plate')
    bench.wrong_use('example', 'patches', 'patches')


def try_wrong_pitches(bench):
    """A pitch that is none is told with the four that there are, before anything is read; and a sheet's text takes none from outside."""
    four = b'pitches are 1, 2, 5 and 10'
    for command in ('list', 'report', 'check', 'rewrite', 'import', 'draw'):
        for value in ('3', '0', '', '-5', '05', '+5', '5 ', '5.0', 'five', '20', '100', '15', '4294967297', '--', '--quiet', 'box.stl'):
            bench.wrong_use(command, '--pitch', value, 'box.stl', says=[f'--pitch {value}'.encode(), four])
            bench.wrong_use(command, 'box.stl', f'--pitch={value}', says=[four])
        bench.wrong_use(command, 'box.stl', '--pitch', says=[b'--pitch', b'no value', four])
        bench.wrong_use(command, '--pitch', '2', 'box.stl', '--pitch', '5', says=[b'twice', b'as 2 and as 5'])
        bench.wrong_use(command, '--pitchy', 'box.stl', says=[b'unknown option', b'--pitchy'])
        for pitch in ('1', '2', '5', '10'):
            due = (0, bench.call(command, 'box.stl', '--pitch', pitch).out)
            for arguments in ((f'--pitch={pitch}', 'box.stl'), ('--pitch', pitch, '--pitch', pitch, 'box.stl')):
                got = bench.call(command, '-q', *arguments)
                bench.tally.same(f'{command} {arguments}', (got.status, got.out, got.err), (*due, b''))
            bench.right_use(due[1], f'--pitch={pitch}', command, '-q', 'box.stl')
    for command in ('example', 'help'):
        bench.wrong_use(command, '--pitch', '5', says=[command.encode(), b'has no option --pitch'])
    # behind -- it is a name
    bench.wrong_use('list', '--', '--pitch', '5', says=[b'--pitch: No such file', b'5: No such file'])
    # the text says its own, also where it would be the same; whatever else is given is done
    own = (b'--pitch is for STL files, and this is the text of a sheet, which says its own pitch: pitch=5 on its first line for one, '
           b'or no such line for 1')
    for name, pitch in (('plate.sheet', '1'), ('plate.sheet', '5'), ('schoolroom.sheet', '5'), ('schoolroom.sheet', '1'),
                        ('refused.sheet', '2')):
        for command in ('list', 'report', 'check', 'rewrite', 'draw'):
            bench.wrong_use(command, '--pitch', pitch, name, says=[name.encode() + b': ' + own])
        for command in ('list', 'report', 'rewrite', 'draw'):
            text = read(f'{bench.folder}/{name}')
            bench.wrong_use(command, '--pitch', pitch, '-', given=text, says=[b'standard input: ' + own])
            bench.wrong_use(command, '--pitch', pitch, given=text, says=[b'standard input: ' + own])
        got = bench.status(2, 'list', '-q', '--pitch', pitch, name, 'box.stl')
        due = b'# box.stl\n' + bench.call('list', '-q', '--pitch', pitch, 'box.stl').out
        bench.tally.true(f'list of {name} and another', got.out == due and own in got.err, repr(got))
        got = bench.status(2, 'list', '--json', '--pitch', pitch, name)
        bench.tally.true(f'list --json of {name}', got.out.startswith(b'{"file":"' + name.encode() + b'","error":"' + own), repr(got))
        got = bench.status(2, 'draw', '-q', '--pitch', pitch, name, 'box.stl')
        bench.tally.true(f'draw of {name} and another', got.out.count(b'<svg') == 1 and own in got.err, repr(got))
    # import takes anything for an STL file, and so refuses a text as one
    got = bench.status(1, 'import', '--pitch', '5', 'plate.sheet')
    bench.tally.same('import of a text at a pitch', got.out, b'answer=16,0\n')


def try_names(bench):
    """Options before and behind, what begins with -, and what is named after --."""
    said = b'wazelpunt: plate.sheet: 2 loops: 1 rim; 1 closed with 1 triangle\n'
    bench.right_use(bench.listing, 'list', 'plate.sheet', err=said)
    for option in ('--quiet', '-q'):
        bench.right_use(bench.listing, 'list', option, 'plate.sheet')
        bench.right_use(bench.listing, 'list', 'plate.sheet', option)
        bench.right_use(bench.listing, option, 'list', 'plate.sheet')
        bench.right_use(bench.listing, 'list', option, '--', 'plate.sheet')
        bench.right_use(bench.listing, 'list', option, option, '-', given=bench.plate)
        bench.right_use(bench.plate, 'rewrite', option, 'plate.sheet')
        bench.right_use(b'answer=0,0\n', 'check', 'plate.sheet', option, 'plate.patches')
    bench.right_use(bench.plate, 'rewrite', 'plate.sheet')
    bench.right_use(b'answer=0,0\n', 'check', 'plate.sheet', err=b'wazelpunt: plate.sheet: plate.patches passes: '
                    b'2 loops: 1 rim; 1 closed with 1 triangle\n')
    bench.right_use(bench.listing, 'list', '-', given=bench.plate, err=said.replace(b'plate.sheet', b'standard input'))
    for name in ('-x.sheet', '--', '--quiet', '-'):
        shutil.copy(f'{bench.folder}/plate.sheet', f'{bench.folder}/{name}')
        bench.right_use(bench.listing, 'list', f'./{name}', err=said.replace(b'plate.sheet', b'./' + name.encode()))
    bench.wrong_use('list', '-x.sheet', says=[b'./-x.sheet', b'--'])
    for name in ('-x.sheet', '--', '--quiet'):
        bench.right_use(bench.listing, 'list', '--', name, err=said.replace(b'plate.sheet', name.encode()))
    # a set is looked for beside a name, whatever the name is
    shutil.copy(f'{bench.folder}/plate.sheet', f'{bench.folder}/bare')
    shutil.copy(f'{bench.folder}/plate.patches', f'{bench.folder}/bare.patches')
    shutil.copy(f'{bench.folder}/plate.patches', f'{bench.folder}/-x.patches')
    bench.right_use(b'answer=0,0\n', 'check', '-q', 'bare')
    bench.right_use(b'answer=0,0\n', 'check', '-q', './-x.sheet')
    bench.right_use(b'answer=0,0\n', 'check', '-q', '--', '-x.sheet')
    bench.right_use(b'answer=0,0\n', 'check', '-q', '--', '-x.sheet', '-x.patches')
    bench.right_use(b'# bare\nanswer=0,0\n# plate.sheet\nanswer=0,0\n', 'check', '--beside', 'bare', 'plate.sheet', '-q')
    bench.right_use(b'answer=0,0\n', 'check', '--beside', 'bare', '-q')
    shutil.copy(f'{bench.folder}/plate.sheet', f'{bench.folder}/lonely.sheet')
    for more in ((), ('--quiet',), ('--beside',)):
        bench.wrong_use('check', 'lonely.sheet', *more, says=[b'lonely.patches', b'No such file or directory'])
    # the name of standard input parts outputs as -
    bench.right_use(b'# -\n' + bench.listing + b'# plate.sheet\n' + bench.listing, 'list', '-q', '-', 'plate.sheet', given=bench.plate)
    # what cannot be read has no output, so nothing stands before one
    got = bench.status(2, 'list', '-q', 'missing.sheet', 'plate.sheet')
    bench.tally.same('a missing sheet and another', got.out, b'# plate.sheet\n' + bench.listing)
    # the same sheet twice is two sheets
    bench.right_use((b'# plate.sheet\n' + bench.listing) * 2, 'list', '-q', 'plate.sheet', 'plate.sheet')


def try_sample(bench):
    bench.right_use(read(f'{HOME}/examples/plate.sheet'), 'example')
    bench.right_use(read(f'{HOME}/examples/plate.patches'), 'example', 'patches')
    # nothing is taken unasked: what is given is an empty text
    for name in ('list', 'report', 'rewrite'):
        got = bench.status(1, name)
        bench.tally.same(f'{name} of nothing', got.out, b'answer=10,1\n')
    got = bench.status(1, 'import')
    bench.tally.same('import of nothing', got.out, b'answer=16,0\n')
    got = bench.status(1, 'draw')
    bench.tally.same('draw of nothing', got.out, b'')


def try_order(bench):
    """Where messages go where outputs go, each stands behind the output that it speaks of."""
    said = b'wazelpunt: plate.sheet: 2 loops: 1 rim; 1 closed with 1 triangle\n'
    refusal = bench.call('list', 'refused.sheet').err
    got = bench.call('list', 'plate.sheet', 'refused.sheet', 'plate.sheet', stderr=subprocess.STDOUT)
    plate = b'# plate.sheet\n' + bench.listing + said
    bench.tally.same('outputs and messages in one', got.out, plate + b'# refused.sheet\nanswer=10,3\n' + refusal + plate)
    got = bench.call('list', 'plate.sheet', stderr=subprocess.STDOUT)
    bench.tally.same('an output and its message in one', got.out, bench.listing + said)
    words = b'# plate.sheet\n' + bench.call('report', 'plate.sheet').out
    got = bench.call('report', 'plate.sheet', 'refused.sheet', 'plate.sheet', stderr=subprocess.STDOUT)
    bench.tally.same('reports and messages in one', got.out, words + b'# refused.sheet\nanswer=10,3\n' + refusal + words)


def try_statuses(bench):
    """Each set of sheets of every kind, in both orders: 2 before 1 before 3 before 0."""
    kinds = {'missing.sheet': 2, 'refused.sheet': 1, 'open.sheet': 3, 'plate.sheet': 0}
    for count in range(1, len(kinds) + 1):
        for names in itertools.combinations(kinds, count):
            for order in (names, names[::-1]):
                for closed in (True, False):
                    due = next(status for status in (2, 1, 3, 0) if status in {kinds[name] for name in names})
                    due = 0 if due == 3 and not closed else due
                    options = ['--closed'] if closed else []
                    got = bench.status(due, 'list', *options, *order)
                    # those that can be read are all done
                    listed = sum(name != 'missing.sheet' for name in names)
                    bench.tally.same(f'how many answers there are of {order}', got.out.count(b'answer='), listed)
                    if count > 1:
                        bench.status(due, 'list', '--json', *options, *order)
            due = min((kinds[name] for name in names), key=(2, 1, 3, 0).index) % 3
            bench.status(due, 'rewrite', *names)
            bench.status(due, 'draw', *names)
            for options in ([], ['--entries'], ['--json']):
                bench.status(due, 'report', *options, *names)


def try_check_statuses(bench):
    kinds = {'missing.sheet': 2, 'misdeclared.sheet': 1, 'open.sheet': 3, 'plate.sheet': 0, 'refused.sheet': 1, 'lonely.sheet': 2}
    for count in range(1, 4):
        for names in itertools.combinations(kinds, count):
            for closed in (True, False):
                due = next(status for status in (2, 1, 3, 0) if status in {kinds[name] for name in names})
                due = 0 if due == 3 and not closed else due
                got = bench.status(due, 'check', '--beside', *(['--closed'] if closed else []), *names[::-1])
                judged = sum(kinds[name] != 2 for name in names)
                bench.tally.same(f'how many answers there are of {names}', got.out.count(b'answer='), judged)


def try_closed(bench):
    """A loop that stays open is a long one or one without a cover; a rim is none."""
    for name, due in (('plate', 0), ('rim', 0), ('closed', 0), ('nothing', 0), ('open', 3), ('long', 3), ('refused', 1)):
        got = bench.status(due, 'list', '--closed', f'{name}.sheet')
        bench.tally.same(f'what is printed of {name} with --closed', got.out, bench.call('list', '-q', f'{name}.sheet').out)
        bench.status(1 if due == 1 else 0, 'list', f'{name}.sheet')
    for name, due in (('plate', 0), ('open', 3), ('long', 3), ('cone', 0), ('misdeclared', 1)):
        got = bench.status(due, 'check', '--closed', f'{name}.sheet')
        bench.status(1 if due == 1 else 0, 'check', f'{name}.sheet')
        bench.tally.true(f'check of {name} with --closed', due == 1 or got.out == b'answer=0,0\n', repr(got))


def try_loops(bench):
    """What is said of loops: with --loops a line of each, without it of those that stay open, five of a state at most."""
    folder = f'{HOME}/tests/told/cases'
    for name in ('summary-six-open', 'summary-seventeen-open', 'summary-every-kind'):
        shutil.copy(f'{folder}/{name}.sheet', bench.folder)
    for name in ('islands', 'range'):
        shutil.copy(f'{HOME}/examples/{name}.sheet', bench.folder)
    # a fan, with a rim of 1,024 edges
    points = [f'p=00000000,{0x447a0000 + 1024 * k:08x},{0x40000000 + 8192 * (k % 7):08x}\n' for k in range(1024)]
    triangles = [f't=0,{k},{k + 1}\n' for k in range(1, 1023)]
    write(f'{bench.folder}/fan.sheet', f'points=1024\n{"".join(points)}triangles=1022\n{"".join(triangles)}'.encode())
    counted = set()
    for name in ('plate.sheet', 'rim.sheet', 'open.sheet', 'long.sheet', 'cone.sheet', 'closed.sheet', 'nothing.sheet', 'schoolroom.sheet',
                 'islands.sheet', 'range.sheet', 'fan.sheet', 'summary-six-open.sheet', 'summary-seventeen-open.sheet',
                 'summary-every-kind.sheet', 'box.stl'):
        given = read(f'{bench.folder}/{name}')
        text, triangle = (imported(given), 'facet') if name.endswith('.stl') else (given, 'triangle')
        plain = bench.call('list', name)
        states, rings = loops_of(plain.out)
        summary = plain.err.split(b'\n')[0] + b'\n'
        some, each = (lines_said(text, states, rings, is_all, triangle) for is_all in (False, True))
        counted.add((some.count(b'\n'), each.count(b'\n')))
        bench.tally.same(f'what list says of {name}', plain.err, summary + some)
        bench.tally.same(f'what draw says of {name}', bench.call('draw', name).err, summary + some)
        bench.right_use(plain.out, 'list', '--loops', name, err=summary + each)
        bench.right_use(plain.out, 'list', name, '--loops', '--quiet')
        bench.right_use(bench.call('list', '--json', name).out, 'list', '--json', '--loops', name)
        got = bench.status(0, 'draw', '--loops', name)
        bench.tally.same(f'what draw --loops says of {name}', got.err, summary + each)
        bench.right_use(got.out, 'draw', '--loops', '-q', name)
    # none at all, some of all, all of a state and not all of it
    bench.tally.true('how many lines are said', {(0, 0), (0, 2), (5, 24), (5, 68), (2, 8)} <= counted, counted)
    bench.tally.true('a rim of 1,024 edges', b': 1,024 edges, run ' in bench.call('list', '--loops', 'fan.sheet').err)
    # the set of an open loop: what passes is told as what is listed
    got, listed = bench.status(0, 'check', 'open.sheet'), bench.call('list', 'open.sheet')
    bench.tally.same('what check says of an open loop', got.err, listed.err.replace(b'.sheet: ', b'.sheet: open.patches passes: ', 1))
    # of several sheets each has its lines behind its summary
    got = bench.status(1, 'list', '--loops', 'plate.sheet', 'refused.sheet', 'open.sheet')
    alone = [bench.call('list', '--loops', name).err for name in ('plate.sheet', 'refused.sheet', 'open.sheet')]
    bench.tally.same('what is said of the loops of several', got.err, b''.join(alone))


def try_refused_pictures(bench):
    """A refused sheet: alone, nothing on standard output; among several, a panel."""
    got = bench.status(1, 'draw', 'refused.sheet')
    bench.tally.true('draw of a refused sheet', got.out == b'' and b'refused, answer 10,' in got.err, repr(got))
    got = bench.status(1, 'draw', 'refused.sheet', 'plate.sheet')
    bench.tally.true('draw of a refused sheet and another', got.out.count(b'<svg') == 1 and b'refused.sheet' in got.out, repr(got))
    got = bench.status(0, 'draw', '--quiet', 'plate.sheet')
    bench.tally.true('draw --quiet', got.err == b'' and got.out.count(b'<svg') == 1, repr(got))


def on_a_terminal(bench, *arguments, typed=b'\x04'):
    """A call whose standard input is a terminal, where these bytes are typed: an end alone, if nothing else."""
    ours, theirs = pty.openpty()
    os.write(ours, typed)
    try:
        return bench.call(*arguments, stdin=theirs)
    finally:
        os.close(theirs)
        os.close(ours)


def try_terminal(bench):
    for name, said in (('list', NO_SHEET), ('report', NO_SHEET), ('rewrite', NO_SHEET), ('draw', NO_SHEET), ('import', NO_FILE)):
        for options in ((), ('--quiet',)):
            got = on_a_terminal(bench, name, *options)
            bench.tally.same(f'{name} on a terminal', (got.status, got.out, got.err), (2, b'', said))
    # the set of a sheet that is typed cannot stand beside it, so check asks for a name anyway
    got = on_a_terminal(bench, 'check')
    bench.tally.true('check on a terminal', got.status == 2 and got.out == b'' and b'no sheet is given' in got.err, repr(got))
    got = on_a_terminal(bench, 'list', '--json')
    bench.tally.same('list --json on a terminal', (got.status, got.err), (2, NO_SHEET))
    # what is asked for is read, up to the end that is typed
    got = on_a_terminal(bench, 'list', '-q', '-', typed=bench.plate + b'\x04')
    bench.tally.same('list - on a terminal', (got.status, got.out), (0, bench.listing))
    got = on_a_terminal(bench, 'list', '-q', 'plate.sheet')
    bench.tally.same('list of a file on a terminal', (got.status, got.out), (0, bench.listing))


def try_use(front, tally, room):
    bench = Bench(front, tally, room)
    for part in (try_help, try_wrong_use, try_wrong_pitches, try_names, try_sample, try_order, try_statuses, try_check_statuses, try_closed,
                 try_loops, try_refused_pictures, try_terminal):
        part(bench)
