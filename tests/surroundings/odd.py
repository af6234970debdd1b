"""Odd surroundings: each has a status, something that is printed and said, and nothing that is left behind."""
import fcntl
import itertools
import os
import resource
import shutil
import signal
import subprocess
import sys
import threading
import time

from calls import HOME, LIMIT, LONGEST_SET, Front, read, sheets_of, write
from facets import LONGEST, answer, apart, grid, pitch_of, stl
from place import PIPE, Place, pipe, set_not_waiting, slowly_read, slowly_write
from records import entries_printed, report_printed

NOBODY = 65534
SHEET_AND_MORE = b'answer=10,15\n'  # the plate has 14 lines
SUMMARY = b'wazelpunt: plate.sheet: 2 loops: 1 rim; 1 closed with 1 triangle\n'
PRINTING = [('list', '-q', 'plate.sheet'), ('list', 'plate.sheet'), ('list', '--json', 'plate.sheet'), ('check', 'plate.sheet'),
            ('check', '--json', 'plate.sheet'), ('rewrite', 'plate.sheet'), ('draw', '-q', 'plate.sheet'), ('example',),
            ('example', 'patches'), ('--help',), ('help', 'check'), ('--version',), ('list', 'refused.sheet'), ('list', 'box.stl'),
            ('import', '-q', 'box.stl'), ('import', 'cut.stl'), ('list', '--pitch', '5', 'box.stl'),
            ('import', '--pitch=10', '-q', 'box.stl'), ('report', 'shore.sheet'), ('report', '--json', 'shore.sheet'),
            ('report', '--entries', 'shore.sheet'), ('report', '-q', '--entries', 'shore.sheet'), ('report', 'refused.sheet'),
            ('report', '--pitch', '5', 'box.stl'), ('help', 'report')]


def try_full(place):
    """A full disk, and a file that may not grow."""
    with open('/dev/full', 'wb') as full:
        for arguments in PRINTING + [('list', '-q', *place.many), ('report', *place.many)]:
            got = place.call(*arguments, stdout=full)
            place.due(f'{arguments} to a full disk', got, 2, b'', [b'standard output', b'No space left on device'])
            got = place.call(*arguments, stdout=full, stderr=full)
            place.due(f'{arguments}, all to a full disk', got, 2, b'')
        # what was to be said and could not be is no success
        got = place.call('list', 'plate.sheet', stderr=full)
        place.due('messages to a full disk', got, 2, place.listing)
        got = place.call('list', '-q', 'plate.sheet', stderr=full)
        place.due('no messages to a full disk', got, 0, place.listing)
        got = place.call('report', '--entries', 'shore.sheet', stderr=full)
        place.due('what is said of entries to a full disk', got, 2, place.entries)
        for arguments, out in ((('--entries', '-q'), place.entries), ((), place.report)):
            got = place.call('report', *arguments, 'shore.sheet', stderr=full)
            place.due(f'report {arguments}, of which nothing is said, with messages to a full disk', got, 0, out)
    for most in (100, PIPE + 100):
        for is_ignored in (True, False):
            printed = os.path.join(place.room, 'printed')

            def limit():
                signal.signal(signal.SIGXFSZ, signal.SIG_IGN if is_ignored else signal.SIG_DFL)
                resource.setrlimit(resource.RLIMIT_FSIZE, (most, most))
                # what the signal would leave behind is not the front's
                resource.setrlimit(resource.RLIMIT_CORE, (0, 0))
            with open(printed, 'wb') as file:
                got = place.call('list', '-q', *place.many, stdout=file, preexec_fn=limit, restore_signals=False)
            place.tally.same(f'a file of {most} bytes', read(printed), place.long[:most])
            if is_ignored:
                place.due(f'a file of {most} bytes', got, 2, b'', [b'standard output', b'File too large'])
            else:
                place.tally.true('a file that may not grow', got.status in (2, -signal.SIGXFSZ), repr(got))


def try_closed(place):
    """Each of the three descriptors closed at the start, in every combination."""
    calls = {('list', '-q', 'plate.sheet'): (1,), ('list', 'plate.sheet'): (1, 2), ('list', '-q', '-'): (0, 1), ('list', '-q'): (0, 1),
             ('check', '-q', 'plate.sheet', '-'): (0, 1), ('check', '-q', '-', 'plate.patches'): (0, 1), ('rewrite', '-'): (0, 1),
             ('list', '-q', '--json', 'plate.sheet'): (1,), ('example',): (1,), ('--help',): (1,), ('--version',): (1,),
             ('draw', '-q', 'plate.sheet'): (1,), ('list', '-q', '-', 'plate.sheet'): (0, 1), ('import', '-q', 'box.stl'): (1,),
             ('import', 'box.stl'): (1, 2), ('import', '-q', '-'): (0, 1), ('import', '-q'): (0, 1), ('report', 'shore.sheet'): (1,),
             ('report', '-'): (0, 1), ('report',): (0, 1), ('report', '--entries', 'shore.sheet'): (1, 2),
             ('report', '-q', '--entries', '-'): (0, 1), ('report', '--json', 'shore.sheet'): (1,)}
    names = {0: b'standard input is closed', 1: b'standard output is closed'}
    for arguments, used in calls.items():
        given = read(f'{place.folder}/plate.patches') if arguments[0] == 'check' and arguments[-1] == '-' else place.plate
        given = place.box if arguments[0] == 'import' else given
        whole = place.call(*arguments, given=given)
        place.tally.same(f'{arguments} with nothing closed', whole.status, 0)
        for count in (1, 2, 3):
            for shut in itertools.combinations((0, 1, 2), count):
                got = place.call(*arguments, given=given, preexec_fn=lambda: [os.close(descriptor) for descriptor in shut])
                what = f'{arguments} with {shut} closed'
                lacking = [descriptor for descriptor in used if descriptor in shut]
                place.tally.same(f'{what}: status', got.status, 2 if lacking else 0)
                if not lacking:
                    due = b'' if 1 in shut else whole.out, b'' if 2 in shut else whole.err
                    place.tally.same(f'{what}: output', (got.out, got.err), due)
                elif 2 not in shut:
                    place.tally.true(f'{what}: what is said', any(names[descriptor] in got.err for descriptor in lacking), repr(got))
    # what is wrong anyway stays so
    for shut in itertools.chain.from_iterable(itertools.combinations((0, 1, 2), count) for count in (1, 2, 3)):
        for arguments in (('list', 'missing.sheet'), ('mend',), ('list', '--frob')):
            got = place.call(*arguments, preexec_fn=lambda: [os.close(descriptor) for descriptor in shut])
            place.tally.same(f'{arguments} with {shut} closed: status', got.status, 2)
            place.tally.true(f'{arguments} with {shut} closed: what is said', 2 in shut or got.err != b'', repr(got))


def try_modes(place):
    """Descriptors that are open the wrong way round."""
    with open(f'{place.folder}/plate.sheet', 'rb') as reading:
        got = place.call('list', '-q', 'plate.sheet', stdout=reading)
        place.due('output to a file that is open for reading', got, 2, b'', [b'standard output', b'Bad file descriptor'])
    with open('/dev/null', 'wb') as writing:
        got = place.call('list', '-q', '-', stdin=writing)
        place.due('input from a file that is open for writing', got, 2, b'', [b'standard input', b'Bad file descriptor'])
    folder = os.open(place.folder, os.O_RDONLY)
    got = place.call('list', '-q', '-', stdin=folder)
    place.due('a folder as standard input', got, 2, b'', [b'standard input', b'is a directory'])
    os.close(folder)


def try_waiting(place):
    """Standard output and input that do not wait, and pipes that are slow."""
    for waits in (True, False):
        reading, writing = pipe()
        if not waits:
            set_not_waiting(writing)
        started = place.start('list', '-q', *place.many, stdout=writing)
        os.close(writing)
        got = slowly_read(reading, 20000, 0.01)
        ended = place.finish('a slow reader', started)
        place.tally.same(f'a slow reader, {waits}', (ended.status, got, ended.err), (0, place.long, b''))
        reading, writing = pipe()
        if not waits:
            set_not_waiting(reading)
        started = place.start('list', '-q', '-', stdin=reading, stdout=subprocess.PIPE)
        os.close(reading)
        time.sleep(0.05)
        slowly_write(writing, place.plate, 30, 0.02)
        got = started.stdout.read()
        started.stdout.close()
        started.stdout = None
        ended = place.finish('a slow writer', started)
        place.tally.same(f'a slow writer, {waits}', (ended.status, got, ended.err), (0, place.listing, b''))
        # a file of facets that is counted to its end, since it is longer than what is read
        reading, writing = pipe()
        if not waits:
            set_not_waiting(reading)
        started = place.start('list', '-q', '-', stdin=reading, stdout=subprocess.PIPE)
        os.close(reading)
        slowly_write(writing, stl(apart(2000)), 9000, 0.02)
        got = started.stdout.read()
        started.stdout.close()
        started.stdout = None
        ended = place.finish('a slow writer of facets', started)
        place.tally.true(f'a slow writer of facets, {waits}', (ended.status, got) == (1, answer(2)), repr(ended))
    # messages that do not wait, in a pipe that is full at first
    reading, writing = pipe()
    set_not_waiting(writing)
    filled = os.write(writing, b'x' * PIPE)
    started = subprocess.Popen(place.front.command + ['list', 'plate.sheet'], cwd=place.folder, env={}, stdin=subprocess.DEVNULL,
                               stdout=subprocess.DEVNULL, stderr=writing)
    os.close(writing)
    time.sleep(0.1)
    said = slowly_read(reading, PIPE, 0.01)
    place.tally.same('messages that do not wait', (started.wait(timeout=LIMIT), said[filled:]), (0, SUMMARY))
    # the front leaves the descriptor as it found it, so that others who share it are not surprised
    reading, writing = pipe()
    place.call('list', '-q', 'plate.sheet', stdout=writing)
    place.tally.true('the mode of standard output is as it was', not fcntl.fcntl(writing, fcntl.F_GETFL) & os.O_NONBLOCK)
    os.close(reading)
    os.close(writing)


def try_gone(place):
    """A reader that goes away, at once or after some bytes."""
    for arguments, most in ((('list', '-q', *place.many), 0), (('list', '-q', *place.many), 1000),
                            (('list', '-q', *place.many), PIPE + 5000), (('rewrite', *place.many), 1000),
                            (('draw', '-q', *place.many), 1000),
                            (('list', '--json', '--patches', *place.many), 1000), (('example',), 0), (('--help',), 0),
                            (('list', 'plate.sheet'), 0), (('report', *place.many), 1000), (('report', 'shore.sheet'), 0),
                            (('report', '--json', *place.many), 1000), (('report', '-q', '--entries', *place.many), 1000)):
        reading, writing = pipe()
        if most == 0:
            os.close(reading)
        started = place.start(*arguments, stdout=writing)
        os.close(writing)
        if most:
            slowly_read(reading, 4096, 0, most)
        ended = place.finish(f'{arguments} for a reader that goes away', started)
        place.due(f'{arguments} for a reader that goes away after {most} bytes', ended, 2, b'', [b'standard output', b'Broken pipe'])


def feed_without_end(descriptor, text, piece=bytes(4096), fed=None):
    """Feeds until the reader goes away; what was fed is added up in a list, if there is one."""
    try:
        os.write(descriptor, text)
        while True:
            count = os.write(descriptor, piece)
            if fed is not None:
                fed.append(count)
    except BrokenPipeError:
        os.close(descriptor)


def try_long(place):
    """100 MB and inputs without an end: no more is read than the longest file of facets, or the longest set, and a byte."""
    big = f'{place.room}/big.sheet'
    write(big, place.plate)
    os.truncate(big, 100_000_000)
    place.due('100 MB', place.call('list', '-q', big), 1, SHEET_AND_MORE)
    place.due('100 MB rewritten', place.call('rewrite', '-q', big), 1, SHEET_AND_MORE)
    place.due('a set of 100 MB', place.call('check', '-q', 'plate.sheet', big), 1, SHEET_AND_MORE)
    for arguments, longest in ((('list', '-q', '-'), LONGEST), (('check', '-q', 'plate.sheet', '-'), LONGEST_SET)):
        with open(big, 'rb', buffering=0) as file:
            got = place.call(*arguments, stdin=file)
            place.due(f'{arguments} of 100 MB', got, 1, SHEET_AND_MORE)
            place.tally.true(f'{arguments} reads no further than it has to', file.tell() <= longest + 1, f'{file.tell()} bytes')
    os.remove(big)
    for command in ('list', 'report', 'rewrite', 'import'):
        place.due(f'{command} of /dev/zero', place.call(command, '-q', '/dev/zero'), 1, answer(16))
    place.due('/dev/zero as a set', place.call('check', '-q', 'plate.sheet', '/dev/zero'), 1, SHEET_AND_MORE)
    place.due('/dev/zero, among others', place.call('list', '-q', '/dev/zero', 'plate.sheet'), 1,
              b'# /dev/zero\n' + answer(16) + b'# plate.sheet\n' + place.listing)
    # a sheet, a text of another kind, and files of facets: only by the count of the last more has to be read than fits
    for begin, piece, due, most in ((place.plate, bytes(4096), SHEET_AND_MORE, LONGEST), (b'', b'y\n' * 2048, b'answer=10,1\n', LONGEST),
                                    (place.box, bytes(4096), answer(16), LONGEST),
                                    (stl([], count=100_000), bytes(4096), answer(16), 5_000_084)):
        for command in ('list', 'report', 'rewrite'):
            reading, writing = pipe()
            fed = []
            feeding = threading.Thread(target=feed_without_end, args=(writing, begin, piece, fed))
            feeding.start()
            got = place.call(command, '-q', '-', stdin=reading)
            os.close(reading)
            feeding.join()
            place.due(f'{command} of a pipe without an end, {begin[:10]}', got, 1, due)
            # what the pipe holds, and what is read at a time, may be too much
            place.tally.true(f'how much {command} reads of it, {begin[:10]}', sum(fed) <= most + 4 * PIPE, f'{sum(fed)} bytes')
    # the longest texts themselves are read wholly
    place.tally.true('the islands are as long as that', len(read(f'{place.folder}/islands.sheet')) > 40000)


def try_fifos(place):
    """Fifos are read to their end, wherever a name may stand."""
    fifo = f'{place.folder}/fifo.sheet'
    os.mkfifo(fifo)
    for data, pause, out, status in ((place.plate, 0.002, place.listing, 0), (b'', 0, b'answer=10,1\n', 1), (None, 0, SHEET_AND_MORE, 1)):
        def feed():
            writing = os.open(fifo, os.O_WRONLY)
            if data is None:
                feed_without_end(writing, place.plate)
            else:
                slowly_write(writing, data, 10, pause)
        # where the front does not open the fifo, this waits for ever
        feeding = threading.Thread(target=feed, daemon=True)
        feeding.start()
        place.due('a fifo', place.call('list', '-q', 'fifo.sheet'), status, out)
        feeding.join(LIMIT)
        place.tally.true('a fifo is opened, and read to its end or given up', not feeding.is_alive())
    os.remove(fifo)
    place.due('/dev/null', place.call('list', '-q', '/dev/null'), 1, b'answer=10,1\n')


def try_unreadable(place):
    """What cannot be read: a sentence with the name and the cause, and status 2; the others are done."""
    folder = place.folder
    os.mkdir(f'{folder}/folder.sheet')
    os.mkdir(f'{folder}/plate-2.patches')
    shutil.copy(f'{folder}/plate.sheet', f'{folder}/plate-2.sheet')
    os.symlink('loop.sheet', f'{folder}/loop.sheet')
    write(f'{folder}/secret.sheet', place.plate)
    os.chmod(f'{folder}/secret.sheet', 0)
    as_nobody = dict(user=NOBODY, group=NOBODY, extra_groups=[]) if os.getuid() == 0 else {}
    for name, parts in (('folder.sheet', [b'folder.sheet', b'is a directory, not a sheet']), ('.', [b'is a directory, not a sheet']),
                        ('missing.sheet', [b'missing.sheet', b'No such file or directory']), ('', [b'No such file or directory']),
                        ('plate.sheet/x', [b'plate.sheet/x', b'Not a directory']),
                        ('loop.sheet', [b'loop.sheet', b'Too many levels of symbolic links']),
                        ('secret.sheet', [b'secret.sheet', b'Permission denied']), ('n' * 300, [b'n' * 300, b'File name too long']),
                        ('n/' * 3000, [b'File name too long']), ('two words', [b': two words: ']), ('a\nb', [b': a\\nb: '])):
        for command in ('list', 'report', 'rewrite', 'draw', 'import'):
            got = place.call(command, name, **as_nobody)
            due = [part.replace(b'a sheet', b'an STL file') for part in parts] if command == 'import' else parts
            place.due(f'{command} {name[:20]}', got, 2, b'', due)
        got = place.call('list', '-q', name, 'plate.sheet', **as_nobody)
        place.tally.true(f'{name[:20]} before another', got.status == 2 and got.out.endswith(b'# plate.sheet\n' + place.listing)
                         and got.out.count(b'answer=') == 1 and got.err.count(b'wazelpunt: ') == 1, repr(got))
        place.due(f'check of {name[:20]}', place.call('check', name, 'plate.patches', **as_nobody), 2, b'', parts)
        got = place.call('check', 'plate.sheet', name, **as_nobody)
        place.due(f'check with the set {name[:20]}', got, 2, b'', [part.replace(b', not a sheet', b'') for part in parts])
    place.due('a folder beside a sheet', place.call('check', 'plate-2.sheet'), 2, b'', [b'plate-2.patches', b'is a directory'])
    for name in ('folder.sheet', 'plate-2.patches'):
        os.rmdir(f'{folder}/{name}')
    for name in ('plate-2.sheet', 'loop.sheet', 'secret.sheet'):
        os.remove(f'{folder}/{name}')


def try_bare(place):
    """No environment, an odd one, a folder that is read-only, one that is gone, and few descriptors."""
    # every call here has an environment of one name alone; this one has none
    got = Front(place.tally, place.front.command)('list', 'plate.sheet', cwd=place.folder)
    place.due('no environment', got, 0, place.listing, SUMMARY)
    odd = {'LC_ALL': 'tr_TR.UTF-8', 'LANG': 'de_DE', 'POSIXLY_CORRECT': '1', 'HOME': '/nowhere', 'PATH': '', 'IFS': 'p', 'COLUMNS': '1'}
    place.due('an odd environment', place.call('list', 'plate.sheet', '-q', environment=odd), 0, place.listing, b'')
    as_nobody = dict(user=NOBODY, group=NOBODY, extra_groups=[]) if os.getuid() == 0 else {}
    os.chmod(place.folder, 0o555)
    os.chmod(place.passing, 0o555)
    for arguments in PRINTING:
        whole = Front(place.tally, place.front.command)(*arguments, cwd=place.folder)
        got = place.call(*arguments, **as_nobody)
        place.due(f'{arguments} in a folder that is read-only', got, whole.status, whole.out, whole.err)
    os.chmod(place.folder, 0o755)
    os.chmod(place.passing, 0o1777)

    # a hundred sheets and sets where a process may have few files open at a time
    names = ['plate.sheet'] * 100
    few = dict(preexec_fn=lambda: resource.setrlimit(resource.RLIMIT_NOFILE, (24, 24)))
    place.due('few descriptors', place.call('list', '-q', *names, **few), 0, (b'# plate.sheet\n' + place.listing) * 100, b'')
    got = place.call('check', '-q', '--beside', *names, **few)
    place.due('few descriptors for sets', got, 0, b'# plate.sheet\nanswer=0,0\n' * 100, b'')

    def leave():
        gone = os.path.join(place.room, 'gone')
        os.mkdir(gone)
        os.chdir(gone)
        os.rmdir(gone)
    got = place.call('list', '-q', f'{place.folder}/plate.sheet', preexec_fn=leave)
    place.due('a folder that is gone', got, 0, place.listing, b'')


def try_pieces(place):
    """Bytes that come in pieces, and writes that are cut short or refused."""
    through = [sys.executable, '-B', f'{HOME}/tests/programs/through.py']
    for piece, name in (('1', 'plate.sheet'), ('7', 'plate.sheet'), ('4096', 'islands.sheet')):
        given = read(f'{place.folder}/{name}')
        due = place.front('list', '-q', name, cwd=place.folder).out
        place.due(f'pieces of {piece}', place.call('list', '-q', '-', given=given, through=through + [piece]), 0, due, b'')
    for piece in ('1', '7', '4096'):
        got = place.call('import', '-q', '-', given=place.box, through=through + [piece])
        place.due(f'facets in pieces of {piece}', got, 0, place.box_text, b'')
    # a piece that a read takes in part is lost, so the room for a file and a byte more is full with a whole one
    for piece in (1, 5, 3419):
        place.tally.same(f'pieces of {piece} in the room for a file', (LONGEST + 1) % piece, 0)
        got = place.call('list', '-q', '-', given=stl(apart(1100)), through=through + [str(piece)])
        place.due(f'many facets in pieces of {piece}', got, 1, answer(2))
    place.due('writes that are cut short', place.call('list', '-q', *place.many, through=through + ['short']), 0, place.long, b'')
    long = place.front('report', *place.many, cwd=place.folder).out
    place.tally.true('there is a long report', len(long) > 2.5 * PIPE)
    place.due('writes of a report that are cut short', place.call('report', *place.many, through=through + ['short']), 0, long, b'')
    got = place.call('list', '-q', *place.many, through=through + ['refused'])
    place.due('writes that are refused', got, 2, b'', [b'standard output', b'Message too long'])


def try_signals(place):
    """TERM and INT end the front, in mid write and while it waits for input."""
    for number in (signal.SIGTERM, signal.SIGINT):
        reading, writing = pipe()
        started = place.start('list', '-q', *place.many, stdout=writing)
        os.close(writing)
        got = os.read(reading, 1)
        os.kill(started.pid, number)
        ended = place.finish(f'{number} in mid write', started)
        got += slowly_read(reading, PIPE, 0)
        place.tally.true(f'{number} in mid write', ended.status == -number and ended.err == b'' and place.long.startswith(got)
                         and len(got) < len(place.long), repr(ended))
        reading, writing = pipe()
        started = place.start('list', '-q', '-', stdin=reading, stdout=subprocess.DEVNULL)
        os.close(reading)
        os.write(writing, place.plate[:100])
        time.sleep(0.2)
        os.kill(started.pid, number)
        ended = place.finish(f'{number} in mid read', started)
        os.close(writing)
        place.tally.same(f'{number} in mid read', (ended.status, ended.err), (-number, b''))


def reported(stem, is_entries):
    """The report of a sheet by the model, as its entries or in words."""
    text, listing = read(f'{stem}.sheet'), read(f'{stem}.listing')
    pitch = f'pitch {pitch_of(text)}: ' if listing.startswith(b'answer=0,0\n') and pitch_of(text) != 1 else ''
    return entries_printed(text, listing) if is_entries else report_printed(text, listing, pitch)


def try_stack(place, made):
    """A stack of 256 KiB, for the longest loops and for the full sheets of a folder. The emulator gives 8 MiB whatever the limit is, and is
    told apart."""
    def limit():
        resource.setrlimit(resource.RLIMIT_STACK, (256 * 1024, 256 * 1024))
    environment = {'QEMU_STACK_SIZE': str(256 * 1024)}
    cases = f'{HOME}/tests/programs/cases'
    stems = [f'{cases}/hole-64', f'{cases}/hole-64-closed-by-a-fan'] + [f'{made}/{name[:-len(".sheet")]}' for name in sheets_of(made)]
    sheets = [f'{stem}.sheet' for stem in stems]
    for command, ending in ((['list'], 'listing'), (['check', '--beside'], 'verdict'), (['report', '--entries'], None), (['report'], None)):
        got = place.call(*command, '-q', *sheets, preexec_fn=limit, environment=environment)
        printed = [read(f'{stem}.{ending}') if ending else reported(stem, '--entries' in command) for stem in stems]
        due = b''.join(b'# ' + os.fsencode(f'{stem}.sheet') + b'\n' + each for stem, each in zip(stems, printed))
        place.tally.true(f'{command} with a stack of 256 KiB', got.out == due, repr(got))
    # files of as many facets and points as there may be, and of more points: one that is explained by reading it again and again
    full = [write(os.path.join(place.room, f'{name}.stl'), stl(facets))
            for name, facets in (('grid', grid(32, 16)), ('apart', apart(1024)), ('strip', grid(512, 1)))]
    for command, some in ((['list', '--json', '--patches'], sheets), (['check', '--json', '--beside'], sheets), (['rewrite'], sheets),
                          (['draw'], sheets[:4]), (['draw', '--plan'], sheets[1:3]), (['list'], full), (['list', '--json'], full),
                          (['import'], full), (['rewrite'], full), (['draw'], full), (['report', '--json'], sheets), (['report'], full)):
        got = place.call(*command, *some, preexec_fn=limit, environment=environment)
        place.tally.true(f'{command} with a stack of 256 KiB', got.status in (0, 1) and got.out != b'', repr(got))


def try_odd(front, tally, room):
    os.mkdir(room)
    place = Place(front, tally, room)
    for part in (try_full, try_closed, try_modes, try_waiting, try_gone, try_long, try_fifos, try_unreadable, try_bare, try_pieces,
                 try_signals):
        part(place)
    return place
