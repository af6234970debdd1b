"""A place where a front is called, and pipes that are slow."""
import fcntl
import itertools
import os
import stat
import subprocess
import time

from calls import HOME, LIMIT, Result, read, write
from facets import imported

PIPE = 65536  # bytes that a pipe of these tests holds
F_SETPIPE_SZ = getattr(fcntl, 'F_SETPIPE_SZ', 1031)  # Python names it from 3.10 on


class Place:
    """A folder where a front is called, with another for temporary files. After each call both have to be as they were before."""

    def __init__(self, front, tally, room):
        self.front = front
        self.tally = tally
        self.room = room
        os.chmod(room, 0o755)
        self.folder = os.path.join(room, 'folder')
        self.passing = os.path.join(room, 'passing')
        os.mkdir(self.folder)
        os.mkdir(self.passing, 0o777)
        os.chmod(self.passing, 0o1777)
        for ending in ('sheet', 'patches'):
            write(f'{self.folder}/plate.{ending}', read(f'{HOME}/examples/plate.{ending}'))
        write(f'{self.folder}/refused.sheet', read(f'{HOME}/tests/programs/cases/upper-case.sheet'))
        write(f'{self.folder}/islands.sheet', islands())
        self.plate = read(f'{self.folder}/plate.sheet')
        self.box = read(f'{HOME}/examples/box.stl')
        self.box_text = imported(self.box)
        write(f'{self.folder}/box.stl', self.box)
        write(f'{self.folder}/cut.stl', self.box[:-1])
        self.listing = read(f'{HOME}/tests/programs/cases/plate.listing')
        write(f'{self.folder}/shore.sheet', read(f'{HOME}/examples/shore.sheet'))
        self.report, self.entries = (self.call('report', '-q', *options, 'shore.sheet').out for options in ([], ['--entries']))
        tally.same('the report', (self.report.count(b'\n'), self.entries.count(b'\nentry=')), (8, 10))
        # a listing that no pipe holds
        self.many = ['islands.sheet'] * 6
        self.long = self.call('list', '-q', *self.many).out
        tally.true('there is a long listing', len(self.long) > 2.5 * PIPE)

    def seen(self):
        """What is in the two folders, with the bytes of files that are not large and can be read."""
        seen = {}
        for folder, folders, names in itertools.chain(os.walk(self.folder), os.walk(self.passing)):
            for path in (os.path.join(folder, name) for name in folders + names):
                about = os.lstat(path)
                is_small = stat.S_ISREG(about.st_mode) and about.st_size < 1 << 20
                seen[path] = read(path) if is_small and os.access(path, os.R_OK) else about.st_mode
        return seen

    def call(self, *arguments, through=None, **more):
        before = self.seen()
        own = self.front.command
        try:
            self.front.command = [*through, *own] if through else own
            more.setdefault('cwd', self.folder)
            got = self.front(*arguments, environment=dict(more.pop('environment', {}), TMPDIR=self.passing), **more)
        finally:
            self.front.command = own
        self.tally.true(f'{arguments}: nothing is left behind or changed', self.seen() == before)
        return got

    def start(self, *arguments, **more):
        """A call that goes on while the test does something; finish takes it up."""
        more.setdefault('stdin', subprocess.DEVNULL)
        self.before = self.seen()
        own = {'TMPDIR': self.passing}
        return subprocess.Popen(self.front.command + list(arguments), cwd=self.folder, env=own, stderr=subprocess.PIPE, **more)

    def finish(self, what, started):
        try:
            said = started.communicate(timeout=LIMIT)[1]
        except subprocess.TimeoutExpired:
            started.kill()
            said = started.communicate()[1]
            self.tally.fault(what, f'did not end within {LIMIT} s')
        got = Result(started.returncode, b'', said)
        self.front.look_over(what, got)
        self.tally.true(f'{what}: nothing is left behind or changed', self.seen() == self.before)
        return got

    def due(self, what, got, status, out, said=None):
        """The status, what is printed, and what is said: all of it, or, in a list, parts that one message has to have."""
        self.tally.same(f'{what}: status and output', (got.status, got.out), (status, out))
        if isinstance(said, list):
            is_said = got.err.count(b'wazelpunt: ') == 1 and all(part in got.err for part in said)
            self.tally.true(f'{what}: what is said', is_said, repr(got))
        elif said is not None:
            self.tally.same(f'{what}: what is said', got.err, said)


def islands():
    """As many triangles without a common edge as a sheet may have: the longest listing of rims."""
    corners = [(100 + i, 100 + (i + 1) % 924, 100 + (i + 3) % 924) for i in range(924)]
    corners += [(100 + i, 100 + (i + 4) % 924, 100 + (i + 9) % 924) for i in range(100)]
    text = 'points=1024\n' + 'p=00000000,00000000,00000000\n' * 1024 + 'triangles=1024\n'
    return (text + ''.join(f't={a},{b},{c}\n' for a, b, c in corners)).encode()


def pipe():
    """A pipe that holds so many bytes on every machine."""
    reading, writing = os.pipe()
    fcntl.fcntl(writing, F_SETPIPE_SZ, PIPE)
    return reading, writing


def set_not_waiting(descriptor):
    """Makes calls on this descriptor fail where they would have to wait."""
    fcntl.fcntl(descriptor, fcntl.F_SETFL, fcntl.fcntl(descriptor, fcntl.F_GETFL) | os.O_NONBLOCK)


def slowly_read(descriptor, piece, pause, most=None):
    """Reads a pipe in pieces with pauses between the first of them, to its end or until there are so many bytes."""
    got = b''
    pauses = 20
    while most is None or len(got) < most:
        if pauses:
            time.sleep(pause)
            pauses -= 1
        part = os.read(descriptor, piece if most is None else min(piece, most - len(got)))
        if not part:
            break
        got += part
    os.close(descriptor)
    return got


def slowly_write(descriptor, data, piece, pause, pauses=20):
    try:
        for at in range(0, len(data), piece):
            os.write(descriptor, data[at:at + piece])
            if pauses:
                time.sleep(pause)
                pauses -= 1
    except BrokenPipeError:
        pass
    os.close(descriptor)
