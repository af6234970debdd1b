"""What the tests of the front share: how it is called, and a count of what was tried and was wrong."""
import os
import re
import shlex
import shutil
import subprocess
import sys

HOME = os.path.realpath(os.path.join(os.path.dirname(__file__), '..', '..'))
SANITIZER = 99  # the exit status of a fault that a sanitizer finds, see sanitized.c
LIMIT = 60  # seconds after which a call counts as one that does not end


def of_header(name):
    """A number of the header."""
    with open(f'{HOME}/include/wazelpunt.h', encoding='utf-8') as header:
        return int(re.search(rf'^#define WAZELPUNT_{name} (\d+)$', header.read(), re.MULTILINE)[1])


LONGEST_SHEET = of_header('SHEET_BYTES')
LONGEST_SET = of_header('SET_BYTES')


class Tally:
    """Counts what was tried, and tells the first ten that were wrong."""

    def __init__(self, name):
        self.name = name
        self.tried = 0
        self.wrong = 0

    def fault(self, what, told):
        self.wrong += 1
        if self.wrong <= 10:
            print(f'{self.name}: {what}: {told}', flush=True)

    def true(self, what, is_so, told='is not so'):
        self.tried += 1
        if not is_so:
            self.fault(what, told)
        return is_so

    def same(self, what, got, due):
        return self.true(what, got == due, f'{shown(got)}, but due is {shown(due)}')

    def end(self):
        print(f'{self.name}: {self.tried} tried, {self.wrong} wrong')
        return 0 if self.wrong == 0 and self.tried > 0 else 1


def shown(value):
    """A value in one line that is not too long."""
    text = repr(value)
    return text if len(text) <= 300 else text[:300] + '...'


class Result:
    """What came of a call. A signal is told as its negative number, and a call that did not end in time as the status None."""

    def __init__(self, status, out, err):
        self.status = status
        self.out = out
        self.err = err

    def __repr__(self):
        return f'status {self.status}, printed {shown(self.out)}, said {shown(self.err)}'


class Front:
    """A front that is called. Every call, whatever it is, has to end, without a finding of a sanitizer, and with messages of whole lines
    that begin as they should."""

    def __init__(self, tally, command, environment=None):
        self.tally = tally
        self.command = shlex.split(command) if isinstance(command, str) else command
        # the calls have no PATH of their own
        self.command = [shutil.which(self.command[0]) or self.command[0]] + self.command[1:]
        self.environment = environment or {}

    def __call__(self, *arguments, given=None, cwd=HOME, environment=None, **more):
        """Calls it with these arguments and these bytes on standard input (None: nothing, as from /dev/null)."""
        if 'stdin' not in more:
            if given is None:
                more['stdin'] = subprocess.DEVNULL
            else:
                more['input'] = given
        more.setdefault('stdout', subprocess.PIPE)
        more.setdefault('stderr', subprocess.PIPE)
        own = dict(self.environment, **(environment or {}))
        try:
            done = subprocess.run(self.command + list(arguments), cwd=cwd, env=own, timeout=LIMIT, **more)
        except subprocess.TimeoutExpired:
            self.tally.fault(shown(arguments), f'did not end within {LIMIT} s')
            return Result(None, b'', b'')
        result = Result(done.returncode, done.stdout or b'', done.stderr or b'')
        self.look_over(arguments, result)
        return result

    def look_over(self, arguments, result):
        if result.status == SANITIZER:
            self.tally.fault(shown(arguments), result.err.decode(errors='replace')[-2000:])
        elif not said_in_lines(result.err):
            self.tally.fault(shown(arguments), f'said {shown(result.err)}, not in lines that begin as they should')


def said_in_lines(said):
    """Whether it is whole lines, each begun by the front's name, or indented by two blanks and not the first."""
    lines = said.split(b'\n')
    named = b'wazelpunt: '
    return lines[-1] == b'' and all(line.startswith((named, b'  ')) for line in lines[:-1]) and (said == b'' or said.startswith(named))


def read(path):
    with open(path, 'rb') as file:
        return file.read()


def write(path, data):
    with open(path, 'wb') as file:
        file.write(data)
    return path


def sheets_of(folder):
    """The names of the sheets of a folder, in order."""
    return sorted(name for name in os.listdir(folder) if name.endswith('.sheet'))


def front_of_caller(tally, name='FRONT'):
    command = os.environ.get(name)
    if not command:
        sys.exit(f'{tally.name}: {name} is not set: it is the command that runs the front')
    return Front(tally, command)
