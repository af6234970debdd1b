"""Calls to the system that fail, see faults.c."""
import errno
import os

from facets import apart, stl
from place import slowly_read

FAULTLESS = (errno.EINTR, errno.EAGAIN, -1)
AT_MOST = 40  # calls of one name in one of the scenarios


def call_with_faults(place, faults, *arguments, **more):
    """What came of a call, and the descriptors that met a fault, each by its digit."""
    reading, writing = os.pipe()
    got = place.call(*arguments, environment={'FAULTS': faults, 'TOLD': str(writing)}, pass_fds=[writing], **more)
    os.close(writing)
    return got, slowly_read(reading, 4096, 0)


def try_faults(place):
    """Every call to the system goes wrong once, each in a run of its own: what can be tried again is, and what cannot is told."""
    error = {code: os.strerror(code).encode() for code in (errno.EIO, errno.ENOSPC, errno.EMFILE)}
    # more facets than are read, so that the input is counted to its end
    many = stl(apart(4000))
    scenarios = [('list', 'plate.sheet'), ('list', '-q', 'islands.sheet', '-', 'islands.sheet', 'islands.sheet'),
                 ('check', '--beside', 'plate.sheet', 'plate.sheet'), ('list', '--json', 'refused.sheet', 'plate.sheet'),
                 ('draw', '-q', 'plate.sheet'), ('rewrite', 'refused.sheet'), ('import', 'box.stl', 'cut.stl'),
                 ('list', 'box.stl', '-'), ('check', 'box.stl', 'plate.patches'), ('list', '--pitch', '5', 'box.stl', 'plate.sheet'),
                 ('report', 'shore.sheet', '-', 'refused.sheet'), ('report', '--entries', 'shore.sheet', 'refused.sheet'),
                 ('report', '--json', 'shore.sheet', 'refused.sheet')]
    for arguments in scenarios:
        given = many if 'box.stl' in arguments else place.plate
        whole = place.call(*arguments, given=given)
        due = (whole.status, whole.out, whole.err)
        for name, codes in (('read', FAULTLESS), ('write', FAULTLESS), ('open', (errno.EINTR,)), ('close', (errno.EINTR,)),
                            ('close1', (errno.EINTR,))):
            for code in codes:
                got, met = call_with_faults(place, f'{name} 0 {code}', *arguments, given=given)
                place.tally.same(f'{arguments} with every second {name} {code}', (got.status, got.out, got.err), due)
                place.tally.true(f'{arguments} with every second {name} {code}: there was one', met != b'')
                # a wait that is interrupted too
                if code == errno.EAGAIN:
                    got, _ = call_with_faults(place, f'{name} 0 {code};poll 0 {errno.EINTR}', *arguments, given=given)
                    place.tally.same(f'{arguments} with every second {name} {code} and poll', (got.status, got.out, got.err), due)
        for name, code in (('read', errno.EIO), ('write', errno.ENOSPC), ('open', errno.EMFILE), ('close1', errno.EIO)):
            for number in range(1, AT_MOST):
                got, met = call_with_faults(place, f'{name} {number} {code}', *arguments, given=given)
                if met == b'':
                    place.tally.true(f'{arguments}: {name}', number > 1, 'was never called')
                    break
                what = f'{arguments} with {name} {number} failing'
                place.tally.same(f'{what}: status', got.status, 2)
                # a message that cannot be written is the one thing that cannot be told
                is_told = error[code] in got.err or (name == 'write' and met == b'2')
                place.tally.true(f'{what}: what is said', is_told, repr(got))
