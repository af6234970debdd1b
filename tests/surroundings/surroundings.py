#!/usr/bin/env python3
"""surroundings.py ROOM: tries the fronts that the commands FRONT, SANITIZED and FAULTY run in odd surroundings; see run."""
import os
import shutil
import signal
import sys
import time

TESTS = os.path.join(os.path.dirname(os.path.realpath(__file__)), '..')
sys.path[:0] = [os.path.join(TESTS, 'front'), os.path.join(TESTS, 'told')]
from calls import Front, Tally, front_of_caller  # noqa: E402
from changed import try_changed  # noqa: E402
from faults import try_faults  # noqa: E402
from objects import try_objects  # noqa: E402
from odd import try_odd, try_stack  # noqa: E402
from report import try_report  # noqa: E402
from stl import try_files  # noqa: E402
from told import try_told  # noqa: E402


def copied(tally, command, folder):
    """A front that everybody may run: its file, the last word of the command, is copied."""
    os.makedirs(folder, exist_ok=True)
    own = os.path.join(folder, os.path.basename(command[-1]))
    shutil.copy(command[-1], own)
    os.chmod(own, 0o755)
    return Front(tally, command[:-1] + [own])


def try_both(fronts, tally, room, tell):
    """The front over the archive, and the one with the sanitizers: each in odd surroundings and on changed texts. The second stands on the
    reference, so what both say of the same texts has to be the same."""
    results = []
    for name in ('FRONT', 'SANITIZED'):
        os.mkdir(f'{room}/{name}')
        place = try_odd(fronts[name], tally, f'{room}/{name}/place')
        if name == 'FRONT':
            try_stack(place, f'{room}/made')
        tell(f'odd surroundings, {name.lower()}')
        results.append(try_changed(fronts[name], tally, f'{room}/{name}', 300, 1))
        tell(f'changed texts, {name.lower()}')
    for number, pair in enumerate(zip(*results)):
        tally.true(f'result {number} of changed texts', pair[0] == pair[1], 'is not that of the front over the reference')
    return place


def main(room):
    tally = Tally('surroundings')
    os.chmod(room, 0o755)
    # who runs this in the background may have had INT ignored, and the fronts would have that from here; of a handler they have nothing
    signal.signal(signal.SIGINT, signal.default_int_handler)
    begun = time.monotonic()

    def tell(what):
        print(f'surroundings: {what}: {tally.tried} tried, {tally.wrong} wrong so far, {time.monotonic() - begun:.0f} s', flush=True)
    fronts = {name: copied(tally, front_of_caller(tally, name).command, f'{room}/bin') for name in ('FRONT', 'SANITIZED', 'FAULTY')}
    place = try_both(fronts, tally, room, tell)
    try_told(fronts['SANITIZED'], tally)
    try_objects(fronts['SANITIZED'], tally, f'{room}/SANITIZED')
    tell('what is told and the objects, sanitized')
    # it stands on the reference, which is slow on full sheets
    try_report(fronts['SANITIZED'], tally, f'{room}/SANITIZED', with_made=False)
    tell('reports, sanitized')
    try_files(fronts['SANITIZED'], tally, f'{room}/SANITIZED')
    tell('binary STL files, sanitized')
    place.front = fronts['FAULTY']
    try_faults(place)
    tell('calls that fail')
    return tally.end()


if __name__ == '__main__':
    sys.exit(main(sys.argv[1]))
