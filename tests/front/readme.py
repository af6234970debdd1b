"""The calls that README.md shows, each with what it prints and says."""
import os
import shlex

from calls import HOME, read, write

CALL = '$ ./wazelpunt '


def shown_calls():
    """Each call in an indented block, as its words, with the lines that follow it there."""
    calls = []
    is_inside = False
    for line in read(f'{HOME}/README.md').decode().splitlines():
        is_call = line.startswith(f'    {CALL}')
        is_inside = is_call or (is_inside and line.startswith('    '))
        if is_call:
            calls.append((shlex.split(line[4 + len(CALL):]), []))
        elif is_inside:
            calls[-1][1].append(line[4:] + '\n')
    return calls


def try_readme(front, tally, room):
    """In a folder with the examples, and with the sheet whose third line is wrong: its first word has an upper-case digit."""
    folder = os.path.join(room, 'readme')
    os.mkdir(folder)
    os.symlink(f'{HOME}/examples', f'{folder}/examples')
    lines = read(f'{HOME}/examples/plate.sheet').split(b'\n')
    lines[2] = lines[2].replace(b'f', b'F', 1)
    write(f'{folder}/bad.sheet', b'\n'.join(lines))
    calls = shown_calls()
    tally.true('README.md shows calls', calls != [])
    for words, lines in calls:
        got = front(*words, cwd=folder)
        tally.same(f'README.md, {shlex.join(words)}', (got.out + got.err).decode(), ''.join(lines))
