"""compare.py PAGE: closes every case with every tool, judges what they leave, and makes the page's tables anew, between its two marks."""
import json
import os
import pathlib
import re
import subprocess
import sys

import judge
from cases import cases, sheet_text

WAZELPUNT = os.environ['WAZELPUNT']
FOLDER = pathlib.Path('target/peers')
# What each tool is called in the tables, how it is run, the form of the file it is given and of the one it leaves.
CALLS = {
    'admesh': ('admesh --write-ascii-stl=OUT IN', 'stl', 'stl'),
    'admesh 0.02': ('admesh --nearby --tolerance=0.02 --iterations=1 --fill-holes --normal-directions --write-ascii-stl=OUT IN',
                    'stl', 'stl'),
    'MeshLab': ('xvfb-run -a meshlabserver -i IN -o OUT -s peers/close_holes.mlx', 'off', 'ply'),
    'MeshLab all': ('xvfb-run -a meshlabserver -i IN -o OUT -s peers/close_all_holes.mlx', 'off', 'ply'),
    'CGAL': ('target/peers/fill holes IN OUT', 'off', 'off'),
    'CGAL refined': ('target/peers/fill refined IN OUT', 'off', 'off'),
    'CGAL inner': ('target/peers/fill inner IN OUT', 'off', 'off'),
}
READERS = {'stl': judge.read_stl, 'ply': judge.read_ply, 'off': judge.read_off}
# Loops that stay open, by the names of their states.
STAYING = {'rim': 'rim', 'long': 'long', 'open': 'no cover'}
MARKS = '<!-- tables by peers/run -->', '<!-- end of the tables -->'


def write_off(case, path):
    """With 17 digits, so that a tool that reads binary64 gets the same numbers."""
    lines = ['OFF', f'{len(case.points)} {len(case.triangles)} 0']
    lines += [' '.join(f'{number:.17g}' for number in point) for point in case.points]
    lines += ['3 ' + ' '.join(map(str, triangle)) for triangle in case.triangles]
    path.write_text(''.join(line + '\n' for line in lines))


def write_stl(case, path):
    lines = ['solid case']
    for triangle in case.triangles:
        lines += ['  facet normal  0.00000000E+00  0.00000000E+00  0.00000000E+00', '    outer loop']
        lines += ['      vertex ' + ' '.join(f'{number: .8E}' for number in case.points[corner]) for corner in triangle]
        lines += ['    endloop', '  endfacet']
    path.write_text(''.join(line + '\n' for line in lines + ['endsolid case']))


WRITERS = {'off': write_off, 'stl': write_stl}


def surface(case):
    return [tuple(case.points[corner] for corner in triangle) for triangle in case.triangles]


def ours(case):
    """The two cells of a case closed by ours: what stays open, and what was changed."""
    sheet = FOLDER / f'{case.name}.sheet'
    sheet.write_text(sheet_text(case.points, case.triangles))
    ran = subprocess.run([WAZELPUNT, 'list', '--json', '--patches', str(sheet)], capture_output=True, text=True, timeout=600)
    if not ran.stdout:
        sys.exit(f'peers: {WAZELPUNT} lists nothing for {sheet}: {ran.stderr.strip()}')
    told = json.loads(ran.stdout)
    number, place = told['answer']['number'], told['answer']['place']
    if number:
        return [f'refused: {number} at {place}', 'refused']
    patches = [tuple(case.points[corner] for corner in patch) for each in told['loops'] for patch in each['patches']]
    verdict = judge.judge(surface(case), surface(case) + patches)
    left = {words: sum(each['length'] for each in told['loops'] if each['name'] == name) for name, words in STAYING.items()}
    if sum(left.values()) != verdict.open:
        sys.exit(f'peers: {case.name}: ours tells {sum(left.values())} open edges, and the judge counts {verdict.open}')
    why = ', '.join(f'{words} {count}' for words, count in left.items() if count)
    return [ends_cell(verdict) + (f' ({why})' if why else ''), change_cell(verdict)]


def other(case, tool):
    """The two cells of a case closed by another tool, and how often an edge occurs twice by the numbers of the file it leaves."""
    command, given, left = CALLS[tool]
    stem = f'{case.name}.{tool.replace(" ", "-")}'
    out = FOLDER / f'{stem}.out.{left}'
    out.unlink(missing_ok=True)
    places = {'IN': str(FOLDER / f'{case.name}.{given}'), 'OUT': str(out)}
    words = [re.sub('IN|OUT', lambda word: places[word[0]], word) for word in command.split()]
    ran = subprocess.run(words, stdout=subprocess.PIPE, stderr=subprocess.STDOUT, timeout=600)
    (FOLDER / f'{stem}.log').write_bytes(ran.stdout)
    status = f', status {ran.returncode}' if ran.returncode else ''
    if not out.exists():
        return [f'no file{status}'] * 2, 0
    after = READERS[left](out)
    verdict = judge.judge(surface(case), after)
    ends = ends_cell(verdict) if after or not case.triangles else 'nothing left'
    by_number = judge.loose_ends(judge.read_off(out, by_number=True))[1] if left == 'off' else 0
    return [ends + status, change_cell(verdict)], by_number


def ends_cell(verdict):
    return f'{verdict.open}' + (f', **{verdict.twice} twice**' if verdict.twice else '')


def change_cell(verdict):
    parts = [f'+{verdict.added}'] if verdict.added else []
    parts += [f'-{verdict.deleted}'] if verdict.deleted else []
    parts += [f'{verdict.turned} turned'] if verdict.turned else []
    parts += [counted(verdict.new_points, 'new point')] if verdict.new_points else []
    parts += [counted(verdict.gone, 'point') + ' gone' + (f' ({verdict.how_far:.2g})' if verdict.how_far else '')] if verdict.gone else []
    return ', '.join(parts) or '-'


def counted(count, word):
    return f'{count} {word}' + ('' if count == 1 else 's')


def table(heads, rows):
    lines = ['| ' + ' | '.join(map(str, row)) + ' |' for row in [heads] + rows]
    return lines[:1] + ['|' + '---|' * len(heads)] + lines[1:] + ['']


def said_by(*words):
    return subprocess.run(words, capture_output=True, text=True, check=True).stdout.strip()


def versions():
    """What was run, and how, as a list of lines."""
    packages = {name: said_by('dpkg-query', '-W', '-f', '${Version}', name) for name in ('admesh', 'meshlab', 'libcgal-dev', 'g++')}
    system = dict(line.split('=', 1) for line in pathlib.Path('/etc/os-release').read_text().splitlines() if '=' in line)
    rows = [['ours', said_by(WAZELPUNT, '--version').splitlines()[0], '`./wazelpunt list --json --patches IN.sheet`']]
    for tool, (command, given, left) in CALLS.items():
        package = {'a': 'admesh', 'M': 'meshlab', 'C': 'libcgal-dev'}[tool[0]]
        shown = command.replace('OUT', 'OUT.' + left).replace('IN', 'IN.' + given)
        rows += [[tool, f'{package} {packages[package]}', f'`{shown}`']]
    lines = table(['tool', f'version, of {system["PRETTY_NAME"][1:-1]} on {os.uname().machine}', 'command'], rows)
    return lines + [f'`target/peers/fill` is made by `{os.environ["COMPILE"]}`, with g++ {packages["g++"]}.', '']


def write_files(case):
    """The files that the tools are given. What cannot be read back would not be the case."""
    for ending, write in WRITERS.items():
        given = FOLDER / f'{case.name}.{ending}'
        write(case, given)
        if READERS[ending](given) != surface(case):
            sys.exit(f'peers: {given} does not read back as the case')


def tables():
    told, ends, changes, left_out, own_twice = [], [], [], [], 0
    for case in cases(pathlib.Path('examples')):
        if any(case.name == row[0] for row in told):
            sys.exit(f'peers: two cases are called {case.name}')
        if len(set(case.points)) < len(case.points):
            left_out += [f'`{case.name}` ({case.about}; ours: {ours(case)[0]})']
            continue
        write_files(case)
        told += [[case.name, case.about, len(case.points), len(case.triangles), *judge.loose_ends(surface(case))]]
        cells = [ours(case)]
        for tool in CALLS:
            pair, by_number = other(case, tool)
            cells += [pair]
            own_twice += by_number
        ends += [[case.name] + [pair[0] for pair in cells]]
        changes += [[case.name] + [pair[1] for pair in cells]]
        print(f'peers: {case.name}', flush=True)
    heads = ['case', 'ours', *CALLS]
    lines = ['## The cases', '']
    lines += table(['case', 'what it is', 'points', 'triangles', 'open edges', 'edges twice'], told)
    alike = '; '.join(left_out) or 'none'
    lines += [f'Left out, since points of it lie on one another and coordinates cannot tell them apart: {alike}.', '']
    lines += ['## Edges left open, and edges that occur twice', ''] + table(heads, ends)
    lines += [f'By the vertex numbers of the files that CGAL leaves, instead of coordinates, {own_twice or "no"} edges occur twice.', '']
    lines += ['## What was changed', ''] + table(heads, changes)
    return lines + ['## Versions and commands', ''] + versions()


def main():
    if not judge.tried():
        sys.exit('peers: the judge does not see what was done to a tetrahedron')
    page = pathlib.Path(sys.argv[1])
    before, mark, rest = page.read_text().partition(MARKS[0])
    _, end, after = rest.partition(MARKS[1])
    if not mark or not end:
        sys.exit(f'peers: {page} lacks the marks of the tables')
    page.write_text(before + mark + '\n\n' + '\n'.join(tables()) + '\n' + end + after)


main()
