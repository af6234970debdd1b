#!/usr/bin/env python3
"""told.py: tries what the front that the command FRONT runs says of each case of cases/; see run."""
import os
import re
import sys

sys.path.insert(0, os.path.join(os.path.dirname(os.path.realpath(__file__)), '..', 'front'))
from calls import HOME, Tally, front_of_caller, read  # noqa: E402
from facets import imported, is_taken_for_stl, made_of  # noqa: E402
from objects import parsed  # noqa: E402

CASES = f'{HOME}/tests/told/cases'
ENDS = 'the text ends here'


class Told:
    """A case: its sheet, as a text or as a binary STL file, its set if it has one, and what is said of it by its command."""

    def __init__(self, sheet):
        self.sheet = sheet
        self.stem = os.path.splitext(sheet)[0]
        self.patches = f'{self.stem}.patches'
        is_check = os.path.exists(f'{CASES}/{self.patches}')
        named = next((command for command in ('import', 'report') if sheet.startswith(f'{command}-')), None)
        self.command = named or ('check' if is_check else 'list')
        self.due = read(f'{CASES}/{self.stem}.said').decode().split('\n')[:-1]
        self.is_done = ', answer ' not in self.due[0]

    def said_by_rewrite(self, said):
        """What rewrite says: of a binary STL file what it is, or its refusal; of a text only wrong lines and corners without a point."""
        data = read(f'{CASES}/{self.sheet}')
        if not is_taken_for_stl(self.sheet, data):
            return said if ', answer 10,' in self.due[0] or ', answer 4,' in self.due[0] else b''
        text = imported(data)
        return said if text.startswith(b'answer=') else made_of(self.sheet, text) + b'\n'


def is_said(line, due):
    """Whether a line is the due one; where that begins with ~, whether it has the parts that follow, in this order."""
    if not due.startswith('~'):
        return line == due
    at = 0
    for part in due[1:].split(' ... '):
        at = line.find(part, at)
        if at < 0:
            return False
        at += len(part)
    return True


def all_said(lines, due):
    return len(lines) == len(due) and all(is_said(line, part) for line, part in zip(lines, due))


def lines_of(said):
    return said.decode(errors='replace').split('\n')[:-1]


def try_text(front, tally, case):
    """What is said of one case alone. What is said after a refusal is given back, for the other ways of asking."""
    names = [case.sheet, case.patches] if case.command == 'check' else [case.sheet]
    got = front(case.command, *names, cwd=CASES)
    # the words of a report are its output
    is_reported = case.command == 'report' and case.is_done
    lines = lines_of(got.out if is_reported else got.err)
    tally.true(case.stem, all_said(lines, case.due), '\n  ' + '\n  '.join(lines) + '\n  but due is\n  ' + '\n  '.join(case.due))
    tally.same(f'the status of {case.stem}', got.status, 0 if case.is_done else 1)
    if is_reported:
        tally.same(f'what is said besides of {case.stem}', got.err, b'')
        return got.out
    # the answer that is said is the one that is printed
    printed = got.out.decode().split('\n')[0].replace('answer=', '', 1)
    done = got.out == imported(read(f'{CASES}/{case.sheet}')) if case.command == 'import' else printed == '0,0'
    tally.true(f'the answer of {case.stem}', (case.is_done and done) or f', answer {printed}: ' in case.due[0], printed)
    return got.err


def try_together(front, tally, cases, said):
    """All of them in one call, which says the same of each, and with --quiet only what is not done."""
    listed, judged, imports = ([case for case in cases if case.command == command] for command in ('list', 'check', 'import'))
    for command, some in ((['list'], listed), (['check', '--beside'], judged), (['import'], imports)):
        names = [case.sheet for case in some]
        got = front(*command, *names, cwd=CASES)
        tally.same(f'{command} of all', got.err, b''.join(said[case.stem] for case in some))
        got = front(*command, '--quiet', *names, cwd=CASES)
        tally.same(f'{command} --quiet of all', got.err, b''.join(said[case.stem] for case in some if not case.is_done))
        if command == ['import']:
            continue
        got = front(*command, '--json', *names, cwd=CASES)
        tally.same(f'what {command} --json says', got.err, b'')
        objects = parsed(tally, f'{command} --json of all', got.out)
        tally.same(f'how many objects {command} --json prints', len(objects), len(some))
        for case, found in zip(some, objects):
            try_object(tally, case, found, lines_of(said[case.stem]))
    got = front('rewrite', *(case.sheet for case in listed), cwd=CASES)
    tally.same('rewrite of all', got.err, b''.join(case.said_by_rewrite(said[case.stem]) for case in listed))
    try_reports(front, tally, listed + [case for case in cases if case.command == 'report'], said)


def try_reports(front, tally, cases, said):
    """Reports of all of them in one call: the words of each that is done, and of what is refused just what list says of it."""
    names = [case.sheet for case in cases]
    refusals = b''.join(said[case.stem] for case in cases if not case.is_done)
    printed = b''
    for options in ([], ['--quiet']):
        got = front('report', *options, *names, cwd=CASES)
        tally.same(f'what report {options} of all says', (got.status, got.err), (1, refusals))
        printed = got.out
    for case in cases:
        if case.command == 'report' and case.is_done:
            due = b'# ' + case.sheet.encode() + b'\n' + said[case.stem]
            tally.true(f'the report of {case.stem} among others', due in printed, 'is not there')
    got = front('report', '--entries', '--quiet', *names, cwd=CASES)
    tally.same('what report --entries of all says', (got.status, got.err), (1, refusals))
    got = front('report', '--json', *names, cwd=CASES)
    objects = parsed(tally, 'report --json of all', got.out)
    tally.same('report --json of all', (got.status, got.err, len(objects)), (1, b'', len(cases)))
    for case, found in zip(cases, objects):
        try_object(tally, case, found, lines_of(said[case.stem]))


def try_object(tally, case, found, lines):
    """The explanation of an object says what was said in lines."""
    told = found.get('explanation', {})
    if case.is_done:
        tally.same(f'the explanation of {case.stem}', told, {})
        return
    parts = {'said': lines[0].split(': ', 3)[3] if lines[0].count(': ') >= 3 else None}
    shown, facets = [], []
    for line in lines[1:]:
        key, _, text = line.lstrip(' ').partition(': ') if not line.endswith(': ') else (line.strip(' :'), '', '')
        if key in ('due', 'cause'):
            parts[key] = text
        elif key.startswith('facet '):
            number, first, last = re.fullmatch(r'facet (\d+), bytes (\d+) to (\d+)', key).groups()
            facets.append({'file': case.sheet, 'facet': int(number), 'bytes': [int(first), int(last)], 'text': text})
        else:
            shown.append((int(key.split(' ')[1]), text))
    tally.same(f'the facets of {case.stem}', told.get('facets', []), facets)
    tally.same(f'the sentences of {case.stem}', {key: told.get(key) for key in ('said', 'due', 'cause') if key in told}, parts)
    listed = told.get('lines', [])
    tally.same(f'the lines of {case.stem}', [line.get('line') for line in listed], [number for number, _ in shown])
    for line, (_, text) in zip(listed, shown):
        # what is cut, escaped or ended may be told otherwise in a string
        if text.isprintable() and '\\' not in text and '...' not in text and text != ENDS:
            tally.same(f'a line of {case.stem}', line.get('text'), text)


def try_told(front, tally):
    cases = [Told(name) for name in sorted(os.listdir(CASES)) if name.lower().endswith(('.sheet', '.stl'))]
    tally.true('there are cases', len(cases) > 150)
    said = {case.stem: try_text(front, tally, case) for case in cases}
    try_together(front, tally, cases, said)


if __name__ == '__main__':
    of_all = Tally('told')
    try_told(front_of_caller(of_all), of_all)
    sys.exit(of_all.end())
