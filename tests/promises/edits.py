#!/usr/bin/env python3
"""Each function that docs/PROMISES.md has a row of is there, and each wrong program that it names: those in the last column of its tables in a
crate of their row, or in the one that is said; and every other word of docs/PROMISES.md and docs/TESTING.md that looks like the name of an edit
is one, or stands in the code, or within code quotes in definitions or laws; and each law that they name there is one. Each test that the two
pages name is there, and docs/TESTING.md names each and tells how many edits there are."""
import os
import pathlib
import re
import sys

os.chdir(pathlib.Path(__file__).resolve().parents[2])
page = pathlib.Path('docs/PROMISES.md').read_text()
testing = pathlib.Path('docs/TESTING.md').read_text()
wrong = 0


def say(words):
    global wrong
    wrong += 1
    print(f'promises: {words}')


crates = {path.name for path in pathlib.Path('crates').iterdir()}
edits = {}
for path in [*pathlib.Path('crates').glob('*/must-fail/*.edit'), *pathlib.Path('slips').glob('*/*.edit')]:
    edits.setdefault(path.parts[1], set()).add(path.stem)
# The crates that have a public function, by its name and by that with its type; and all words of the code, of what C includes, and of
# definitions and laws.
functions, words, laws = {}, set(crates).union(*edits.values()), set()
for part in ('specs', 'proofs'):
    for path in pathlib.Path('crates').glob(f'*/{part}/**/*.antt'):
        laws.update(re.findall(r'\b[a-z]\w*', re.sub(r'--.*', '', path.read_text())))
for path in pathlib.Path('include').glob('*.h'):
    words.update(re.findall(r'\b[a-z]\w*', path.read_text()))
for path in pathlib.Path('crates').glob('*/src/*.rt'):
    text = re.sub(r'//.*', '', path.read_text())
    words.update(re.findall(r'\b[a-z]\w*', text))
    owner, of_trait = '', False
    for line in text.splitlines():
        if block := re.match(r'impl(?:<.*?>)? (?:(\S.*) for )?(\w+)(?:<.*?>)? \{|\}', line):
            owner, of_trait = (f'{block[2]}::' if block[2] else ''), bool(block[1])
        if found := re.match(r' *(pub )?(?:extern "C" )?fn (\w+)', line):
            if found[1] or of_trait:
                functions.setdefault(owner + found[2], set()).add(path.parts[1])


def tables(text, *lasts):
    """The rows of the tables whose last heading is one of `lasts`: what stands in the first cell and in the last."""
    ours = False
    for line in text.splitlines():
        cells = [cell.strip() for cell in line.split('|')[1:-1]]
        if not cells:
            ours = False
        elif cells[-1] in lasts:
            ours = True
        elif ours and not re.fullmatch('-+', cells[-1]):
            yield cells[0], cells[-1]


# The column "must-fail": names, each of an edit of the row's crates, or after `of CRATE` of that one, up to a semicolon; in brackets behind a name
# may stand another crate that has it.
named = 0
TOKEN = re.compile(r'those of `(?P<others>\w+)`|of `(?P<crate>\w+)`|\((?P<aside>[^)]*)\)|`tests/\w+`|(?P<end>;)|,|\band\b|(?P<name>\S+?)(?=[,;\s]|$)')
for first, last in tables(page, 'must-fail'):
    row, found = set(), []
    for name in re.findall(r'`([^`]+)`', first):
        crate, _, function = name.partition('::')
        there = functions.get(name, set()) or functions.get(function, set()) & {crate}
        row |= there
        if not there:
            say(f'docs/PROMISES.md has a row of {name}, which is no public function')
    here = row
    for token in TOKEN.finditer(last):
        if token['crate'] or token['end']:
            here = {token['crate']} if token['crate'] else row
        elif token['aside'] and found:
            found[-1][1] |= set(re.findall(r'in `(\w+)`', token['aside']))
        elif token['name']:
            found.append([token['name'], set(here)])
        elif token['others'] and token['others'] not in crates:
            say(f'{first}: no crate {token["others"]}')
    for name, there in found:
        named += 1
        if not any(name in edits.get(crate, ()) for crate in there):
            say(f'{first}: no edit {name} of {" or ".join(sorted(there)) or "any crate"}')

# The table of wrong programs: one crate or several, then the names of edits that each of them has.
for _, last in tables(page, 'is refused as'):
    here, fresh = [], False
    for crate, name in re.findall(r'`(\w+)`|\b([a-z0-9]+(?:_[a-z0-9]+)+)\b', last):
        if crate:
            here, fresh = ([*here, crate] if fresh else [crate]), True
            continue
        fresh = False
        named += 1
        for each in here or ['']:
            if name not in edits.get(each, ()):
                say(f'wrong programs: no edit {name} of {each or "any crate"}')

for where, text in (('docs/PROMISES.md', page), ('docs/TESTING.md', testing)):
    quoted = ' '.join(re.findall(r'`[^`\n]*`', text))
    for part, there in ((quoted, words | laws), (re.sub(r'`[^`\n]*`', '``', text), words)):
        for name in sorted(set(re.findall(r'(?<![\w/.-])[a-z0-9]+(?:_[a-z0-9]+)+(?![\w/-]|\.\w)', part)) - there):
            say(f'{where} names {name}, which is neither an edit nor in the code')
    for name in sorted(set(re.findall(r"\b(?:Theorems|Laws(?:\.\w+)*)\.([a-z][\w']*)", quoted)) - laws):
        say(f'{where} names the law {name}, which is not there')
    for name in sorted(set(re.findall(r'\btests/(\w+)(?:/run)?\b(?!/)', text)) - {'NAME'}):
        if not pathlib.Path('tests', name, 'run').exists():
            say(f'{where} names tests/{name}, which is not there or has no `run`')
for where, pattern in (("the crates' `must-fail/`", 'crates/*/must-fail/*.edit'), ('`slips/`', 'slips/*/*.edit')):
    there = len(list(pathlib.Path().glob(pattern)))
    if f'the {there} edits of {where}' not in testing:
        say(f'docs/TESTING.md does not tell of the {there} edits of {where}')
tests = sorted(path.parts[1] for path in pathlib.Path('tests').glob('*/run'))
for name in tests:
    if f'`tests/{name}/run`' not in testing:
        say(f'docs/TESTING.md does not name tests/{name}/run')

print(f'promises: {named} names of edits and {len(tests)} tests, {wrong} wrong')
sys.exit(wrong > 0 or named < 150 or len(tests) < 10)
