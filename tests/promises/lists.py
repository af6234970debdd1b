#!/usr/bin/env python3
"""The two lists of docs/PROMISES.md, section "Exceptions", held against the sources: the public functions that ask for something (`requires`),
and the lent storage whose final contents a contract leaves open. Whether a contract names what a `&mut` parameter holds in the end is read off:
it says `x.new` or it does not. Whether it says all of it cannot be; so the page has a table of scratch, by the parameters' names, and each
public function that is lent a parameter of such a name stands there; of any other the contract has to say `.new`.
  lists.py            tells what the page has that is not so, and what it has not
  lists.py --print    prints both lists as the page shall have them; the words, and what is said in whole, are taken from the page
  lists.py --write    puts them there; a name that is new gets a row with a question mark for its words"""
import os
import pathlib
import re
import sys

PAGE = pathlib.Path('docs/PROMISES.md')
CLOSING = {'(': ')', '{': '}'}
# A clause may have a star and a name; what begins with none of the words is the body.
CLAUSE = re.compile(r'[^{]*?\b(?:(requires|ensures|ghost)\b[\s*]*(?:\w+\s*)?)?\{')


def behind(text, at):
    """The place behind the bracket that closes the one at `at`."""
    depth = 0
    for place in range(at, len(text)):
        depth += (text[place] == text[at]) - (text[place] == CLOSING[text[at]])
        if depth == 0:
            return place + 1
    sys.exit('lists: a bracket that is not closed')


def functions_of(crate):
    """Of each public function of a crate: its name, whether it asks for something, and of each `&mut` parameter whether `.new` says it."""
    for path in sorted(pathlib.Path('crates', crate, 'src').rglob('*.rt')):
        text = re.sub(r'//.*', '', path.read_text())
        blocks = [(found[1], found.start(), behind(text, found.end() - 1)) for found in re.finditer(r'^impl(?:<[^>{]*>)? (\w+)(?:<[^>{]*>)? \{', text, re.M)]
        for found in re.finditer(r'^ *pub (?:extern "C" )?fn (\w+)[^(]*', text, re.M):
            owner = ''.join(f'{name}::' for name, start, end in blocks if start < found.start() < end)
            ends = behind(text, found.end())
            lent = [name or 'self' for name in re.findall(r"(?:(\w+)\s*:\s*)?&\s*(?:'\w+\s+)?mut\b", text[found.end():ends])]
            said = {'requires': '', 'ensures': '', 'ghost': ''}
            while clause := CLAUSE.match(text, ends):
                ends = behind(text, clause.end() - 1)
                if not clause[1]:
                    break
                said[clause[1]] += text[clause.end():ends]
            left = {each: bool(re.search(rf'(?<![\w.])«?{each}»?\.new\b', said['ensures'])) for each in lent}
            yield f'{crate}::{owner}{found[1]}', bool(said['requires']), left


def read_sources():
    """The public functions of each stage, in the order of crates.txt and of the sources."""
    stages, stage = {}, 'no stage'
    for line in pathlib.Path('crates.txt').read_text().splitlines():
        if heading := re.match(r'# ([a-z]+): ', line):
            stage = heading[1]
        elif line.strip() and not line.startswith('#'):
            stages.setdefault(stage, []).append(line.partition(':')[0])
    return {stage: [each for crate in crates for each in functions_of(crate)] for stage, crates in stages.items()}


def table(text, first):
    """The rows of the table whose first heading is `first`, each a list of its cells."""
    found = re.search(rf'^\| {first} \|.*\n\|[-|]+\|\n((?:\|.*\n?)*)', text, re.M)
    return [[cell.strip() for cell in row.strip().split('|')[1:-1]] for row in found[1].splitlines()] if found else []


def named(cell):
    return re.findall(r'`([^`]+)`', cell)


def listed(names):
    return ', '.join(f'`{name}`' for name in names)


os.chdir(pathlib.Path(__file__).resolve().parents[2])
page = PAGE.read_text()
section = re.search(r'^## Exceptions\n(.*?)(?=^## |\Z)', page, re.M | re.S)
section = section[1] if section else ''
entries = re.search(r'^## Entry points\n(.*?)(?=^## |\Z)', page, re.M | re.S)
stages = read_sources()
functions = [each for every in stages.values() for each in every]

# What the sources have: who asks, by stage; and by a parameter's name who does not say what it leaves there, and who does.
asking = {stage: [name for name, asks, _ in every if asks] for stage, every in stages.items()}
asking = {stage: names for stage, names in asking.items() if names}
silent, saying = {}, {}
for name, _, left in functions:
    for each, is_said in left.items():
        (saying if is_said else silent).setdefault(each, []).append(name)

# What the page has. A row of scratch is of one name or of several that are lent to the same functions.
paged = {stage: named(cell) for stage, cell in table(section, 'stage')}
scratch = [(named(names), words, named(unsaid), named(part), named(whole)) for names, words, unsaid, part, whole in table(section, 'scratch')]

def tables():
    """Both lists as the page shall have them."""
    first = '| stage | functions that ask for something |\n|---|---|\n'
    first += ''.join(f'| {stage} | {listed(names)} |\n' for stage, names in asking.items())
    rows = [(name, words, whole) for names, words, _, _, whole in scratch for name in names]
    rows += [(name, '?', []) for name in silent if name not in {row[0] for row in rows}]
    merged = {}
    for name, words, whole in rows:
        said = saying.get(name, [])
        cells = [silent.get(name, []), [each for each in said if each not in whole], [each for each in said if each in whole]]
        if name in silent or said:
            merged.setdefault((words, *map(listed, cells)), []).append(name)
    second = '| scratch | what it is for | not said at all | said in part | said in whole |\n|---|---|---|---|---|\n'
    second += ''.join('| ' + ' | '.join([listed(names), *cells]) + ' |\n' for cells, names in merged.items())
    return re.sub(' +', ' ', first), re.sub(' +', ' ', second)


if sys.argv[1:] == ['--print']:
    print(*tables(), sep='\n', end='')
    sys.exit()
if sys.argv[1:] == ['--write']:
    for made in tables():
        heading = re.escape(made.partition('\n')[0])
        page = re.sub(rf'^{heading}\n(?:\|.*\n)*', lambda _: made, page, flags=re.M)
    PAGE.write_text(page)
    sys.exit()

wrong = 0


def say(words):
    global wrong
    wrong += 1
    print(f'promises: {words}')


def compare(what, there, told):
    """The same names, each once."""
    for name in sorted(set(there) - set(told)):
        say(f'{what} does not name {name}')
    for name in sorted(set(told) - set(there)):
        say(f'{what} names {name}, of which it is not so')
    if len(set(told)) < len(told):
        say(f'{what} names a function twice')


for stage in sorted(asking.keys() | paged.keys()):
    compare(f'the list of functions that ask for something, {stage},', asking.get(stage, []), paged.get(stage, []))
for name in named(' '.join(row[0] for row in table(entries[1] if entries else '', 'function'))):
    for each, asks, _ in functions:
        if asks and (each == name or each.endswith(f'::{name}')):
            say(f'the entry point {name} asks for something')

for names, _, unsaid, part, whole in scratch:
    for name in names:
        compare(f'the row of scratch of {name}, not said at all,', silent.get(name, []), unsaid)
        compare(f'the row of scratch of {name}, said in part or in whole,', saying.get(name, []), part + whole)
rows = [name for names, *_ in scratch for name in names]
if len(set(rows)) < len(rows):
    say('a name has two rows of scratch')
for name in sorted(silent.keys() - set(rows)):
    say(f'{", ".join(silent[name])}: the contract does not say what is left in {name}, and it is no scratch of docs/PROMISES.md')

count, lent = sum(map(len, asking.values())), sum(len(left) for *_, left in functions)
print(f'promises: {count} functions that ask for something, {lent} lent parameters, {len(rows)} names of scratch, {wrong} wrong')
sys.exit(wrong > 0 or count < 40 or len(rows) < 10)
