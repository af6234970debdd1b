#!/usr/bin/env python3
"""Counts what there is to believe: the definitions of specs/ that promises rest on, by the names that each definition names, and their lines
without comments, blank lines and imports. Prints 'NAME DEFINITIONS LINES', a group's names counted where no group before has them, then
FILE LINES for each file with --files. It fails if a promise rests on a definition of specs/Workings/, which are there for the code alone."""
import collections
import pathlib
import re
import sys

# The groups of promises, each with its roots: crate/File.name, or crate/File for all of a file.
GROUPS = {
    'entry-points': ['grid_coordinate/Places.Places', 'survey_rules/Outcome.survey_of', 'patch_surface/Outcome.Patches',
                     'chart_surface/Outcome.Charts', 'chart_rules/Report', 'judge_surface/Outcome.Judges', 'text_read/Outcome.Reads',
                     'text_write/Outcome.writes', 'text_read_set/Outcome.ReadsSet',
                     'stl_rules/Reading.reads_file', 'stl_rules/Reading.size_refusal', 'stl_facets/Facets'],
    'programs': ['program_list/Lists.Prints', 'program_judge/Hears', 'program_rewrite/Rewriting', 'program_import/Importing',
                 'program_chart/Charting', 'program_roll/Sections', 'program_lines/Printout'],
    'demands': ['demands/Answers', 'demands/Grid', 'demands/Loops', 'demands/Records', 'demands/Pieces', 'demands/Report', 'demands/Sets', 'demands/Closing', 'demands/Texts'],
}

IMPORT = re.compile(r'\s*(?:pub )?use Rattle\.(\w+)\.specs\.([\w.]+?)(?:\.\{(.*)\}| as (\S+))$')
HEAD = re.compile(r'( *)(?:unfoldable |abbrev )?(?:pub )?(record |data )?([^\s(:]+) (?:: |\()')


class File:
    """The definitions of one file, each with its lines, and where the names that it imports come from."""

    def __init__(self, path):
        self.path, self.lines, self.origin, self.whole = path, collections.defaultdict(list), {}, {}
        name, indent, fields = None, 0, False
        for line in path.read_text().split('\n'):
            if found := IMPORT.match(line):
                crate, module, names, alias = found.groups()
                for each in (names or '').split(','):
                    self.origin[each.strip()] = (crate, module)
                if alias:
                    self.whole[alias] = (crate, module)
            if line.startswith('module '):
                name, fields = None, False
            if not line.strip() or re.match(r'\s*(--|(pub )?use |pub mod |module |unfolding |open |infix)', line):
                continue
            found = HEAD.match(line)
            # deeper lines of a record or a data type are its fields and its constructors
            if found and not (fields and len(found[1]) > indent) and (found[2] or ' : ' in line):
                name, indent, fields = found[3], len(found[1]), bool(found[2])
            if name:
                self.lines[name].append(line)


def main():
    files = {}
    for path in pathlib.Path('crates').glob('*/specs/**/*.antt'):
        crate, module = path.parts[1], '.'.join(path.parts[3:])[:-len('.antt')]
        files[crate, module] = File(path)

    def named_by(place):
        """The definitions that one of them names."""
        file = files[place[:2]]
        for line in file.lines[place[2]]:
            for word in re.split(r'[\s(){},;]+', line):
                front, _, back = word.partition('.')
                for at, name in ((place[:2], word), (file.origin.get(word), word), (file.whole.get(front), back)):
                    if at in files and name in files[at].lines:
                        yield (*at, name)
                        break

    seen, wrong = set(), 0
    per_file = collections.Counter()
    for group, roots in GROUPS.items():
        todo = []
        for root in roots:
            crate, _, rest = root.partition('/')
            module, _, name = rest.partition('.')
            known = files[crate, module].lines
            if name and name not in known:
                sys.exit(f'belief: no definition {root}')
            todo += [(crate, module, each) for each in ([name] if name else known)]
        new = set()
        while todo:
            place = todo.pop()
            if place in seen or place in new:
                continue
            new.add(place)
            if place[1].startswith('Workings.'):
                wrong += 1
                print(f'belief: {group} rests on {".".join(place)}, which is there for the code')
            todo += named_by(place)
        for place in new:
            per_file[str(files[place[:2]].path)] += len(files[place[:2]].lines[place[2]])
        print(group, len(new), sum(len(files[p[:2]].lines[p[2]]) for p in new))
        seen |= new
    if '--files' in sys.argv:
        for path, lines in sorted(per_file.items()):
            print(path, lines)
    sys.exit(wrong > 0)


main()
