#!/usr/bin/env python3
"""Spells the repository's own definitions and lemmas as today's library does: words in snake case, facts and types in camel case; and says in
contracts `x.old`, `x.new` and `x.now` for what `was x` and `left x` said.

usage: tools/respell.py [--say]        at the top of the repository, once, after the library's own names were turned; --say writes nothing

A name is respelled if a file of specs/ or proofs/ declares or binds it. Functions of src/, what C links and texts keep their names. Two names
that would fall together are told apart by KEEP below; a pair that is not there stops the script.
"""

import collections
import os
import re
import sys

ROOT = os.path.dirname(os.path.dirname(os.path.abspath(__file__)))
WORD = re.compile(r"[A-Za-z_𝓦][A-Za-z0-9_'′·₀-₉-]*")
PLAIN = re.compile(r"[A-Za-z_][A-Za-z0-9_'′·₀-₉-]*")
PIECE = re.compile(r"--(?:[^\n]*)|//[^\n]*|\"(?:[^\"\\]|\\.)*\"|[A-Za-z_][A-Za-z0-9_'′·₀-₉-]*")
DECLARED = re.compile(r"\s*(?:abbrev |unfoldable |pub |private )*([A-Za-z_][A-Za-z0-9_'′₀-₉-]*) :(?: |$)")
TYPED = re.compile(r"\s*(?:pub )?(?:record|data) ([A-Za-z_][A-Za-z0-9_'′-]*)")
BOUND = re.compile(r"\bmodule ([A-Za-z_][A-Za-z0-9_'′-]*)")

# What a name becomes whose plain spelling another one has.
KEEP = {
    "bow-tie": "bow_tie_lem",
    "corners-in": "corners_inside",
    "corners-of": "corners_of_lem",
    "gap-x": "gap_x_lem",
    "gap-y": "gap_y_lem",
    "gap-z": "gap_z_lem",
    "has-stamp": "has_stamp_lem",
    "is-rim": "is_a_rim",
    "not-read": "not_read_lem",
    "open-mark": "open_mark_lem",
    "read-from": "read_from_lem",
    "record-in": "record_inside",
    "ring-at": "ring_at_lem",
    "set-read": "set_read_lem",
    "states-of": "states_of_lem",
    "weight-of": "weight_of_lem",
    "weights-in": "weights_inside",
    "wrong-line": "wrong_line_lem",
    "answer-of": "answer_of_lem",
    "in-float": "in_float_lem",
    "is-nan": "is_nan_lem",
    "of-int": "of_int_lem",
    "loops-of": "loops_of_lem",
    "place-of": "place_of_lem",
    "run-at": "run_at_lem",
    "runs_Here": "runs_here",
}

# Pairs that may share a spelling: a field and a definition, or two of which no file sees both.
ALIKE = set("by_one by_two by_way corner_count facet_at few_corners kept_in left_over no_number state_count too_far word_count".split())


def files(ends):
    for top in ("crates", "slips"):
        for folder, inner, names in os.walk(os.path.join(ROOT, top)):
            inner[:] = sorted(one for one in inner if one != "out")
            for name in sorted(names):
                if name.endswith(ends):
                    yield os.path.join(folder, name)


def read(path):
    with open(path, encoding="utf-8") as it:
        return it.read()


def snake(name):
    if name in KEEP:
        return KEEP[name]
    parts = name.replace("′", "'").split("-")
    if len(parts) > 1:
        parts = [one[:1].lower() + one[1:] for one in parts]
    out = "_".join(parts)
    return re.sub(r"([a-z0-9])([A-Z]+)", lambda it: it.group(1) + "_" + it.group(2).lower(), out)


def is_old(name):
    if "-" in name:
        return True
    return bool(re.match(r"[a-z].*[A-Z]", name)) or "′" in name


def bare(line):
    return re.sub(r"--.*$", "", line)


def own_names():
    """Returns the names that the files of antt declare or bind, with how often, and the words that come from elsewhere."""
    own = collections.Counter()
    foreign = set()
    for path in files(".antt"):
        text = read(path)
        for line in text.split("\n"):
            line = bare(line)
            used = re.match(r"\s*(?:pub )?use (\S+?)(?:\.\{(.*)\})?(?: as (\S+))?\s*$", line)
            if used:
                if used.group(3):
                    own[used.group(3)] += 1
                elif used.group(2) and not re.match(r"Rattle\.(?!std)", used.group(1)):
                    for one in used.group(2).split(","):
                        foreign.add(one.strip().split(" as ")[0])
                if used.group(2):
                    for one in used.group(2).split(","):
                        if " as " in one:
                            own[one.split(" as ")[1].strip()] += 1
                continue
            for form in (DECLARED, TYPED):
                it = form.match(line)
                if it:
                    own[it.group(1)] += 1
            for it in BOUND.finditer(line):
                own[it.group(1)] += 1
            # what a line binds: by let, λ, an argument of a clause, a parameter of a section or of a type
            for it in re.finditer(r"\blet ([A-Za-z_][\w'′₀-₉-]*)", line):
                own[it.group(1)] += 1
            for it in re.finditer(r"λ ([^.]*)\.", line):
                for one in WORD.findall(it.group(1)):
                    own[one] += 1
            for it in re.finditer(r"[({]([A-Za-z_][\w'′₀-₉ -]*) : ", line):
                for one in it.group(1).split():
                    own[one] += 1
            for it in re.finditer(r"(?:record \{|[;{]|^)\s*([A-Za-z_][\w'′₀-₉-]*)(?: : [^=;]*)? = ", line):
                own[it.group(1)] += 1
            # the arguments of a definition by clauses
            head = line.split(" = ")[0] if " = " in line else (line[:-2] if line.rstrip().endswith(" =") else "")
            if head and re.match(r"\s*[A-Za-z_]", head) and ":" not in head:
                for one in WORD.findall(head)[1:]:
                    own[one] += 1
    return own, foreign


def main(argv):
    say = "--say" in argv
    own, foreign = own_names()
    goals = re.compile(r"(?:returns-\d|invariant-loop|decreases-loop|loop-(?:again|test))")
    turned = {}
    for name in own:
        if is_old(name) and name not in foreign and not goals.match(name):
            turned[name] = snake(name)
    # two that fall together, and one that falls on a word in use
    back = collections.defaultdict(set)
    for name, new in turned.items():
        back[new].add(name)
    bad = 0
    for new, names in sorted(back.items()):
        if new in ALIKE:
            continue
        if len(names) > 1:
            print("together:", new, sorted(names))
            bad += 1
        elif new in own:
            print("in use:", new, sorted(names), own[new])
            bad += 1
        elif new in foreign:
            print("foreign:", new, sorted(names))
            bad += 1
    print(len(turned), "names,", bad, "that fall together")
    if say or bad:
        return turned
    for path in files((".antt", ".rt", ".edit")):
        text = read(path)
        new = respelled(text, turned)
        if path.endswith(".rt"):
            new = lent(new)
        if new != text:
            with open(path, "w", encoding="utf-8") as it:
                it.write(new)
    for path in pages():
        text = read(path)
        new = re.sub(r"`[^`\n]*`", lambda it: PLAIN.sub(lambda one: turned.get(one.group(0), one.group(0)), it.group(0)), text)
        if new != text:
            with open(path, "w", encoding="utf-8") as it:
                it.write(new)
    return turned


def pages():
    """Yields the pages for people, which name a definition between backticks."""
    yield os.path.join(ROOT, "README.md")
    yield os.path.join(ROOT, "CHANGELOG.md")
    for folder, inner, names in os.walk(os.path.join(ROOT, "docs")):
        for name in sorted(names):
            if name.endswith(".md") and name != "SCOPE.md":
                yield os.path.join(folder, name)


def respelled(text, turned):
    """Returns the text with each name turned; in a comment and in a string only between backticks."""
    word = lambda it: turned.get(it.group(0), it.group(0))
    quoted = lambda it: PLAIN.sub(word, it.group(0))

    def piece(it):
        found = it.group(0)
        if found.startswith(("--", "//")):
            return re.sub(r"`[^`]*`", quoted, found)
        if found.startswith('"'):
            return found
        return word(it)

    return PIECE.sub(piece, text)


def lent(text):
    """Returns the source with `was x`, `left x` in its clauses as `x.old`, `x.new` of a `&mut`, and `x.now` of a `&`."""
    out = []
    end = 0
    for head in re.finditer(r"(?m)^[ ]*(?:pub )?(?:unsafe )?(?:extern \"C\" )?fn \w+(?:<[^>]*>)?\(", text):
        depth = 1
        at = head.end()
        while depth:
            depth += {"(": 1, ")": -1}.get(text[at], 0)
            at += 1
        told = text[head.end() : at - 1]
        kinds = {it.group(1): "&mut" if it.group(2) else "&" for it in re.finditer(r"(\w+): &(?:'\w+ )?(mut )?", told)}
        it = re.match(r"\s*&(?:'\w+ )?(mut )?self\b", told)
        if it:
            kinds["self"] = "&mut" if it.group(1) else "&"
        body = re.compile(r"(?m)^[ ]*\{$").search(text, at)
        if not body or end > head.start() or text[at : text.index("\n", at)].endswith("{"):
            continue

        def said(it):
            kind = kinds.get(it.group(3))
            if kind is None:
                return it.group(0)
            field = {"was": "old", "left": "new"}[it.group(2)] if kind == "&mut" else "now"
            path = it.group(3) + "." + field
            return path if it.group(1) and it.group(4) else it.group(1) + path + it.group(4)

        out.append(text[end:at])
        out.append(re.sub(r"(\(?)\b(was|left) (\w+)(\)?)", said, text[at : body.start()]))
        end = body.start()
    out.append(text[end:])
    new = "".join(out)
    return re.sub(r"(?m)^ghost use Rattle\.base_types\.specs\.Lent\.\{was, left\};\n|^ghost use Rattle\.base_types\.specs\.Lent\.\{(was|left)\};\n", "", new)


if __name__ == "__main__":
    main(sys.argv[1:])
