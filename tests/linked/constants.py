#!/usr/bin/env python3
"""constants.py PRINTED: holds include/wazelpunt.h, of which header.c printed the constants, against the sources that it stands for:

- the limits and lengths, computed from the constants of base_types, chart_rules, program_lines, program_roll and program_chart, or as
  stl_facets defines them, and of them how many numbers each lent buffer needs;
- the answers, states and kinds of entries, by their names and numbers in base_answers, base_types and chart_rules;
- the record of a loop, number by number in its order, against the struct of patch_records, and the entry of a report against that of
  chart_rules;
- the declarations, against the signatures of the exported functions in the crate wazelpunt_c, and what else the header has, by name;
- how much stack each function takes, against what docs/SPEED.md says was measured;
- the constants and sentences that python/wazelpunt.py has again.
"""

import ast
import pathlib
import re
import sys

tried = wrong = 0


def expect(what, found, due):
    global tried, wrong
    tried += 1
    if found != due:
        wrong += 1
        print(f"constants: {what}: {found!r}, and due is {due!r}")


def rattle_constants(*crates):
    """The constants of these crates, as NAME or TYPE::NAME, each computed from its expression."""
    known = {}
    for crate in crates:
        source = re.sub(r"//.*", "", pathlib.Path(f"crates/{crate}/src/lib.rt").read_text(encoding="utf-8"))
        owner = ""
        for found in re.finditer(r"^impl (\w+)|^(\})|^ *(?:pub )?const (\w+): \w+ =\s*([^;]+);", source, re.M):
            opened, closed, name, expression = found.groups()
            if opened or closed:
                owner = opened + "::" if opened else ""
                continue
            # the names of crates are small; what is left of a path is the type, if there is one, and the name
            expression = re.sub(r"\b[a-z_]+::", "", expression).replace("Self::", owner)
            expression = re.sub(r"[A-Z]\w*(::\w+)?", lambda path: str(known[path[0]]), expression).replace("_", "")
            if not re.fullmatch(r"[0-9\s()+*/-]+", expression):
                sys.exit(f"constants: {crate} has {name}, which is not understood: {expression}")
            known[owner + name] = eval(" ".join(expression.replace("/", "//").split()))
    return known


def defined_numbers(path):
    """The numbers that a file of definitions names."""
    return dict(re.findall(r"^(\w+) = (\d+)$", pathlib.Path(path).read_text(encoding="utf-8"), re.M))


def rattle_exports():
    """The exported functions, each by the types in C of its parameters and, at the end, of what it returns."""
    scalars = {"u8": "uint8_t", "u16": "uint16_t", "u32": "uint32_t", "u64": "uint64_t", "i32": "int32_t", "usize": "size_t",
               "f32": "float"}
    exports = {}
    for path in pathlib.Path("crates/wazelpunt_c/src").glob("*.rt"):
        source = re.sub(r"//.*", "", path.read_text(encoding="utf-8"))
        for name, parameters, result in re.findall(r'#\[unsafe\(no_mangle\)\]\s+pub extern "C" fn (\w+)\(([^)]*)\) -> (\w+)', source):
            types = []
            for kind in re.findall(r":\s*([^,]+?)\s*(?:,|$)", parameters):
                lent, slice_of, one = re.fullmatch(r"(&mut |&)?(?:\[(\w+)\]|(\w+))", kind).groups()
                types.append(("const " if lent == "&" else "") + scalars[slice_of or one] + (" *" if lent else ""))
                types += ["size_t"] if slice_of else []
            exports[name] = types + [scalars[result]]
    return exports


def rattle_struct(crate, name):
    """The fields of a struct in their order, and their types."""
    source = re.sub(r"//.*", "", pathlib.Path(f"crates/{crate}/src/lib.rt").read_text(encoding="utf-8"))
    fields = re.search(rf"^pub struct {name} \{{(.*?)^\}}", source, re.M | re.S)
    return re.findall(r"pub (\w+): (\w+),", fields[1]) if fields else f"no struct {name}"


def plain_header():
    header = pathlib.Path("include/wazelpunt.h").read_text(encoding="utf-8")
    return re.sub(r"/\*.*?\*/", "", header, flags=re.S)


def header_struct(name):
    fields = re.search(rf"^struct {name} \{{(.*?)^\}};", plain_header(), re.M | re.S)
    return re.findall(r"(\w+) (\w+);", fields[1]) if fields else f"no struct {name}"


def header_functions():
    functions = {}
    for result, name, parameters in re.findall(r"^(\w+) (wazelpunt_\w+)\(([^)]*)\);", plain_header(), re.M):
        functions[name] = [re.sub(r"\w+$", "", " ".join(each.split())).strip() for each in parameters.split(",")] + [result]
    return functions


def expect_struct(said, what, crate, bits):
    """The struct has the fields of the crate's own, each of so many bits and one behind the other."""
    kept = rattle_struct(crate, what.capitalize())
    bytes_each = bits // 8
    expect(f"how many numbers {what} of {crate} has", str(len(kept)), said[f"WAZELPUNT_{what.upper()}"])
    expect(f"their types in {crate}", {kind for _, kind in kept}, {f"u{bits}"})
    expect(f"the fields of struct wazelpunt_{what}", header_struct(f"wazelpunt_{what}"), [(f"uint{bits}_t", name) for name, _ in kept])
    expect(f"where they stand in {what}", {at: name for at, name in said.items() if at.startswith(f"{what} at ")},
           {f"{what} at {bytes_each * i}": name for i, (name, _) in enumerate(kept)})
    expect(f"how many bytes {what} takes", said[f"{what} bytes"], str(bytes_each * len(kept)))


def expect_needs(said):
    """How many numbers each buffer needs that is lent for 30 words and 7 triangles, as refusal 3 of the scope counts them."""
    record, entry = int(said["WAZELPUNT_RECORD"]), int(said["WAZELPUNT_ENTRY"])
    due = {"grid": 30, "rings": 3 * 7, "lengths": 7, "records": record * 7, "patches": 9 * 7, "report": 2 * entry * 7}
    expect("what lent buffers need", {what: said[what] for what in said if what.startswith("needed of ")},
           {f"needed of {name}": str(count) for name, count in due.items()})
    expect("the factors of the header", re.findall(r"^#define WAZELPUNT_(\w+)_FOR\(", plain_header(), re.M), [name.upper() for name in due])


def expect_names():
    """What the header has besides functions that are declared: every struct, enum and function that is written out there."""
    header = plain_header()
    expect("structs", re.findall(r"^struct (\w+) \{", header, re.M), ["wazelpunt_record", "wazelpunt_entry"])
    expect("enums", re.findall(r"^enum (\w+) \{", header, re.M), ["wazelpunt_answer", "wazelpunt_state", "wazelpunt_kind"])
    expect("functions that are written out", re.findall(r"^static inline .*?\b(wazelpunt_\w+)\(", header, re.M),
           ["wazelpunt_record_at", "wazelpunt_entry_at", "wazelpunt_sentence", "wazelpunt_floats_are_default"])


def stack_figures(path, pattern):
    """The bytes of stack by function, as a file tells them."""
    return dict(re.findall(pattern, pathlib.Path(path).read_text(encoding="utf-8")))


def answer_name(name):
    """Three answers would have the name of a limit."""
    upper = re.sub(r"(?<=[a-z])(?=[A-Z])", "_", name).upper()
    return "WRONG_" + upper if upper in ("WORDS", "CORNERS", "STATES") else upper


def main(printed):
    lines = pathlib.Path(printed).read_text(encoding="utf-8").splitlines()
    said = dict(line.split("=", 1) for line in lines)
    header = {name[len("WAZELPUNT_"):]: value for name, value in said.items() if name.startswith("WAZELPUNT_")}
    sentences = [said[f"sentence {number}"] for number in range(20)]

    known = rattle_constants("base_types", "chart_rules", "program_lines", "program_roll", "program_chart")
    known.update(defined_numbers("crates/stl_facets/specs/Facets.antt"))
    # two entries a triangle
    known["a full report"] = 2 * known["Entry::WIDTH"] * known["Surface::TRIANGLES"]
    due = {
        "POINTS": "Surface::POINTS", "TRIANGLES": "Surface::TRIANGLES", "WORDS": "Surface::WORDS", "CORNERS": "Surface::CORNERS",
        "SET_STATES": "PatchSet::STATES", "SET_TRIANGLES": "PatchSet::TRIANGLES", "SET_CORNERS": "PatchSet::CORNERS",
        "LONGEST": "Loop::LONGEST", "RECORD": "Loop::RECORD", "ENTRY": "Entry::WIDTH", "REPORT": "a full report",
        "GREATEST": "Grid::GREATEST", "SHEET_BYTES": "Surface::TEXT", "SET_BYTES": "PatchSet::TEXT", "ANSWER_BYTES": "LINE",
        "LISTING_BYTES": "LISTING", "REPORT_BYTES": "REPORT", "STL_BYTES": "Surface::FILE", "STL_FRONT": "front",
        "STL_FACET_BYTES": "facet_bytes",
    }
    for name, source in due.items():
        expect(f"WAZELPUNT_{name}", header.pop(name), str(known.get(source, f"no constant {source}")))

    answers = pathlib.Path("crates/base_answers/src/lib.rt").read_text(encoding="utf-8")
    bodies = "".join(re.findall(r"fn number\(.*?\n    }\n", answers, re.S))
    numbers = re.findall(r"(?:Answer|Refusal|Verdict)::(\w+)(?:\(_\))? => (\d+),", bodies)
    expect("how many answers base_answers has", len(numbers), 18)
    for name, number in numbers:
        expect(f"WAZELPUNT_{answer_name(name)}", header.pop(answer_name(name), None), number)
    for state in ("PATCHED", "LONG", "OPEN", "RIM"):
        expect(f"WAZELPUNT_{state}", header.pop(state), str(known[f"State::{state}"]))
    for kind in ("PIECE", "RIM", "POOL", "LAKE", "NOTHING"):
        expect(f"WAZELPUNT_ENTRY_{kind}", header.pop(f"ENTRY_{kind}"), str(known[f"Entry::{kind}"]))

    expect("sentences of numbers 0 to 17 that are not like another", len(set(sentences[:18])), 18)
    expect("sentences of other numbers", set(sentences[18:]), {"an answer that this header does not know"})

    expect_struct(said, "record", "patch_records", 64)
    expect_struct(said, "entry", "chart_rules", 16)
    expect_needs(said)
    expect_names()
    constants = re.findall(r"^#define (WAZELPUNT_\w+) ", plain_header(), re.M)
    expect("constants that are printed", sorted(set(constants) - set(said)), [])

    exports, functions = rattle_exports(), header_functions()
    expect("functions that are declared", sorted(functions), sorted(exports))
    for name in sorted(set(exports) & set(functions)):
        expect(f"the types of {name}", functions[name], exports[name])

    said_stack = stack_figures("include/wazelpunt.h", r"(wazelpunt_\w+) {2,}([\d,]+|[A-Z-]+)")
    measured = stack_figures("docs/SPEED.md", r"\| `(wazelpunt_\w+)` \| ([\d,]+) \|\n")
    for name in sorted(set(functions) | set(said_stack)):
        expect(f"the stack of {name}", said_stack.get(name), measured.get(name, "a figure in docs/SPEED.md"))

    module = {}
    for step in ast.parse(pathlib.Path("python/wazelpunt.py").read_text(encoding="utf-8")).body:
        if isinstance(step, ast.Assign) and isinstance(step.value, (ast.Constant, ast.Tuple)) and isinstance(step.targets[0], ast.Name):
            try:
                module[step.targets[0].id] = ast.literal_eval(step.value)
            except ValueError:
                pass  # no constant
    expect("VERSION of python/wazelpunt.py", module.get("VERSION"), header.pop("VERSION"))
    for name in due:
        expect(f"{name} of python/wazelpunt.py", str(module.get(name)), said["WAZELPUNT_" + name])
    expect("the sentences of python/wazelpunt.py", module.get("_SENTENCES"), tuple(sentences[:18]))
    expect("what header.c printed besides", header, {})

    print(f"{tried} tried, {wrong} wrong")
    return 1 if wrong else 0


sys.exit(main(sys.argv[1]))
