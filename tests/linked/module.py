#!/usr/bin/env python3
"""module.py FOLDER: tests python/wazelpunt.py over the shared library that WAZELPUNT_LIBRARY names, against what is stored for the programs
and against itself. FOLDER is an empty one that it may write to."""

import array
import contextlib
import ctypes
import dataclasses
import io
import itertools
import math
import os
import pathlib
import pickle
import re
import shutil
import struct
import subprocess
import sys
import textwrap
import threading
from fractions import Fraction

HOME = pathlib.Path(__file__).resolve().parent.parent.parent
sys.dont_write_bytecode = True
sys.path.insert(0, str(HOME / "python"))

import wazelpunt  # noqa: E402
from faceted import stl_of  # noqa: E402
from wazelpunt import Coordinate, Entry, Kind, PatchSet, Refusal, State, Surface, Verdict  # noqa: E402

CASES = HOME / "tests/programs/cases"
PLATE = (HOME / "examples/plate.sheet").read_bytes()
SCHOOLROOM = (HOME / "examples/schoolroom.sheet").read_bytes()
TRIANGLE = [(0, 0, 0), (10, 0, 0), (0, 10, 0)]
tried = wrong = 0


def expect(what, found, due):
    global tried, wrong
    tried += 1
    if found != due or type(found) is not type(due):
        wrong += 1
        print(f"module: {what}: {found!r:.300}, and due is {due!r:.300}")


def expect_raised(what, kind, words, call):
    """The call raises exactly this kind of exception, and its sentence has these words."""
    try:
        found = f"nothing raised, but {call()!r}"
    except Exception as raised:  # pylint: disable=broad-except
        found = type(raised).__name__ if words in str(raised) else f"{type(raised).__name__} without {words!r}: {raised}"
    expect(what, found, kind.__name__)


def refusal_of(call):
    """Number and place of the refusal that the call raises."""
    try:
        return f"nothing refused, but {call()!r}"
    except Refusal as refusal:
        held = refusal.sentence and refusal.sentence in str(refusal) and f"{refusal.number},{refusal.place}" in str(refusal)
        return (refusal.number, refusal.place) if held else f"a refusal without its words: {refusal}"


# ---- Against the stored cases ----


def listing_of(patched):
    """The listing, put together from the objects."""
    lines = ["answer=0,0", f"loops={len(patched.loops)}"]
    for loop in patched.loops:
        lines += [f"loop={loop.length},{loop.state.value},{loop.weight},{loop.first},{loop.piece},{loop.run}"]
        lines += ["ring=" + ",".join(map(str, loop.ring))]
        lines += ["patch=" + ",".join(map(str, triangle)) for triangle in loop.patches]
    return "".join(line + "\n" for line in lines).encode()


def report_of(charted):
    """The report as it is printed, put together from the objects."""
    lines = ["answer=0,0", f"entries={len(charted.report)}"] + [f"entry={entry.kind.value},{entry.number}" for entry in charted.report]
    return "".join(line + "\n" for line in lines).encode()


def entries_of(patched, pieces):
    """The report of a patched surface by its loops: how many pieces there are is not to be seen there."""
    rims = {loop.piece: set(loop.ring) for loop in patched.loops if loop.state is State.RIM}
    entries = []
    for piece in range(pieces):
        of_piece = [(number, loop) for number, loop in enumerate(patched.loops) if loop.piece == piece]
        kinds = [Kind.RIM if loop.state is State.RIM else Kind.POOL if rims[piece] & set(loop.ring) else Kind.LAKE for _, loop in of_piece]
        entries.append((Kind.PIECE, piece))
        entries += sorted((kind, number) for kind, (number, _) in zip(kinds, of_piece))
    return tuple(entries)


def answer_line(number, place):
    return f"answer={number},{place}\n".encode()


def nearest(number, pitch):
    """The nearest multiple of a pitch, a tie to the even one."""
    return round(Fraction(number) / pitch) * pitch


def try_records(name, surface, patched):
    """What a loop's record says, against its ring."""
    for loop in patched.loops:
        corner = loop.first % 3
        triangle = surface.triangles[loop.first // 3]
        expect(f"{name}, where a loop begins", (triangle[corner], triangle[(corner + 1) % 3]), loop.ring[:2])
        ends = zip(loop.ring, loop.ring[1:] + loop.ring[:1])
        run = sum(abs(a - b) for start, end in ends for a, b in zip(patched.grid[start], patched.grid[end]))
        expect(f"{name}, how far it runs", loop.run, run)
        expect(f"{name}, its length and its count", (loop.length, loop.count), (len(loop.ring), 0))
    rims = [loop.piece for loop in patched.loops if loop.state is State.RIM]
    expect(f"{name}, the pieces of its rims", (len(set(rims)), set(rims)), (len(rims), {loop.piece for loop in patched.loops}))


def try_report(name, surface, patched, report):
    """The report of a surface, against what is stored and against the patched surface."""
    charted = surface.chart()
    expect(f"{name}, charted by objects", report_of(charted), report)
    expect(f"{name}, the grid of its chart", charted.grid, patched.grid)
    unpatched = tuple(dataclasses.replace(loop, patches=()) for loop in patched.loops)
    expect(f"{name}, the loops of its chart", charted.loops, unpatched)
    pieces = [entry.number for entry in charted.report if entry.kind is Kind.PIECE]
    expect(f"{name}, its pieces", pieces, list(range(len(pieces))))
    expect(f"{name}, its entries", charted.report, entries_of(patched, len(pieces)))
    expect(f"{name}, the kinds of them", {(type(entry), type(entry.kind)) for entry in charted.report} <= {(Entry, Kind)}, True)


def try_surface(name, sheet, listing, report):
    """A sheet that is accepted, by way of objects."""
    surface = Surface.from_text(sheet)
    expect(f"{name}, written", surface.text(), sheet)
    expect(f"{name}, from floats", Surface(surface.points, surface.triangles, pitch=surface.pitch), surface)
    if not listing.startswith(b"answer=0,0"):
        expect(f"{name}, surveyed", answer_line(*refusal_of(surface.survey)), listing)
        expect(f"{name}, patched", answer_line(*refusal_of(surface.patch)), listing)
        expect(f"{name}, charted", answer_line(*refusal_of(surface.chart)), report)
        return
    patched, survey = surface.patch(), surface.survey()
    expect(f"{name}, listed by objects", listing_of(patched), listing)
    grid = tuple(tuple(nearest(number, surface.pitch) for number in point) for point in surface.points)
    expect(f"{name}, its grid", patched.grid, grid)
    try_records(name, surface, patched)
    try_report(name, surface, patched, report)
    expect(f"{name}, surveyed", (survey.grid, survey.rings), (patched.grid, tuple(loop.ring for loop in patched.loops)))
    verdict = surface.judge(patched.patch_set)
    expect(f"{name}, what is patched passes", (verdict, bool(verdict)), (Verdict(0, 0, survey.rings), True))
    expect(f"{name}, and does as a text", wazelpunt.judge_texts(sheet, patched.patch_set.text()), answer_line(0, 0))


def verdict_of(sheet, patches):
    """The answer on a set, by way of objects."""
    try:
        verdict = Surface.from_text(sheet).judge(PatchSet.from_text(patches, sheet.count(b"\n")))
        return verdict.number, verdict.place
    except Refusal as refusal:
        return refusal.number, refusal.place


def try_cases():
    for listing_file in sorted(CASES.glob("*.listing")):
        name = listing_file.stem
        folder = CASES if (CASES / f"{name}.sheet").exists() else HOME / "examples"
        sheet = (folder / f"{name}.sheet").read_bytes()
        patches_file = folder / f"{name}.patches"
        patches = patches_file.read_bytes() if patches_file.exists() else b""
        listing, verdict = listing_file.read_bytes(), (CASES / f"{name}.verdict").read_bytes()
        report = (CASES / f"{name}.report").read_bytes()
        rewritten_file = CASES / f"{name}.rewritten"
        expect(f"{name}, listed", wazelpunt.list_text(sheet), listing)
        expect(f"{name}, charted", wazelpunt.chart_text(sheet), report)
        expect(f"{name}, judged", wazelpunt.judge_texts(sheet, patches), verdict)
        expect(f"{name}, rewritten", wazelpunt.rewrite_text(sheet), rewritten_file.read_bytes() if rewritten_file.exists() else sheet)
        if rewritten_file.exists():
            expect(f"{name}, read", answer_line(*refusal_of(lambda text=sheet: Surface.from_text(text))), rewritten_file.read_bytes())
        else:
            try_surface(name, sheet, listing, report)
            expect(f"{name}, judged by objects", answer_line(*verdict_of(sheet, patches)), verdict)
    for imported in sorted(CASES.glob("*.imported")):
        expect(f"{imported.stem}, imported", wazelpunt.import_stl((CASES / f"{imported.stem}.stl").read_bytes()), imported.read_bytes())


# ---- Refusals and verdicts ----


def try_refusals():
    far = Surface([(0, 0, 0), (10, 40000.5, 0), (0, 10, 0)], [(0, 1, 2)])
    ways = [
        (lambda: Surface([0, 0, 0, 0]), (1, 0)),
        (lambda: Surface([(0, 0, 0)] * 1025), (1, 0)),
        (lambda: Surface(TRIANGLE, [0, 1, 2, 0]), (2, 0)),
        (lambda: Surface(TRIANGLE, [(0, 1, 2)] * 1025), (2, 0)),
        (lambda: Surface(TRIANGLE, [(0, 1, 3)]), (4, 2)),
        (lambda: Surface(TRIANGLE, [(0, 1, 65535)]), (4, 2)),
        (lambda: Surface(TRIANGLE, [(0, 1, 2), (1, 2, 1)]), (5, 1)),
        (lambda: Surface(TRIANGLE, [(0, 1, 2), (2, 0, 1)]), (6, 3)),
        (lambda: Surface([(0, 0, 0), (0, math.nan, 0), (math.inf, 0, 0)]), (7, 4)),
        (lambda: Surface([(0, -math.inf, 0)]), (7, 1)),
        (lambda: far, (8, 4)),
    ]
    for make, due in ways:
        surface = make()
        for name in ("survey", "patch", "chart"):
            expect(f"{name} refuses {due}", refusal_of(getattr(surface, name)), due)
        expect(f"judge refuses {due}", refusal_of(lambda: surface.judge(PatchSet())), due)
        if due[0] <= 4:
            expect(f"text refuses {due}", refusal_of(surface.text), due)

    plate = Surface.from_text(PLATE)
    expect("9, no states", refusal_of(lambda: plate.judge(PatchSet())), (9, 2))
    expect("9, a state too many", refusal_of(lambda: plate.judge(PatchSet([4, 1, 1], [(4, 5, 3)]))), (9, 2))
    expect("10, a sheet", refusal_of(lambda: Surface.from_text(PLATE.replace(b"41f0", b"41F0"))), (10, 3))
    expect("10, no sheet", refusal_of(lambda: Surface.from_text(b"")), (10, 1))
    expect("10, a set", refusal_of(lambda: PatchSet.from_text(b"states=1\ns=44\n")), (10, 2))
    expect("10, a set after a sheet", refusal_of(lambda: PatchSet.from_text(b"states=1\ns=44\n", 14)), (10, 16))
    expect("4, a sheet", refusal_of(lambda: Surface.from_text(PLATE.replace(b"t=1,4,3", b"t=1,6,3"))), (4, 4))

    # the module lends enough, so that 3 comes by no other way than this
    short = wazelpunt._lent(ctypes.c_uint8, len(PLATE) - 1)
    expect("3", refusal_of(lambda: wazelpunt._get("write", *plate._given(), short, counts=1, last=ctypes.c_uint32(1))), (3, 1))
    given = wazelpunt._given_bytes(PLATE, "a text")
    expect("3, printed", refusal_of(lambda: wazelpunt._printed("list_text", wazelpunt.LISTING_BYTES - 1, given)), (3, 1))
    expect("3, charted", refusal_of(lambda: wazelpunt._printed("chart_text", wazelpunt.REPORT_BYTES - 1, given)), (3, 1))
    expect("3, imported", refusal_of(lambda: wazelpunt._printed("import_stl", wazelpunt.SHEET_BYTES - 1, given)), (3, 1))

    expect("a refusal, pickled", str(pickle.loads(pickle.dumps(Refusal(10, 3)))), "answer 10,3: a line of the text is wrong")
    expect("a refusal is a ValueError", issubclass(Refusal, ValueError), True)


def try_verdicts():
    plate = Surface.from_text(PLATE)
    rings = ((0, 1, 2), (4, 3, 5))
    for patch_set, number, place in [
        (PatchSet([1, 1], [(4, 5, 3)]), 11, 0),
        (PatchSet([State.RIM, State.OPEN]), 11, 1),
        (PatchSet([4, 65535]), 11, 1),
        (PatchSet([4, 1]), 12, 1),
        (PatchSet([4, 1], [(4, 3, 5)]), 12, 1),
        (PatchSet([4, 1], [4, 5]), 12, 1),
        (PatchSet([4, 1], [(4, 5, 3), (0, 1, 2)]), 15, 3),
        (PatchSet([4, 1], [(5, 3, 4)]), 0, 0),
    ]:
        verdict = plate.judge(patch_set)
        expect(f"{patch_set.states}, {patch_set.triangles}", verdict, Verdict(number, place, rings))
        expect(f"{number} passed", (verdict.passed, bool(verdict)), (number == 0, number == 0))
        expect(f"{number} in words", verdict.sentence, wazelpunt._SENTENCES[number] if number else "passed")


# ---- What is given ----


def try_buffers():
    due = Surface([(0.5, 1, 2), (3, 4, 5), (6, 7, 8)], [(0, 1, 2)])
    floats, flat = [0.5, 1, 2, 3, 4, 5, 6, 7, 8], array.array("f", [0.5, 1, 2, 3, 4, 5, 6, 7, 8])
    square = memoryview(flat).cast("B").cast("f", shape=[3, 3])
    apart = array.array("d", [number for each in floats for number in (each, 77)])
    rows = (ctypes.c_float * 3 * 3)(*[tuple(floats[i : i + 3]) for i in (0, 3, 6)])
    turned = (ctypes.c_float.__ctype_be__ * 9)(*floats)
    for name, points in [
        ("flat list", floats), ("generator", (number for number in floats)), ("tuples", tuple(zip(*[iter(floats)] * 3))),
        ("lists of arrays", [flat[0:3], flat[3:6], flat[6:9]]), ("array of binary32", flat), ("of binary64", array.array("d", floats)),
        ("memoryview of three columns", square), ("every second of binary64", memoryview(apart)[::2]), ("ctypes, by rows", rows),
        ("in the other order of bytes", turned),
    ]:
        expect(f"points, {name}", Surface(points, [0, 1, 2]), due)
    for code in "BHILQbhilq":
        expect(f"triangles, array {code}", Surface(floats, array.array(code, [0, 1, 2])), due)
        expect(f"a set, array {code}", PatchSet(array.array(code, [4]), array.array(code, [0, 1, 2])), PatchSet([4], [(0, 1, 2)]))
    expect("triangles, ctypes, by rows", Surface(floats, (ctypes.c_int64 * 3 * 1)((0, 1, 2))), due)
    expect("words, a list", Surface.from_words(list(due.words), [(0, 1, 2)]), due)
    expect("words, triples", Surface.from_words(list(zip(*[iter(due.words)] * 3)), [(0, 1, 2)]), due)
    expect("words, array I", Surface.from_words(array.array("I", due.words), [(0, 1, 2)]), due)
    expect("words, bit for bit", Surface.from_words([0x7FC12345, 0xFFFFFFFF, 0x80000000]).words, (0x7FC12345, 0xFFFFFFFF, 0x80000000))

    nans = array.array("f")
    nans.frombytes(struct.pack("=3I", 0x7FA00001, 0xFFC00000, 0x00000001))
    expect("binary32, bit for bit", Surface(nans).words, (0x7FA00001, 0xFFC00000, 0x00000001))

    view = memoryview(PLATE)
    for name, text in [("bytearray", bytearray(PLATE)), ("memoryview", view), ("turned about", memoryview(PLATE[::-1])[::-1])]:
        expect(f"text, {name}", Surface.from_text(text).text(), PLATE)

    # a buffer is taken as it is at that moment
    changing = array.array("f", floats)
    surface = Surface(changing, [0, 1, 2])
    changing[0] = 99
    expect("a buffer that changes later", surface, due)


def try_wrong_types():
    flat = array.array("f", [0] * 8)
    for what, kind, words, call in [
        ("points in bytes", TypeError, "'B'", lambda: Surface(bytes(12))),
        ("points in words", TypeError, "from_words", lambda: Surface(array.array("I", [0, 0, 0]))),
        ("points in whole numbers", TypeError, "'q'", lambda: Surface(array.array("q", [0, 0, 0]))),
        ("points in a str", TypeError, "str", lambda: Surface("000")),
        ("points in none", TypeError, "", lambda: Surface(None)),
        ("a coordinate in a str", TypeError, "the y of point 1", lambda: Surface([(0, 0, 0), (0, "1", 0)])),
        ("a coordinate that is none", TypeError, "the z of point 0", lambda: Surface([(0, 0, None)])),
        ("a complex coordinate", TypeError, "the x of point 0", lambda: Surface([(1j, 0, 0)])),
        ("a point of two", ValueError, "point 1 has 2 coordinates", lambda: Surface([(0, 0, 0), (0, 0)])),
        ("a point in a str", TypeError, "point", lambda: Surface(["000"])),
        ("a point in bytes", TypeError, "b'abc'", lambda: Surface([b"abc"])),
        ("points and numbers", ValueError, "item 1", lambda: Surface([(0, 0, 0), 0, 0, 0])),
        ("numbers and points", ValueError, "item 3", lambda: Surface([0, 0, 0, (0, 0, 0)])),
        ("four columns", ValueError, "(2, 4)", lambda: Surface(memoryview(flat).cast("B").cast("f", shape=[2, 4]))),
        ("a cube", ValueError, "(2, 2, 2)", lambda: Surface(memoryview(flat).cast("B").cast("f", shape=[2, 2, 2]))),
        ("one number in a buffer", ValueError, "()", lambda: Surface(ctypes.c_float(1))),
        ("triangles in floats", TypeError, "'f'", lambda: Surface([], flat)),
        ("a corner that is a float", TypeError, "1.0", lambda: Surface(TRIANGLE, [(0, 1.0, 2)])),
        ("a corner in a str", TypeError, "'1'", lambda: Surface(TRIANGLE, [(0, "1", 2)])),
        ("a triangle of four", ValueError, "triangle 0 has 4 corners", lambda: Surface(TRIANGLE, [(0, 1, 2, 0)])),
        ("words in floats", TypeError, "'f'", lambda: Surface.from_words(flat)),
        ("words in bytes", TypeError, "'B'", lambda: Surface.from_words(bytes(3))),
        ("a word that is negative", ValueError, "-1", lambda: Surface.from_words([0, -1, 0])),
        ("a word of 33 bits", ValueError, "4294967296", lambda: Surface.from_words([0, 1 << 32, 0])),
        ("a word that is a float", TypeError, "word 0", lambda: Surface.from_words([0.5, 0, 0])),
        ("a state in a str", TypeError, "state 1", lambda: PatchSet([4, "1"])),
        ("a state that is negative", ValueError, "-1", lambda: PatchSet([4, -1])),
        ("a state of 17 bits", ValueError, "65536", lambda: PatchSet([65536])),
        ("a corner of a set that is negative", ValueError, "-5", lambda: PatchSet([1], [(4, -5, 3)])),
        ("one of a buffer", ValueError, "-5", lambda: PatchSet([1], array.array("q", [4, -5, 3]))),
        ("a corner of a set of 17 bits", ValueError, "70000", lambda: PatchSet([1], [(4, 70000, 3)])),
        ("a text in a str", TypeError, "'rb'", lambda: Surface.from_text(PLATE.decode())),
        ("a text in floats", TypeError, "'f'", lambda: wazelpunt.list_text(flat)),
        ("a text in none", TypeError, "bytes-like", lambda: wazelpunt.list_text(None)),
        ("a text to chart in a str", TypeError, "'rb'", lambda: wazelpunt.chart_text("")),
        ("a set's text in a str", TypeError, "'rb'", lambda: wazelpunt.judge_texts(PLATE, "")),
        ("lines before that are negative", ValueError, "-1", lambda: PatchSet.from_text(b"", -1)),
        ("too many lines before", ValueError, "65536", lambda: PatchSet.from_text(b"", 65536)),
        ("a surface that is changed", AttributeError, "words", lambda: setattr(Surface(), "words", ())),
        ("a loop that is changed", AttributeError, "ring", lambda: setattr(Surface.from_text(PLATE).patch().loops[0], "ring", ())),
    ]:
        if kind is AttributeError:
            expect(what, issubclass(type(raised_by(call)), AttributeError), True)
        else:
            expect_raised(what, kind, words, call)


def raised_by(call):
    try:
        return call()
    except Exception as raised:  # pylint: disable=broad-except
        return raised


def try_far_corners():
    for far in (-1, -65536, 65536, 70000, 1 << 40, -(1 << 70)):
        expect(f"corner {far}", refusal_of(lambda number=far: Surface(TRIANGLE, [(0, 1, 2), (2, 1, number)])), (4, 5))
    expect("a corner of a buffer", refusal_of(lambda: Surface(TRIANGLE, array.array("q", [0, -1, 2]))), (4, 1))
    expect("the first of two", refusal_of(lambda: Surface(TRIANGLE, [(0, 3, 2), (2, 1, -1)])), (4, 1))
    expect("words before corners", refusal_of(lambda: Surface([0, 0], [(0, 1, -1)])), (1, 0))
    expect("how many corners before which", refusal_of(lambda: Surface(TRIANGLE, [0, 1, -1, 0])), (2, 0))


def try_floats():
    expect("floats are as they should be", wazelpunt.floats_are_default(), True)
    nearest = Surface([(0.1, -0.0, 16777217), (1e-46, 1e-45, 3.4028235e38)]).words
    expect("rounded as struct does", nearest, (0x3DCCCCCD, 0x80000000, 0x4B800000, 0, 1, 0x7F7FFFFF))
    # halfway from the greatest binary32 number to what would be the next one, and the binary64 number before
    halfway, before = float.fromhex("0x1.ffffffp+127"), float.fromhex("0x1.fffffefffffffp+127")
    expect("just before halfway", Surface([(before, 0, 0)]).words[0], 0x7F7FFFFF)
    for value in (halfway, 1e39, -1e39, 10**400):
        expect_raised(f"{value:.3e} if it fits" if isinstance(value, float) else "10**400", OverflowError, "the y of point 1",
                      lambda number=value: Surface([(0, 0, 0), (0, number, 0)]))
    expect_raised("1e39 in a buffer", OverflowError, "the x of point 0", lambda: Surface(array.array("d", [1e39, 0, 0])))
    expect_raised("1e39 alone", OverflowError, "the coordinate", lambda: wazelpunt.coordinate(1e39))
    expect("1.5", wazelpunt.coordinate(1.5), Coordinate(2, -0.5))
    expect("-0.25", wazelpunt.coordinate(-0.25), Coordinate(0, -0.25))
    expect("a number with a fraction of its own", wazelpunt.coordinate(struct.unpack("f", struct.pack("f", 0.1))[0]).whole, 0)
    expect("32767", wazelpunt.coordinate(32767), Coordinate(32767, 0.0))
    expect("no number", refusal_of(lambda: wazelpunt.coordinate(math.nan)), (7, 0))
    expect("infinite", refusal_of(lambda: wazelpunt.coordinate(-math.inf)), (7, 0))
    expect("too far", refusal_of(lambda: wazelpunt.coordinate(-32768)), (8, 0))
    expect_raised("a str", TypeError, "'1'", lambda: wazelpunt.coordinate("1"))


# ---- Pitches ----


def try_pitches():
    """A surface goes by the pitch that it was read or made with, or by the one that is asked for."""
    room = Surface.from_text(SCHOOLROOM)
    expect("a text with a pitch", (room.pitch, room.text(), repr(room)), (5, SCHOOLROOM, "<Surface: 8 points, 8 triangles, pitch 5>"))
    expect("one without", (Surface.from_text(PLATE).pitch, Surface().pitch, Surface.from_words([]).pitch), (1, 1, 1))
    expect("the same points at pitch 1", room.text(pitch=1), SCHOOLROOM.partition(b"\n")[2])
    expect("another pitch is another surface", Surface(room.points, room.triangles) == room, False)
    expect("the same one", Surface(room.points, room.triangles, pitch=5), room)
    expect("pickled", pickle.loads(pickle.dumps(room)), room)
    for pitch in (1, 2, 5, 10):
        own, asked = Surface(room.points, room.triangles, pitch=pitch), room.patch(pitch=pitch)
        grid = tuple(tuple(nearest(number, pitch) for number in point) for point in room.points)
        expect(f"grids at pitch {pitch}", [own.patch().grid, asked.grid, own.survey().grid, room.survey(pitch=pitch).grid], [grid] * 4)
        expect(f"patched at pitch {pitch}", own.patch(), asked)
        expect(f"charted at pitch {pitch}", [own.chart().grid, room.chart(pitch=pitch)], [grid, own.chart()])
        expect(f"listed at pitch {pitch}", listing_of(asked), wazelpunt.list_text(own.text()))
        expect(f"judged at pitch {pitch}", [own.judge(asked.patch_set).passed, room.judge(asked.patch_set, pitch=pitch).passed], [True] * 2)
        expect(f"written at pitch {pitch}", own.text(), room.text(pitch=pitch))
        expect(f"read again at pitch {pitch}", Surface.from_text(own.text()), own)
        of_file = Surface.from_stl(stl_of_surface(room), pitch=pitch)
        met = tuple(grid[corner] for corner in dict.fromkeys(room.corners))
        expect(f"a file at pitch {pitch}", (of_file.pitch, of_file.patch().grid), (pitch, met))
        expect(f"the text of a file at pitch {pitch}", of_file.text().startswith(b"pitch=%d\n" % pitch), pitch > 1)
    expect("the weights at two pitches", [room.patch(pitch=pitch).loops[1].weight for pitch in (5, 1)], [1500, 1484])
    expect("the patch of one at the other", room.judge(room.patch().patch_set, pitch=1).number, 14)
    expect("lines of a set after a pitch", wazelpunt.judge_texts(SCHOOLROOM, b"states=x\n"), answer_line(10, SCHOOLROOM.count(b"\n") + 1))
    for number, pitch, due in [(2.5, 5, Coordinate(0, 2.5)), (7.5, 5, Coordinate(10, -2.5)), (-3, 2, Coordinate(-4, 1.0)),
                               (32765, 10, Coordinate(32760, 5.0)), (32767.25, 5, Coordinate(32765, 2.25))]:
        expect(f"{number} at pitch {pitch}", wazelpunt.coordinate(number, pitch=pitch), due)
    for number, pitch, due in [(32767, 2, (8, 0)), (-32765.001953125, 10, (8, 0)), (math.inf, 10, (7, 0)), (math.nan, 3, (17, 0))]:
        expect(f"{number} at pitch {pitch}", refusal_of(lambda x=number, p=pitch: wazelpunt.coordinate(x, pitch=p)), due)


def try_wrong_pitches():
    """17 comes before all else, of every number that is no pitch, also of one that cannot be handed over."""
    wrong_one = Surface([0, 0, 0, 0], [0, 0])  # refused with 1 otherwise
    for pitch in (0, 3, 4, 6, 11, 20, 257, 65537, -1, -5, (1 << 32) + 5, 1 << 80):
        for what, call in [("survey", wrong_one.survey), ("patch", wrong_one.patch), ("chart", wrong_one.chart), ("text", wrong_one.text),
                           ("judge", lambda pitch: wrong_one.judge(PatchSet(), pitch=pitch)),
                           ("coordinate", lambda pitch: wazelpunt.coordinate(1, pitch=pitch)),
                           ("made", lambda pitch: Surface(TRIANGLE, pitch=pitch).survey()),
                           ("a file", lambda pitch: Surface.from_stl(stl_of([0] * 9), pitch=pitch).patch())]:
            expect(f"{what}, pitch {pitch}", refusal_of(lambda ask=call, number=pitch: ask(pitch=number)), (17, 0))
    for what, kind, words, call in [
        ("a pitch that is a float", TypeError, "the pitch is no whole number: 5.0", lambda: Surface(pitch=5.0)),
        ("a pitch in a str", TypeError, "the pitch", lambda: Surface.from_stl(stl_of([]), pitch="5")),
        ("a pitch that is asked for, a float", TypeError, "the pitch", lambda: Surface().patch(pitch=2.0)),
        ("a pitch that is no keyword", TypeError, "positional", lambda: Surface([], [], 5)),
        ("a pitch of one coordinate that is none", TypeError, "the pitch", lambda: wazelpunt.coordinate(1, pitch=None)),
    ]:
        expect_raised(what, kind, words, call)
    for text, due in [(b"pitch=3\n", (10, 1)), (b"pitch=1\n" + PLATE, (10, 1)), (b"pitch=05\n" + PLATE, (10, 1)), (b"pitch=2\n", (10, 2)),
                      (b"pitch=2", (10, 1)), (b"pitch=2\npitch=2\n" + PLATE, (10, 2)), (b"pitch=10\n" + PLATE + b"\n", (10, 16)),
                      (b"pitch=10\n" + PLATE.replace(b"t=1,4,3", b"t=1,6,3"), (4, 4))]:
        expect(f"{text[:20]}, read", refusal_of(lambda given=text: Surface.from_text(given)), due)


# ---- Files of facets ----


def stl_of_surface(surface):
    return stl_of([word for corner in surface.corners for word in surface.words[3 * corner : 3 * corner + 3]])


def counted_stl(facets, points):
    """So many facets on so many points, over and over in their order."""
    return stl_of([word for corner in range(3 * facets) for word in (1 + corner % points, 2, 3)])


def facets_of(data):
    """What is handed out of a file. It has to come to an end."""
    return list(itertools.islice(wazelpunt.facets(data), 2000))


def try_files():
    for name in ("plate", "islands", "folded", "relief", "nothing", "sample"):
        surface = Surface.from_text((HOME / f"examples/{name}.sheet").read_bytes())
        data = stl_of_surface(surface)
        read, due = Surface.from_stl(data), [tuple(surface.points[corner] for corner in three) for three in surface.triangles]
        expect(f"{name}, its facets", facets_of(data), due)
        expect(f"{name}, its triangles", [tuple(read.points[corner] for corner in three) for three in read.triangles], due)
        expect(f"{name}, no point twice", len(set(read.points)), len(read.points))
        expect(f"{name}, numbered by first use", list(dict.fromkeys(read.corners)), list(range(len(read.points))))
        expect(f"{name}, as a text", wazelpunt.import_stl(data), read.text())
        for kind in (bytearray, memoryview):
            expect(f"{name}, {kind.__name__}", Surface.from_stl(kind(data)), read)
    plate = stl_of_surface(Surface.from_text(PLATE))
    patched = Surface.from_stl(plate).patch()
    loops = [(loop.ring, loop.state, loop.weight, loop.first, loop.piece, loop.run, loop.patches) for loop in patched.loops]
    due = [((0, 1, 4), State.RIM, 0, 0, 0, 120, ()), ((3, 2, 5), State.PATCHED, 100, 4, 0, 40, ((3, 5, 2),))]
    expect("the plate, patched", loops, due)
    wild = [0x80000000, 0x7FC00001, 1, 0, 0x7FC00001, 1, 0xFF800000, 0x7FC00002, 0x80000001]
    expect("words, bit for bit but negative zero", Surface.from_stl(stl_of(wild)), Surface.from_words(wild[3:], [0, 0, 1]))
    ((first, _, last),) = wazelpunt.facets(stl_of(wild))
    expect("what is handed out of them", (math.copysign(1, first[0]), math.isnan(first[1]), last[0]), (1.0, True, -math.inf))
    expect("a facet that names a point twice", refusal_of(Surface.from_stl(stl_of([0] * 9)).survey), (5, 0))


def try_wrong_files():
    plate = stl_of_surface(Surface.from_text(PLATE))
    for what, data, due in [
        ("nothing", b"", (16, 0)), ("83 bytes", bytes(83), (16, 0)), ("a byte less", plate[:-1], (16, 0)),
        ("a byte more", plate + b"\0", (16, 0)), ("a sheet text", PLATE, (16, 0)),
        ("a count that fits modulo 2^32", stl_of([], 85899346) + bytes(4), (16, 0)),
        ("1,025 facets", counted_stl(1025, 1025), (2, 0)), ("1,025 points", counted_stl(1024, 1025), (1, 0)),
    ]:
        expect(f"{what}, read", refusal_of(lambda file=data: Surface.from_stl(file)), due)
        expect(f"{what}, imported", wazelpunt.import_stl(data), answer_line(*due))
    longest = counted_stl(1024, 1024)
    expect("the longest file", len(longest), wazelpunt.STL_BYTES)
    expect("all of it is read", repr(Surface.from_stl(longest)), "<Surface: 1024 points, 1024 triangles>")
    expect("a file that is cut off", len(facets_of(plate[:-1])), 5)
    expect("a front alone", (facets_of(plate[:84]), facets_of(b"")), ([], []))
    for length, count, due in [
        (84, 0, 0), (83, 0, 16), (wazelpunt.STL_BYTES, 1024, 0), (51334, 1025, 2), (51333, 1025, 16), (88, 85899346, 16),
        (4294967384, 85899346, 2), (214748364834, 0xFFFFFFFF, 2), (2 * sys.maxsize + 1, 0xFFFFFFFF, 16),
    ]:
        expect(f"{count} facets in {length} bytes", wazelpunt.size_stl(length, count), due)
    for what, kind, words, call in [
        ("a length that is negative", ValueError, "-1", lambda: wazelpunt.size_stl(-1, 0)),
        ("a length of 65 bits", ValueError, str(1 << 64), lambda: wazelpunt.size_stl(1 << 64, 0)),
        ("a count of 33 bits", ValueError, "4294967296", lambda: wazelpunt.size_stl(84, 1 << 32)),
        ("a count that is a float", TypeError, "the count", lambda: wazelpunt.size_stl(84, 0.0)),
        ("a file in a str", TypeError, "'rb'", lambda: Surface.from_stl("")),
        ("a file in floats", TypeError, "'f'", lambda: wazelpunt.import_stl(array.array("f", [0] * 21))),
        ("facets in a str, before the first is asked for", TypeError, "'rb'", lambda: wazelpunt.facets("")),
    ]:
        expect_raised(what, kind, words, call)
    sentence = str(raised_by(lambda: wazelpunt.size_stl(84, -1)))
    expect("a number that stands alone, told", sentence, "the count is -1, not from 0 to 4294967295")


def try_sets():
    text = b"states=2\ns=4\ns=1\ntriangles=1\nt=4,5,3\n"
    patch_set = PatchSet.from_text(text)
    expect("a set that is read", patch_set, PatchSet([State.RIM, State.PATCHED], [(4, 5, 3)]))
    expect("its states by name", patch_set.states[0].name, "RIM")
    expect("and written", patch_set.text(), text)
    expect("a set of nothing", PatchSet().text(), b"states=0\ntriangles=0\n")
    expect("a state of two digits is not written", refusal_of(PatchSet([4, 10]).text), (10, 3))
    expect("so many states are not", refusal_of(PatchSet([4] * 1025).text), (10, 1))
    expect("so many triangles are not", refusal_of(PatchSet([], [(0, 1, 2)] * 3073).text), (10, 2))
    expect("two corners are not", refusal_of(PatchSet([], [0, 1, 2, 0, 1]).text), (10, 4))


def try_objects():
    plate = Surface.from_text(PLATE)
    expect("equal", (plate == Surface.from_text(PLATE), hash(plate) == hash(Surface.from_text(PLATE))), (True, True))
    expect("not equal", plate == Surface(plate.points, plate.triangles[1:]), False)
    expect("pickled", pickle.loads(pickle.dumps(plate)), plate)
    expect("told", repr(plate), "<Surface: 6 points, 6 triangles>")
    expect("its points", plate.points[1], (30.0, 0.0, 0.0))
    expect("its patches", plate.patch().patches, ((4, 5, 3),))
    expect("its report", plate.chart().report, ((0, 0), (1, 0), (3, 1)))
    expect("an entry by its names", plate.chart().report[2], Entry(kind=Kind.LAKE, number=1))
    expect("a chart, pickled", pickle.loads(pickle.dumps(plate.chart())), plate.chart())
    expect("no report", (Surface().chart(), Surface(TRIANGLE).chart().report), (wazelpunt.Charted((), (), ()), ()))
    expect("what stays open", [loop.stays_open for loop in plate.patch().loops], [False, False])
    expect("nothing", (Surface().patch(), Surface().text()), (wazelpunt.Patched((), ()), b"points=0\ntriangles=0\n"))
    rims_alone = Surface.from_text((CASES / "hole-65-in-a-rim-of-66.sheet").read_bytes()).patch()
    expect("a long hole stays open", [loop.stays_open for loop in rims_alone.loops if loop.state is State.LONG], [True])


def try_usage(room):
    """The usage at the module's head does what its comments say."""
    shutil.copy(HOME / "examples/plate.sheet", room)
    (room / "plate.stl").write_bytes(stl_of_surface(Surface.from_text(PLATE)))
    usage = textwrap.dedent("".join(line for line in wazelpunt.__doc__.splitlines(True) if line.startswith("    ") or line == "\n"))
    due = ["RIM (0, 1, 2) 0 ()", "PATCHED (4, 3, 5) 100 ((4, 5, 3),)", "PIECE 0", "RIM 0", "LAKE 1", "4 1 a corner names no point"]
    expect("what the usage says", [line for line in due if f"# {line}\n" in usage], due)
    printed = io.StringIO()
    with contextlib.redirect_stdout(printed):
        known = {}
        exec(re.sub(r'"(plate\.\w+)"', lambda name: repr(str(room / name[1])), usage), known)
    expect("what the usage prints", printed.getvalue().splitlines(), due)
    hole = known["hole"]
    expect("where the usage's hole comes from", (hole.first, hole.piece, hole.run, "# (4, 0, 40)" in usage), (4, 0, 40, True))
    expect("what the usage reads at last", known["surface"], Surface.from_stl((room / "plate.stl").read_bytes(), pitch=5))


def try_threads():
    """Threads that share a surface, and others that have their own, get what one alone gets."""
    names = ["plate", "plate-cone", "plate-crossed", "folded", "islands"]
    surfaces = [Surface.from_text((HOME / f"examples/{name}.sheet").read_bytes()) for name in names]
    due = [(surface.patch(), surface.survey(), surface.chart()) for surface in surfaces]
    found = []

    def work(start):
        for turn in range(20):
            which = (start + turn) % len(surfaces)
            found.append((surfaces[which].patch(), surfaces[which].survey(), surfaces[which].chart()) == due[which])

    threads = [threading.Thread(target=work, args=(start,)) for start in range(8)]
    for thread in threads:
        thread.start()
    for thread in threads:
        thread.join()
    expect("threads", (len(found), all(found)), (160, True))


# ---- The library that is found, and the command line ----


def run(folder, *words, environment=None, **more):
    """Runs Python in a folder, in which it finds modules, with nothing of this environment but what is given."""
    done = subprocess.run([sys.executable, "-B", *words], cwd=folder, env=environment or {}, stdout=subprocess.PIPE, stderr=subprocess.PIPE,
                          check=False, **more)
    return done.returncode, done.stdout, done.stderr


def try_finding(room):
    library = os.environ["WAZELPUNT_LIBRARY"]
    for name in ("alone", "beside", "system", "installed/share/wazelpunt/python", "installed/lib"):
        os.makedirs(room / name)
    for name in ("alone", "beside", "installed/share/wazelpunt/python"):
        shutil.copy(HOME / "python/wazelpunt.py", room / name)
    for name in ("beside/libwazelpunt.so", "system/libwazelpunt.so.3", "installed/lib/libwazelpunt.so.3"):
        shutil.copy(library, room / name)
    listing = (CASES / "plate.listing").read_bytes()
    command = ["-m", "wazelpunt", str(room / "plate.sheet")]
    expect("named", run(room / "alone", *command, environment={"WAZELPUNT_LIBRARY": library}), (0, listing, b""))
    expect("beside", run(room / "beside", *command), (0, listing, b""))
    expect("installed", run(room / "installed/share/wazelpunt/python", *command), (0, listing, b""))
    expect("the system's", run(room / "alone", *command, environment={"LD_LIBRARY_PATH": str(room / "system")}), (0, listing, b""))
    status, out, said = run(room / "beside", *command, environment={"WAZELPUNT_LIBRARY": str(room / "none.so")})
    expect("one that is not there", (status, out, b"ImportError" in said, b"none.so" in said), (1, b"", True, True))
    status, out, said = run(room / "alone", *command, environment={"WAZELPUNT_LIBRARY": str(room / "plate.sheet")})
    expect("one that is no library", (status, out, b"ImportError" in said, b"plate.sheet" in said), (1, b"", True, True))
    status, out, said = run(room / "alone", *command, environment={"WAZELPUNT_LIBRARY": "libc.so.6"})
    expect("another library", (status, out, b"ImportError" in said, b"wazelpunt_coordinate" in said), (1, b"", True, True))
    # one that takes two buffers more and then its results and a pitch; and one from before there were pitches
    for what, answer in [("an older library", "0 if given[20].value in (1, 2, 5, 10) else 17"), ("one of the oldest", "0")]:
        old = f"class Old:\n def __call__(self, *given): return {answer}\n def __getattr__(self, name): return Old()\n"
        status, out, said = run(room / "alone", "-c", f"import ctypes\n{old}ctypes.CDLL = lambda name: Old()\nimport wazelpunt")
        expect(what, (status, out, b"ImportError" in said, b"keeps no records of loops" in said), (1, b"", True, True))
    # one from before there were reports
    old = "class Old:\n def __call__(self, *given): return 17\n"
    old += " def __getattr__(self, name):\n  if 'chart' in name: raise AttributeError(f'undefined symbol: {name}')\n  return Old()\n"
    status, out, said = run(room / "alone", "-c", f"import ctypes\n{old}ctypes.CDLL = lambda name: Old()\nimport wazelpunt")
    expect("one without reports", (status, out, b"ImportError" in said, b"undefined symbol: wazelpunt_chart" in said), (1, b"", True, True))


def try_command(room):
    where = room / "beside"
    listing = (CASES / "plate.listing").read_bytes()
    with open(room / "plate.sheet", "rb") as sheet:
        expect("standard input", run(where, "-m", "wazelpunt", "-", stdin=sheet), (0, listing, b""))
    status, out, said = run(where, "-m", "wazelpunt", str(HOME / "examples/repeated.sheet"))
    expect("a sheet that is refused", (status, out, b"6,3" in said and said.count(b"\n") == 1), (1, b"answer=6,3\n", True))
    for name, words in [("no file", [str(room / "none.sheet")]), ("a folder", [str(room)]), ("no name", []), ("two names", ["a", "b"])]:
        status, out, said = run(where, "-m", "wazelpunt", *words)
        expect(name, (status, out, said.count(b"\n")), (2, b"", 1))
    status, out, said = run(where, "-m", "wazelpunt", "--help")
    expect("help", (status, out.startswith(b"usage"), said), (0, True, b""))
    with open("/dev/full", "wb") as full:
        done = subprocess.run([sys.executable, "-B", "-m", "wazelpunt", str(room / "plate.sheet")], cwd=where, env={}, stdout=full,
                              stderr=subprocess.PIPE, check=False)
    expect("a full device", (done.returncode, done.stderr.count(b"\n")), (2, 1))


def try_command_on_files(room):
    """A binary STL is told from a text, and is listed as the text of its sheet is."""
    where, box = room / "beside", HOME / "examples/box.stl"
    data = box.read_bytes()
    expect("an STL file", run(where, "-m", "wazelpunt", str(box)), (0, wazelpunt.list_text(wazelpunt.import_stl(data)), b""))
    for what, given, due in [
        ("a byte less", data[:-1], (16, 0)), ("a byte more", data + b"\0", (16, 0)), ("1,025 points", counted_stl(1024, 1025), (1, 0)),
        ("the longest file and a byte", counted_stl(1024, 1024) + b"\0", (16, 0)), ("3,000 facets", counted_stl(3000, 3), (2, 0)),
        ("a facet that names a point twice", stl_of([0] * 9), (5, 0)), ("a sheet text with a NUL byte", PLATE + b"\0", (10, 15)),
        ("a long text", PLATE + b"\n" * 100000, (10, 15)), ("nothing", b"", (10, 1)), ("a pitch alone", b"pitch=5\n", (10, 2)),
        ("a sheet text with a pitch and a NUL byte", SCHOOLROOM + b"\0", (10, 20)),
    ]:
        status, out, said = run(where, "-m", "wazelpunt", "-", input=given)
        expect(f"{what}, listed", (status, out, said.count(b"\n")), (1, answer_line(*due), 1))
    # what has no end is answered as soon as it is longer than its count says
    expect("a file without an end", run(where, "-m", "wazelpunt", "/dev/zero", timeout=60)[:2], (1, answer_line(16, 0)))


try_cases()
try_refusals()
try_verdicts()
try_buffers()
try_wrong_types()
try_far_corners()
try_floats()
try_pitches()
try_wrong_pitches()
try_files()
try_wrong_files()
try_sets()
try_objects()
try_threads()
try_usage(pathlib.Path(sys.argv[1]))
try_finding(pathlib.Path(sys.argv[1]))
try_command(pathlib.Path(sys.argv[1]))
try_command_on_files(pathlib.Path(sys.argv[1]))
print(f"{tried} tried, {wrong} wrong")
sys.exit(1 if wrong else 0)
