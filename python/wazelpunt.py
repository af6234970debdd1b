"""Wazelpunt for Python: finds the gaps (loops of open edges) in a triangle surface and closes them.

    import wazelpunt

    surface = wazelpunt.Surface(
        points=[(0, 0, 0), (30, 0, 0), (0, 30, 0), (5, 5, 0), (15, 5, 0), (5, 15, 0)],
        triangles=[(0, 1, 3), (1, 4, 3), (1, 2, 4), (2, 5, 4), (2, 0, 5), (0, 3, 5)],
    )
    patched = surface.patch()
    for loop in patched.loops:
        print(loop.state.name, loop.ring, loop.weight, loop.patches)
        # RIM (0, 1, 2) 0 ()
        # PATCHED (4, 3, 5) 100 ((4, 5, 3),)
    hole = patched.loops[1]
    hole.first, hole.piece, hole.run             # (4, 0, 40): it begins with half-edge 4, of triangle 1, from point 4 to point 3
    surface.judge(patched.patch_set).passed      # True
    for entry in surface.chart().report:         # each piece, its rim, its tide pools and its lakes
        print(entry.kind.name, entry.number)
        # PIECE 0
        # RIM 0
        # LAKE 1

    with open("plate.sheet", "rb") as file:
        surface = wazelpunt.Surface.from_text(file.read())

    with open("plate.stl", "rb") as file:      # binary STL, for a press with a pitch of 5 plate units
        surface = wazelpunt.Surface.from_stl(file.read(), pitch=5)

    try:
        wazelpunt.Surface([(0, 0, 0)], [(0, 1, 2)]).survey()
    except wazelpunt.Refusal as refusal:
        print(refusal.number, refusal.place, refusal.sentence)      # 4 1 a corner names no point

On the command line `python3 -m wazelpunt SHEET` prints the listing of a sheet: a text, or a binary STL at pitch 1.

Coordinates are binary32 numbers in plate units (0.1 mm). Other numbers are rounded to the nearest one, as `struct` does; one that is too
large for that raises OverflowError. What the library refuses (answers 1 to 10, 16 and 17) raises Refusal. A verdict on a patch set (answers
11 to 15) is an answer like any other and is returned. docs/API.md has the answers, the states, the texts and the files.

The pitch of the grid is 1, 2, 5 or 10 plate units. A coordinate goes to the nearest multiple of it, a tie to the even multiple, and the
grid holds that multiple itself. A surface has its pitch: that of the text it was read of, or the one that is given, or 1. Whatever is asked
of it goes by that pitch, unless another one is given with the question. A number that is no pitch is refused with 17, before all else.

It stands on the shared library libwazelpunt.so and on nothing but Python's own ctypes. The library is the file that the environment
variable WAZELPUNT_LIBRARY names; or else one beside this module, or where it was installed together with it; or else one where the system
looks for libraries. It is loaded when the module is imported, and ImportError says what was tried if there is none.

Everything here is unchangeable after it is made, and no call keeps anything, so threads may share and call whatever they like. A thread
needs the stack that include/wazelpunt.h tells; what Python gives it, if nothing was changed, is enough.
"""

from __future__ import annotations

import ctypes
import dataclasses
import enum
import operator
import os
import struct
import sys
from typing import Any, Dict, Iterable, Iterator, List, NamedTuple, Optional, Tuple

__all__ = [
    "ANSWER_BYTES", "CORNERS", "Charted", "Coordinate", "ENTRY", "Entry", "GREATEST", "Kind", "LISTING_BYTES", "LONGEST", "Loop", "POINTS",
    "PatchSet", "Patched", "RECORD", "REPORT", "REPORT_BYTES", "Refusal", "SET_BYTES", "SET_CORNERS", "SET_STATES", "SET_TRIANGLES",
    "SHEET_BYTES", "STL_BYTES", "STL_FACET_BYTES", "STL_FRONT", "State", "Surface", "Survey", "TRIANGLES", "VERSION", "Verdict", "WORDS",
    "chart_text", "coordinate", "facets", "floats_are_default", "import_stl", "judge_texts", "list_text", "rewrite_text", "size_stl",
]

# As in include/wazelpunt.h.
VERSION = "3.1.0"
POINTS = 1024
TRIANGLES = 1024
WORDS = 3072
CORNERS = 3072
SET_STATES = 1024
SET_TRIANGLES = 3072
SET_CORNERS = 9216
LONGEST = 64
RECORD = 7
ENTRY = 2
REPORT = 4096
GREATEST = 32767
SHEET_BYTES = 47140
SET_BYTES = 56347
LISTING_BYTES = 161424
REPORT_BYTES = 26720
ANSWER_BYTES = 48
STL_BYTES = 51284
STL_FRONT = 84
STL_FACET_BYTES = 50

_SENTENCES = (
    "done",
    "the words are not three a point, or too many",
    "the corners are not three a triangle, or too many",
    "a lent buffer is too short",
    "a corner names no point",
    "a triangle names a point twice",
    "two triangles run the same way between the same two points",
    "a coordinate is no finite number",
    "a coordinate lies too far out",
    "there are not as many states as loops",
    "a line of the text is wrong",
    "a loop is declared in a state that it is not in",
    "a loop is declared patched, and its triangles are missing or are no cover",
    "a loop has a cover with a barred diagonal",
    "a loop has an allowed cover, but a lighter one exists",
    "corners are left over after the last loop",
    "the file is too short, or its length does not fit its count of facets",
    "the pitch is none of 1, 2, 5 and 10",
)

Triple = Tuple[int, int, int]
Point = Tuple[float, float, float]


class State(enum.IntEnum):
    """What became of a loop, or is declared of it in a patch set."""

    PATCHED = 1  #: closed with the lightest allowed cover
    LONG = 2  #: left open, since it has more than LONGEST edges
    OPEN = 3  #: left open, since it has no allowed cover
    RIM = 4  #: the rim of its piece, at any length: it is never patched


class Kind(enum.IntEnum):
    """What an entry of a report tells."""

    PIECE = 0  #: a piece
    RIM = 1  #: the rim of that piece
    POOL = 2  #: a tide pool of it: a loop that is no rim and shares a vertex with the rim
    LAKE = 3  #: a lake of it: any other loop that is no rim


class Refusal(ValueError):
    """The library refuses what it was given.

    number    1 to 10, 16 or 17, by the table of answers in docs/API.md
    place     where: a corner, triangle, half-edge or word, from 0; a line, from 1; for 9 how many loops there are
    sentence  the same in words
    """

    def __init__(self, number: int, place: int) -> None:
        super().__init__(number, place)
        self.number = number
        self.place = place

    @property
    def sentence(self) -> str:
        return _SENTENCES[self.number]

    def __str__(self) -> str:
        return f"answer {self.number},{self.place}: {self.sentence}"


# ---- The library ----

_FUNCTIONS = (
    "coordinate", "survey", "patch", "chart", "judge", "read", "read_set", "write", "list_text", "chart_text", "judge_texts", "rewrite_text",
    "read_stl", "size_stl", "import_stl",
)


def _is_older(library: ctypes.CDLL) -> bool:
    """Whether a library is from before loops had records. Such a one takes two buffers more, and so its results and its pitch, if it knows
    any, four places later. It is done with nothing at pitch 1 there; one of today finds a pointer for its pitch, which is none: 17."""
    nothing = [(ctypes.c_uint64 * 1)(), ctypes.c_size_t()] * 6
    results = [ctypes.byref(ctypes.c_size_t()) for _ in range(8)]
    return library.wazelpunt_patch(*nothing, *results, ctypes.c_uint32(1)) != 17


def _load() -> ctypes.CDLL:
    """The library, from the first place that has it."""
    names = ["libwazelpunt.so.3", "libwazelpunt.so"]
    folder = os.path.dirname(os.path.abspath(__file__))
    folders = [folder]
    if folder.endswith("/share/wazelpunt/python"):  # where `make install` puts it
        folders.append(os.path.normpath(os.path.join(folder, "../../../lib")))
    paths = [os.path.join(each, name) for each in folders for name in names]
    chosen = os.environ.get("WAZELPUNT_LIBRARY")
    problems = []
    for name in [chosen] if chosen else [path for path in paths if os.path.exists(path)] + names:
        try:
            library = ctypes.CDLL(name)
            for function in _FUNCTIONS:
                getattr(library, "wazelpunt_" + function).restype = ctypes.c_uint32
            library.wazelpunt_facet.restype = ctypes.c_size_t
            if _is_older(library):
                raise OSError(f"{name}: it is older than this module, and keeps no records of loops")
            return library
        except (OSError, AttributeError) as problem:
            # the system's sentences name the file
            problems.append(str(problem))
    raise ImportError("the library of wazelpunt could not be loaded (WAZELPUNT_LIBRARY may name its file): " + "; ".join(problems))


_LIBRARY = _load()


class _Slice:
    """Numbers that are given to the library or lent to it. Each call has slices of its own, so that no two threads share one."""

    def __init__(self, kind: Any, numbers: Any, count: int) -> None:
        # the library asks for a pointer that is not null, also where there is nothing
        self.array = (kind * max(count, 1))(*numbers)
        self.count = count


def _given(kind: Any, numbers: Tuple[int, ...]) -> _Slice:
    return _Slice(kind, numbers, len(numbers))


def _lent(kind: Any, count: int) -> _Slice:
    return _Slice(kind, (), count)


def _given_bytes(data: Any, what: str) -> _Slice:
    """The bytes of a text or of a file of facets, whatever holds them."""
    if isinstance(data, str):
        raise TypeError(f"{what} is bytes, not str: open the file with 'rb'")
    view = memoryview(data)
    if view.itemsize != 1:
        raise TypeError(f"{what} is bytes, not a buffer of {view.format!r}")
    given = _lent(ctypes.c_uint8, view.nbytes)
    ctypes.memmove(given.array, view.tobytes(), view.nbytes)
    return given


def _ask(function: str, *given: Any, counts: int, last: Any = None) -> Tuple[int, ...]:
    """Calls a function. Returns the number and the place of its answer, and its counts. Some have a pitch behind all else."""
    arguments: List[Any] = []
    for each in given:
        arguments += [each.array, ctypes.c_size_t(each.count)] if isinstance(each, _Slice) else [each]
    results = [ctypes.c_size_t() for _ in range(1 + counts)]
    behind = [] if last is None else [last]
    number = getattr(_LIBRARY, "wazelpunt_" + function)(*arguments, *map(ctypes.byref, results), *behind)
    return (number, *(result.value for result in results))


def _get(function: str, *given: Any, counts: int, last: Any = None) -> Tuple[int, ...]:
    """Calls a function that has to be done. Returns its counts."""
    number, place, *counted = _ask(function, *given, counts=counts, last=last)
    if number:
        raise Refusal(number, place)
    return tuple(counted)


def floats_are_default() -> bool:
    """Whether this thread computes with floats as the library needs it: rounding to the nearest, and denormal numbers kept.

    It does, unless something in the process changed that, such as a library that was linked with -ffast-math.
    """
    # a list, so that every step is computed now and none when the module is compiled
    even, odd, half, least = [4503599627370496.0, 4503599627370497.0, 0.5, sys.float_info.min]
    halved = least * half
    return even + half == even and odd + half == odd + 1 and halved + halved == least


# ---- What is given ----

# Which numbers of a buffer are taken, by kind (unsigned, signed, float) and bytes, and the code by which struct takes them. Binary32
# numbers are taken by their bits.
_COORDINATES = {("f", 2): "e", ("f", 4): "I", ("f", 8): "d"}
_WORDS = {("u", 4): "I"}
_WHOLES = {("u", 1): "B", ("u", 2): "H", ("u", 4): "I", ("u", 8): "Q", ("i", 1): "b", ("i", 2): "h", ("i", 4): "i", ("i", 8): "q"}


def _buffer(given: Any, what: str, codes: Dict[Tuple[str, int], str]) -> Any:
    """The numbers of a buffer (an array, a memoryview, an array of numpy), flat, and the code that took them; None if it is no buffer."""
    try:
        view = memoryview(given)
    except TypeError:
        return None
    order, form = "=", view.format
    if form[:1] in tuple("@=<>!"):
        order, form = form[0].replace("@", "="), form[1:]
    letter = "u" if form in tuple("BHILQN") else "i" if form in tuple("bhilqn") else "f" if form in tuple("efd") else ""
    kind = (letter, view.itemsize)
    if kind not in codes:
        hint = "; Surface.from_words takes bits" if codes is _COORDINATES and kind in _WORDS else ""
        raise TypeError(f"{what} cannot be taken from a buffer of {view.format!r}{hint}")
    if view.ndim not in (1, 2) or (view.ndim == 2 and view.shape[1] != 3):
        raise ValueError(f"{what} are taken from a flat buffer or from one of three columns, not from one of shape {view.shape}")
    return struct.unpack(f"{order}{view.nbytes // view.itemsize}{codes[kind]}", view.tobytes()), codes[kind]


def _flat(given: Iterable[Any], what: str, part: str) -> List[Any]:
    """The numbers of a list of triples, or of a list of numbers."""
    if isinstance(given, str):
        raise TypeError(f"{what}s cannot be taken from a str")
    numbers: List[Any] = []
    triples = 0
    for index, item in enumerate(given):
        if isinstance(item, (str, bytes, bytearray)) or not hasattr(item, "__iter__") or getattr(item, "shape", None) == ():
            numbers.append(item)  # whoever takes it says if it is no number
        else:
            triple = tuple(item)
            if len(triple) != 3:
                raise ValueError(f"{what} {index} has {len(triple)} {part}s, not 3")
            numbers += triple
            triples += 1
        if triples not in (0, index + 1):
            raise ValueError(f"{what}s are given one by one or as flat numbers, not as both: see item {index}")
    return numbers


def _word(value: Any, where: str) -> int:
    """The bits of the binary32 number that is nearest."""
    if isinstance(value, (str, bytes, bytearray)):
        raise TypeError(f"{where} is no number: {value!r}")
    try:
        return struct.unpack("=I", struct.pack("=f", float(value)))[0]
    except OverflowError:
        raise OverflowError(f"{where} is too large for a binary32 number") from None
    except (TypeError, ValueError):
        raise TypeError(f"{where} is no number: {value!r}") from None


def _whole(value: Any, where: str) -> int:
    try:
        return operator.index(value)
    except TypeError:
        raise TypeError(f"{where} is no whole number: {value!r}") from None


def _words_of(points: Any) -> Tuple[int, ...]:
    numbers, code = _buffer(points, "points", _COORDINATES) or (_flat(points, "point", "coordinate"), "")
    if code == "I":
        return numbers
    return tuple(_word(number, f"the {'xyz'[i % 3]} of point {i // 3}") for i, number in enumerate(numbers))


def _wholes_of(given: Any, what: str) -> Tuple[int, ...]:
    """Whole numbers, in triples or flat."""
    numbers, _ = _buffer(given, what + "s", _WHOLES) or (_flat(given, what, "corner"), "")
    return tuple(_whole(number, f"number {i} of the {what}s") for i, number in enumerate(numbers))


def _within(number: int, most: int, where: str) -> int:
    if not 0 <= number <= most:
        raise ValueError(f"{where} is {number}, not from 0 to {most}")
    return number


def _all_within(numbers: Tuple[int, ...], most: int, what: str) -> Tuple[int, ...]:
    return tuple(_within(number, most, f"number {i} of the {what}") for i, number in enumerate(numbers))


def _pitch_number(pitch: int) -> Any:
    """A pitch as it is handed over. A number that cannot be is no pitch, and neither is 0."""
    whole = _whole(pitch, "the pitch")
    return ctypes.c_uint32(whole if 0 <= whole <= 0xFFFFFFFF else 0)


def _by_three(numbers: Any) -> Tuple[Any, ...]:
    return tuple(tuple(numbers[i : i + 3]) for i in range(0, len(numbers), 3))


# ---- What is answered ----


@dataclasses.dataclass(frozen=True)
class Coordinate:
    """Where a coordinate goes on the grid: the nearest multiple of the pitch, a tie to the even one, and the rest, exactly."""

    whole: int
    rest: float


@dataclasses.dataclass(frozen=True)
class Survey:
    """What a surface is found to have: its points on the grid, and the ring of each loop, in listed order."""

    grid: Tuple[Triple, ...]
    rings: Tuple[Tuple[int, ...], ...]


@dataclasses.dataclass(frozen=True)
class Loop:
    """A loop: the vertices of its ring, its record, and the triangles that are laid in it, which are none but in state PATCHED.

    The record is length, state, weight, count, first, piece and run.
    """

    ring: Tuple[int, ...]
    state: State  #: what became of it
    weight: int  #: what its patch weighs; 0 in every state but PATCHED
    count: int  #: 0
    first: int  #: the half-edge that it is listed from, one of triangle first // 3: it runs from ring[0] to ring[1]
    piece: int  #: the piece that it lies in; they are numbered from 0 in the order of their smallest triangles
    run: int  #: how long it is on the grid, in plate units: over its edges, the three absolute differences added
    patches: Tuple[Triple, ...]

    @property
    def length(self) -> int:
        """How many edges it has."""
        return len(self.ring)

    @property
    def stays_open(self) -> bool:
        """Whether it is a gap that could not be closed. A rim is no gap."""
        return self.state in (State.LONG, State.OPEN)


@dataclasses.dataclass(frozen=True)
class Patched:
    """A patched surface: its points on the grid, and its loops in listed order."""

    grid: Tuple[Triple, ...]
    loops: Tuple[Loop, ...]

    @property
    def patches(self) -> Tuple[Triple, ...]:
        """The triangles of all patches, in the order in which they are laid."""
        return tuple(triangle for loop in self.loops for triangle in loop.patches)

    @property
    def patch_set(self) -> PatchSet:
        """The same as a patch set, which passes."""
        return PatchSet([loop.state for loop in self.loops], self.patches)


class Entry(NamedTuple):
    """An entry of a report: a piece, or a loop by what it is there."""

    kind: Kind
    number: int  #: of the piece, or of the loop, both from 0


@dataclasses.dataclass(frozen=True)
class Charted:
    """A charted surface: its points on the grid, its loops in listed order, and the report.

    The loops are those of Patched, but for the triangles of their patches, which are not kept: `patches` is empty in every state.

    The report has for each piece, from 0 on, the piece, its rim if it has open edges, its tide pools and its lakes, each in listed order;
    so each loop stands there once.
    """

    grid: Tuple[Triple, ...]
    loops: Tuple[Loop, ...]
    report: Tuple[Entry, ...]


@dataclasses.dataclass(frozen=True)
class Verdict:
    """The answer on a patch set: 0 if it passed, or a verdict 11 to 15 with its place. It counts as true if the set passed."""

    number: int
    place: int
    rings: Tuple[Tuple[int, ...], ...]  #: the ring of each loop, in listed order: places of 11 to 14 are loops

    @property
    def passed(self) -> bool:
        return self.number == 0

    @property
    def sentence(self) -> str:
        return _SENTENCES[self.number] if self.number else "passed"

    def __bool__(self) -> bool:
        return self.passed


def _rings(rings: _Slice, lengths: List[int]) -> Tuple[Tuple[int, ...], ...]:
    """Each loop's ring: they stand one after another."""
    found = []
    at = 0
    for length in lengths:
        found.append(tuple(rings.array[at : at + length]))
        at += length
    return tuple(found)


def _recorded(rings: _Slice, records: _Slice, loops: int) -> Iterator[Tuple[Tuple[int, ...], List[int]]]:
    """Each loop's ring and the numbers of its record."""
    numbers = records.array[: RECORD * loops]
    each = [numbers[RECORD * loop : RECORD * (loop + 1)] for loop in range(loops)]
    return zip(_rings(rings, [record[0] for record in each]), each)


@dataclasses.dataclass(frozen=True, init=False, repr=False)
class PatchSet:
    """A patch set: a state for each loop of a surface, and the patch triangles, loop after loop.

    states     whole numbers (State), in a list or a buffer
    triangles  triples of point numbers, or their numbers one after another, in a list or a buffer
    """

    states: Tuple[int, ...]
    corners: Tuple[int, ...]

    def __init__(self, states: Any = (), triangles: Any = ()) -> None:
        numbers, _ = _buffer(states, "states", _WHOLES) or (states, "")
        wholes = tuple(_whole(state, f"state {i}") for i, state in enumerate(numbers))
        named = tuple(State(state) if 1 <= state <= 4 else state for state in _all_within(wholes, 0xFFFF, "states"))
        object.__setattr__(self, "states", named)
        object.__setattr__(self, "corners", _all_within(_wholes_of(triangles, "triangle"), 0xFFFF, "triangles"))

    def __repr__(self) -> str:
        return f"<PatchSet: {len(self.states)} states, {len(self.corners) // 3} triangles>"

    @property
    def triangles(self) -> Tuple[Triple, ...]:
        return _by_three(self.corners)

    @classmethod
    def from_text(cls, text: bytes, lines_before: int = 0) -> PatchSet:
        """The set that a text says. Refusal 10 tells a wrong line, counted on from so many lines that come before."""
        before = _within(_whole(lines_before, "lines_before"), 0xFFFF, "lines_before")
        states, corners = _lent(ctypes.c_uint16, SET_STATES), _lent(ctypes.c_uint16, SET_CORNERS)
        stated, cornered = _get("read_set", _given_bytes(text, "a text"), ctypes.c_uint16(before), states, corners, counts=2)
        return cls(states.array[:stated], corners.array[:cornered])

    def text(self) -> bytes:
        """The text of the set. Refusal 10 tells the first line that such a text cannot have: a state of two digits, or too many lines."""
        triangles = ["t=" + ",".join(str(corner) for corner in triangle) for triangle in self.triangles]
        states = [f"s={int(state)}" for state in self.states]
        lines = [f"states={len(states)}", *states, f"triangles={len(triangles)}", *triangles]
        text = "".join(line + "\n" for line in lines).encode("ascii")
        PatchSet.from_text(text)  # what is written reads back
        return text


@dataclasses.dataclass(frozen=True, init=False, repr=False)
class Surface:
    """A surface of points and triangles.

    points     triples of coordinates, or coordinates one after another, in a list or in a buffer of binary16, 32 or 64
    triangles  triples of point numbers, or their numbers one after another, in a list or in a buffer of whole numbers
    pitch      1, 2, 5 or 10: how far apart the lines of its grid are, in plate units

    They are kept as words (the bits of the coordinates) and corners, flat; points and triangles tell them as triples. The points are as
    they were given, at any pitch: it is survey and patch that put them on the grid.

    Whether it is one that the library takes is told by what is asked of it. But a corner that is negative, or greater than 65,535, cannot
    even be handed over; it names no point, and is refused (4) when the surface is made.

    survey, patch, chart, judge and text go by the surface's pitch, unless another is given as pitch=.
    """

    words: Tuple[int, ...]
    corners: Tuple[int, ...]
    pitch: int

    def __init__(self, points: Any = (), triangles: Any = (), *, pitch: int = 1) -> None:
        self._set(_words_of(points), triangles, pitch)

    @classmethod
    def from_words(cls, words: Any, triangles: Any = (), *, pitch: int = 1) -> Surface:
        """The surface of points that are given by their words: the bits of binary32 numbers, in a list or a buffer of 32-bit numbers."""
        numbers, _ = _buffer(words, "words", _WORDS) or (_flat(words, "point", "word"), "")
        wholes = tuple(_whole(word, f"word {i}") for i, word in enumerate(numbers))
        surface = cls.__new__(cls)
        surface._set(_all_within(wholes, 0xFFFFFFFF, "words"), triangles, pitch)
        return surface

    def _set(self, words: Tuple[int, ...], triangles: Any, pitch: int) -> None:
        corners = _wholes_of(triangles, "triangle")
        # no surface has so many points, so the last number that can be handed over names none either
        taken = tuple(corner if 0 <= corner <= 0xFFFF else 0xFFFF for corner in corners)
        object.__setattr__(self, "words", words)
        object.__setattr__(self, "corners", taken)
        object.__setattr__(self, "pitch", _whole(pitch, "the pitch"))
        if taken != corners:
            self.text()

    def __repr__(self) -> str:
        at = "" if self.pitch == 1 else f", pitch {self.pitch}"
        return f"<Surface: {len(self.words) // 3} points, {len(self.corners) // 3} triangles{at}>"

    @property
    def points(self) -> Tuple[Point, ...]:
        return _by_three(struct.unpack(f"={len(self.words)}f", struct.pack(f"={len(self.words)}I", *self.words)))

    @property
    def triangles(self) -> Tuple[Triple, ...]:
        return _by_three(self.corners)

    @classmethod
    def from_text(cls, text: bytes) -> Surface:
        """The surface that a sheet text says, with its pitch. Refusal 10 tells a wrong line, 4 a corner that names no point."""
        pitch = ctypes.c_uint32()
        words, corners = cls._read("read", _given_bytes(text, "a text"), ctypes.byref(pitch))
        return cls.from_words(words, corners, pitch=pitch.value)

    @classmethod
    def from_stl(cls, data: bytes, *, pitch: int = 1) -> Surface:
        """The surface of a binary STL. Corners whose words agree are one point; points are numbered by first use; facet k is triangle k.
        The file says no pitch, so it is the one that is given.

        Refusal 16 tells a file that is too short, or whose length does not fit its count of facets, 2 too many facets, 1 too many points.
        What else may be wrong with the surface, refusals 5 to 8, is told by what is asked of it.
        """
        return cls.from_words(*cls._read("read_stl", _given_bytes(data, "an STL file")), pitch=pitch)

    @staticmethod
    def _read(function: str, given: _Slice, last: Any = None) -> Tuple[List[int], List[int]]:
        """Words and corners of a text or a file."""
        words, corners = _lent(ctypes.c_uint32, WORDS), _lent(ctypes.c_uint16, CORNERS)
        worded, cornered = _get(function, given, words, corners, counts=2, last=last)
        return words.array[:worded], corners.array[:cornered]

    def text(self, *, pitch: Optional[int] = None) -> bytes:
        """The sheet text of the surface, with a line for its pitch where that is not 1. Refusals 17, 1, 2 and 4."""
        text = _lent(ctypes.c_uint8, SHEET_BYTES)
        (count,) = _get("write", *self._given(), text, counts=1, last=self._pitch(pitch))
        return bytes(text.array[:count])

    def survey(self, *, pitch: Optional[int] = None) -> Survey:
        """Finds the loops. Refusals 17, 1, 2 and 4 to 8."""
        lent = self._lent()
        loops, _ = _get("survey", *self._given(), *lent, counts=2, last=self._pitch(pitch))
        grid, rings, lengths = lent
        return Survey(_by_three(grid.array[: grid.count]), _rings(rings, lengths.array[:loops]))

    def patch(self, *, pitch: Optional[int] = None) -> Patched:
        """Finds the loops and patches them. Refusals 17, 1, 2 and 4 to 8."""
        grid, rings, _ = self._lent()
        records = _lent(ctypes.c_uint64, RECORD * (len(self.corners) // 3))
        patches = _lent(ctypes.c_uint16, 3 * len(self.corners))
        count, _, laid = _get("patch", *self._given(), grid, rings, records, patches, counts=3, last=self._pitch(pitch))
        triangles_left = iter(_by_three(patches.array[:laid]))
        loops = []
        for ring, (length, state, *record) in _recorded(rings, records, count):
            # a cover of a ring has two triangles fewer than the ring has vertices
            cover = length - 2 if state == State.PATCHED else 0
            loops.append(Loop(ring, State(state), *record, tuple(next(triangles_left) for _ in range(cover))))
        return Patched(_by_three(grid.array[: grid.count]), tuple(loops))

    def chart(self, *, pitch: Optional[int] = None) -> Charted:
        """Finds the loops, and reports for each piece its rim, its tide pools and its lakes. Refusals 17, 1, 2 and 4 to 8."""
        grid, rings, _ = self._lent()
        triangles = len(self.corners) // 3
        records, report = _lent(ctypes.c_uint64, RECORD * triangles), _lent(ctypes.c_uint16, 2 * ENTRY * triangles)
        count, _, entries = _get("chart", *self._given(), grid, rings, records, report, counts=3, last=self._pitch(pitch))
        numbers = report.array[: ENTRY * entries]
        told = tuple(Entry(Kind(kind), number) for kind, number in zip(numbers[::ENTRY], numbers[1::ENTRY]))
        loops = (Loop(ring, State(state), *record, ()) for ring, (_, state, *record) in _recorded(rings, records, count))
        return Charted(_by_three(grid.array[: grid.count]), tuple(loops), told)

    def judge(self, patch_set: PatchSet, *, pitch: Optional[int] = None) -> Verdict:
        """Judges a patch set for this surface. Refusals 17, 1, 2 and 4 to 9; a verdict 11 to 15 is returned."""
        lent = self._lent()
        set_given = _given(ctypes.c_uint16, patch_set.states), _given(ctypes.c_uint16, patch_set.corners)
        number, place, loops, _ = _ask("judge", *self._given(), *set_given, *lent, counts=2, last=self._pitch(pitch))
        if 1 <= number <= 10 or number == 17:
            raise Refusal(number, place)
        return Verdict(number, place, _rings(lent[1], lent[2].array[:loops]))

    def _pitch(self, other: Optional[int]) -> Any:
        return _pitch_number(self.pitch if other is None else other)

    def _given(self) -> Tuple[_Slice, _Slice]:
        return _given(ctypes.c_uint32, self.words), _given(ctypes.c_uint16, self.corners)

    def _lent(self) -> Tuple[_Slice, _Slice, _Slice]:
        """Grid, rings and lengths."""
        corners = len(self.corners)
        return _lent(ctypes.c_int32, len(self.words)), _lent(ctypes.c_uint16, corners), _lent(ctypes.c_uint16, corners // 3)


def coordinate(x: float, *, pitch: int = 1) -> Coordinate:
    """Where a coordinate goes on the grid of a pitch. Refusals 17, 7, it is not finite, and 8, the multiple is too far out."""
    whole, rest, word = ctypes.c_int32(), ctypes.c_uint32(), ctypes.c_uint32(_word(x, "the coordinate"))
    number = _LIBRARY.wazelpunt_coordinate(word, ctypes.byref(whole), ctypes.byref(rest), _pitch_number(pitch))
    if number:
        raise Refusal(number, 0)
    return Coordinate(whole.value, struct.unpack("=f", struct.pack("=I", rest.value))[0])


# ---- Texts ----


def _printed(function: str, room: int, *given: _Slice) -> bytes:
    out = _lent(ctypes.c_uint8, room)
    (count,) = _get(function, *given, out, counts=1)
    return bytes(out.array[:count])


def list_text(sheet: bytes) -> bytes:
    """The listing of a sheet text: the answer's line, and after answer=0,0 the loops. It refuses nothing: the answer is in the listing."""
    return _printed("list_text", LISTING_BYTES, _given_bytes(sheet, "a text"))


def chart_text(sheet: bytes) -> bytes:
    """The report of a sheet text: the answer's line, and after answer=0,0 the entries. It refuses nothing: the answer is in the report."""
    return _printed("chart_text", REPORT_BYTES, _given_bytes(sheet, "a text"))


def judge_texts(sheet: bytes, patches: bytes) -> bytes:
    """The answer's line on the text of a patch set for a sheet text."""
    return _printed("judge_texts", ANSWER_BYTES, _given_bytes(sheet, "a text"), _given_bytes(patches, "a text"))


def rewrite_text(sheet: bytes) -> bytes:
    """A sheet text read and written again, which is the same text; or the answer's line."""
    return _printed("rewrite_text", SHEET_BYTES, _given_bytes(sheet, "a text"))


# ---- Files of facets (binary STL) ----


def import_stl(data: bytes) -> bytes:
    """The sheet text of a binary STL at pitch 1, or the answer's line. It refuses nothing: the answer is in the line.

    The text at another pitch is Surface.from_stl(data, pitch=5).text().
    """
    return _printed("import_stl", SHEET_BYTES, _given_bytes(data, "an STL file"))


def size_stl(length: int, count: int) -> int:
    """The number by which a binary STL of so many bytes, with that count of facets at byte 80, is answered for its size: 0, 16 or 2.

    For a file that is not at hand as a whole. What has fewer than 84 bytes has no count; then any number will do.
    """
    long = _within(_whole(length, "the length"), 2 * sys.maxsize + 1, "the length")
    counted = _within(_whole(count, "the count"), 0xFFFFFFFF, "the count")
    return _LIBRARY.wazelpunt_size_stl(ctypes.c_size_t(long), ctypes.c_uint32(counted))


def facets(data: bytes) -> Iterator[Tuple[Point, Point, Point]]:
    """Hands out the facets of a binary STL one after the other, each as its three corners (x, y, z). Negative zero comes out as zero.

    It goes by the bytes alone, as far as they make up facets, so that one can also look into a file that is refused.
    """
    return _facets(_given_bytes(data, "an STL file"))


def _facets(file: _Slice) -> Iterator[Tuple[Point, Point, Point]]:
    at = ctypes.c_size_t(STL_FRONT)
    floats = _lent(ctypes.c_float, 9)
    arguments = file.array, ctypes.c_size_t(file.count), ctypes.byref(at), floats.array, ctypes.c_size_t(floats.count)
    while _LIBRARY.wazelpunt_facet(*arguments):
        yield _by_three(floats.array)


# ---- The command line ----


def _size_answer(file: Any, data: bytes) -> int:
    """The number for the size of a binary STL that begins so. It is counted on to its end, or until it is longer than its count says."""
    count = int.from_bytes(data[80:84], "little")
    length = more = len(data)
    while more and length <= STL_FRONT + STL_FACET_BYTES * count:
        more = len(file.read(1 << 16))
        length += more
    return size_stl(length, count)


def _listing(file: Any) -> bytes:
    """The listing of the sheet in an open file, which is a text or a binary STL."""
    data = file.read(STL_BYTES)  # a text that is longer still has the same answer
    if b"\0" not in data:  # an STL of less than 842 MB has one in its count
        return list_text(data)
    number = _size_answer(file, data)
    if number == 16 and data.startswith((b"points=", b"pitch=")):
        return list_text(data)
    sheet = f"answer={number},0\n".encode() if number else import_stl(data)
    return sheet if sheet.startswith(b"answer=") else list_text(sheet)


def _main(words: List[str]) -> int:
    """Prints the listing of a sheet. The status is 0; 1 if the sheet is refused; 2 for wrong use, or if reading or writing fails."""
    if len(words) != 1 or words[0] in ("-h", "--help"):
        asked = words in (["-h"], ["--help"])
        usage = "usage: python3 -m wazelpunt SHEET      prints the listing of a sheet text or a binary STL (pitch 1); - is standard input"
        print(usage, file=sys.stdout if asked else sys.stderr)
        return 0 if asked else 2
    piped = words[0] == "-"
    name = "standard input" if piped else words[0]
    try:
        with open(0 if piped else words[0], "rb", closefd=not piped) as file:
            listing = _listing(file)
    except OSError as problem:
        print(f"wazelpunt: {name}: {problem.strerror}", file=sys.stderr)
        return 2
    if sys.stdout is None:
        print("wazelpunt: standard output is closed", file=sys.stderr)
        return 2
    try:
        sys.stdout.buffer.write(listing)
        sys.stdout.buffer.flush()
    except OSError as problem:
        print(f"wazelpunt: standard output cannot be written: {problem.strerror}", file=sys.stderr)
        os.dup2(os.open(os.devnull, os.O_WRONLY), 1)  # what could not be written is not tried again at the end
        return 2
    number, place = map(int, listing.split(b"\n", 1)[0][len(b"answer=") :].split(b","))
    if number:
        print(f"wazelpunt: {name}: refused, {Refusal(number, place)}", file=sys.stderr)
    return 1 if number else 0


if __name__ == "__main__":
    sys.exit(_main(sys.argv[1:]))
