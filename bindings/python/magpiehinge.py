"""Magpiehinge, the reference searcher, for Python: every function of include/magpiehinge.h.

Lists of whole numbers go in and tuples come out. Vectors are flat, point after
point; a bytes object stands for coordinates in two's complement. A refusal
raises Refused with its number. The module makes the buffers that C callers
lend, so refusals that are only about a buffer do not occur (build's 4, the
search's 10, the writer's 14, and 3 and 5 of the sheet readers).

A number that its C type cannot hold (a coordinate of 200, a start of 70,000)
raises ValueError: it would reach the library as another number.

`tools/python` makes the library. It is looked for where the environment
variable MAGPIEHINGE_LIBRARY says, else in target/python/ of this repository.
"""

import ctypes
import functools
import operator
import os
import pathlib
from collections import namedtuple

MEANINGS = {
    1: "n is 0 or over 128",
    2: "d is 0 or over 64",
    3: "vectors are not n * d long",
    4: "table is not n * n long",
    5: "query is not d long (writer: queries are not asks * d)",
    6: "start, current or asked id is n or more (writer: start over 127)",
    7: "width is 0 or over 128",
    8: "k is 0 or over the width (writer: 0 or over 128)",
    9: "threshold over 32,767",
    10: "id or distance buffer shorter than k, or trail buffer shorter than n",
    11: "coordinate width 0 or over 8",
    12: "over 127 asks, or ask numbers not 4 * asks long",
    13: "a coordinate or query value does not fit the coordinate width",
    14: "output shorter than the sheet",
    15: "sheet under 3 bytes, or shorter than its header requires",
    16: "sheet longer than required, or a filling bit is 1",
    17: "ask number not below the sheet's count",
    18: "a step is due to move and the record has 127 moves or more",
}

MOST_POINTS = 128
MOST_BYTES = 16_895


class Refused(Exception):
    """The library refused: `number` is the refusal number, `meaning` its words."""

    def __init__(self, number):
        super().__init__(number)
        self.number = number
        self.meaning = MEANINGS.get(number, "unknown refusal")

    def __str__(self):
        return f"refused {self.number}: {self.meaning}"


Answer = namedtuple("Answer", "found seen walked ids distances trail")
Answer.__doc__ = "What a search gives: three counts, then three tuples of the lengths found, found and walked."
Step = namedtuple("Step", "moved current moves")
Step.__doc__ = "Whether the record moved, and the record afterwards."
End = namedtuple("End", "last distance moves")
End.__doc__ = "Where a whole walk ends: the last id, its squared distance, the number of moves."
Header = namedtuple("Header", "n d c asks")
Header.__doc__ = "What a sheet's header says: points, coordinates, coordinate width, asks."
Ask = namedtuple("Ask", "start width k threshold query")
Ask.__doc__ = "One ask of a sheet: its four numbers and its query."


def point(n, d, vectors, id):
    """The coordinates of a point. Refusals: 1, 2, 3, 6."""
    values = _array(ctypes.c_int8, vectors)
    start, count = ctypes.c_size_t(), ctypes.c_size_t()
    _call("point", _size(n), _size(d), *values.lent, _size(id), *_cells(start, count))
    return tuple(values.cells[start.value : start.value + count.value])


def distance(a, b):
    """The squared distance, over the coordinates that both have and at most 64 of them."""
    a, b = _array(ctypes.c_int8, a), _array(ctypes.c_int8, b)
    return _library().magpiehinge_distance(*a.lent, *b.lent)


def build(n, d, vectors):
    """The label table: n * n cells, row after row. Refusals: 1 to 3."""
    table = _Lent(ctypes.c_uint16, n * n if _usable(n) else 0)
    _call("build", *_set(n, d, vectors), *table.lent)
    return table.first(n * n)


def search(n, d, vectors, table, query, *, start, threshold, width, k):
    """A search of the table, taken as it is: an Answer. Refusals: 1 to 9."""
    room = k if 0 <= k <= MOST_POINTS else 0
    ids, distances = _Lent(ctypes.c_uint16, room), _Lent(ctypes.c_uint32, room)
    trail = _Lent(ctypes.c_uint16, n if _usable(n) else 0)
    found, seen, walked = ctypes.c_size_t(), ctypes.c_size_t(), ctypes.c_size_t()
    numbers = [_fit(ctypes.c_uint16, number) for number in (start, threshold, width, k)]
    _call(
        "search",
        *_searched(n, d, vectors, table, query),
        *numbers,
        *ids.lent,
        *distances.lent,
        *trail.lent,
        *_cells(found, seen, walked),
    )
    return Answer(
        found.value,
        seen.value,
        walked.value,
        ids.first(found.value),
        distances.first(found.value),
        trail.first(walked.value),
    )


def step(n, d, vectors, table, query, *, threshold, current, moves):
    """One greedy step of a walk record: a Step. Refusals: 1 to 6, 9, 18."""
    current, moves = _fit(ctypes.c_uint16, current), _fit(ctypes.c_uint16, moves)
    moved = ctypes.c_uint8()
    _call(
        "step",
        *_searched(n, d, vectors, table, query),
        _fit(ctypes.c_uint16, threshold),
        *_cells(current, moves, moved),
    )
    return Step(moved.value == 1, current.value, moves.value)


def walk(n, d, vectors, table, query, *, start, threshold):
    """The whole greedy walk from a start: an End. Refusals: 1 to 6, 9."""
    last, distance, moves = ctypes.c_uint16(), ctypes.c_uint32(), ctypes.c_uint16()
    _call(
        "walk",
        *_searched(n, d, vectors, table, query),
        _fit(ctypes.c_uint16, start),
        _fit(ctypes.c_uint16, threshold),
        *_cells(last, distance, moves),
    )
    return End(last.value, distance.value, moves.value)


def write(n, d, c, asks, vectors, numbers, queries):
    """The bytes of a test sheet with coordinates of c bits.

    `numbers` has start, width, k and threshold of each ask, `queries` the
    queries, ask after ask. Refusals: 1, 2, 11, 12, 3, 5; then ask by ask 6, 7,
    8, 9; then 13.
    """
    output, written = _Lent(ctypes.c_uint8, MOST_BYTES), ctypes.c_size_t()
    values, numbers = _array(ctypes.c_int8, vectors), _array(ctypes.c_uint16, numbers)
    queries = _array(ctypes.c_int8, queries)
    _call(
        "write",
        *(_size(number) for number in (n, d, c, asks)),
        *values.lent,
        *numbers.lent,
        *queries.lent,
        *output.lent,
        *_cells(written),
    )
    return bytes(output.first(written.value))


def header(sheet):
    """What a sheet's header says: a Header. Refusals: 15, 12, 15, 16, 16."""
    sheet = _array(ctypes.c_uint8, sheet)
    numbers = [ctypes.c_size_t() for _ in range(4)]
    _call("header", *sheet.lent, *_cells(*numbers))
    return Header(*(number.value for number in numbers))


def vectors(sheet):
    """A sheet's vectors, point after point. Refusals: the header's."""
    head = header(sheet)
    buffer = _Lent(ctypes.c_int8, head.n * head.d)
    _call("vectors", *_array(ctypes.c_uint8, sheet).lent, *buffer.lent)
    return buffer.first(head.n * head.d)


def ask(sheet, number):
    """One ask of a sheet: an Ask. Refusals: the header's, then 17."""
    head = header(sheet)
    query = _Lent(ctypes.c_int8, head.d)
    numbers = [ctypes.c_uint16() for _ in range(4)]
    _call(
        "ask",
        *_array(ctypes.c_uint8, sheet).lent,
        _fit(ctypes.c_uint16, number),
        *query.lent,
        *_cells(*numbers),
    )
    return Ask(*(number.value for number in numbers), query.first(head.d))


# What follows turns Python's values into C's and back.


class _Lent:
    """Cells of one C type, lent as a pointer and a length."""

    def __init__(self, kind, length):
        self.length = length
        # One cell at least: the pointer may not be null.
        self.cells = (kind * max(length, 1))()

    @property
    def lent(self):
        return (self.cells, ctypes.c_size_t(self.length))

    def first(self, count):
        return tuple(self.cells[:count])


def _array(kind, values):
    if isinstance(values, (bytes, bytearray)) and ctypes.sizeof(kind) == 1:
        array = _Lent(kind, len(values))
        ctypes.memmove(array.cells, bytes(values), len(values))
        return array
    values = list(values)
    array = _Lent(kind, len(values))
    for place, value in enumerate(values):
        array.cells[place] = _fit(kind, value).value
    return array


def _fit(kind, value):
    # ctypes would cut a number that is too large without a word.
    value = operator.index(value)
    number = kind(value)
    if number.value != value:
        raise ValueError(f"{value} does not fit {kind.__name__.removeprefix('c_')}")
    return number


def _size(value):
    return _fit(ctypes.c_size_t, value)


def _usable(n):
    # No room is made for a set that is refused anyway.
    return 0 < n <= MOST_POINTS


def _set(n, d, vectors):
    return (_size(n), _size(d), *_array(ctypes.c_int8, vectors).lent)


def _searched(n, d, vectors, table, query):
    table, query = _array(ctypes.c_uint16, table), _array(ctypes.c_int8, query)
    return (*_set(n, d, vectors), *table.lent, *query.lent)


def _cells(*cells):
    return [ctypes.byref(cell) for cell in cells]


def _call(name, *arguments):
    number = getattr(_library(), "magpiehinge_" + name)(*arguments)
    if number:
        raise Refused(number)


@functools.lru_cache(maxsize=None)
def _library():
    top = pathlib.Path(__file__).resolve().parent.parent.parent
    path = os.environ.get("MAGPIEHINGE_LIBRARY") or top / "target/python/libmagpiehinge.so"
    if not os.path.exists(path):
        raise OSError(f"{path} is missing: make it with tools/python, or name it in MAGPIEHINGE_LIBRARY")
    library = ctypes.CDLL(os.path.abspath(path))
    for name in ("point", "build", "search", "step", "walk", "write", "header", "vectors", "ask"):
        getattr(library, "magpiehinge_" + name).restype = ctypes.c_uint8
    library.magpiehinge_distance.restype = ctypes.c_uint32
    return library
