"""openquant's ONC grouping, proved in Rattle, for Python 3.8 and later.

group(book, seed) groups the names of a correlation matrix by a seed, group_with_draws(book, draws) with draws of the caller's own, which draws_for and
draws_enough count; mean, variance and std_dev are the averages below it; check_book checks a book in whole millionths. Bad input raises Refusal or
Improper, with the numbers of the library's table, or a ValueError or TypeError where Python's own types are at fault.

ONC_LIBRARY names the shared object; else it is target/lib/libonc.so of the repository, which bindings/build.sh writes.
"""

import ctypes
import functools
import math
import operator
import os
import struct
from collections.abc import Mapping, Sequence, Set
from dataclasses import dataclass
from typing import Any, Dict, List, Optional, Tuple

__all__ = [
    "group", "group_with_draws", "DEFAULT_SEED", "Grouping", "Refusal", "Improper", "mean", "variance", "std_dev", "check_book", "draws_for", "draws_enough",
]  # fmt: skip

DEFAULT_SEED = 42
_MOST_NAMES = 256
_MOST_REPEATS = 64
_ROUNDS = 32

# The table: the cause and its description. {} is the place, for those that have one.
_CAUSES = {
    1: ("InvalidRepeat", "no repeats"),
    2: ("InvalidCorrelationMatrix", "the matrix is not square or has under two rows"),
    3: ("ClusteringFailed", "no candidate has a t-stat above -infinity"),  # never returned: every round has a candidate
    4: ("TooLarge", "over 256 rows, over 64 repeats, or an average of over 65,536 values"),
    5: ("CellCount", "the cells are not rows times rows"),
    6: ("ListLength", "a list has the wrong length"),
    7: ("TooFewDraws", "too few draws, after {} were read"),  # 7 and 8 only with draws of the caller's own
    8: ("DrawOutOfRange", "the draw at {} is out of range"),
    9: ("TooManyRounds", "a 33rd round would start"),
    10: ("OutOfRange", "the label, centre or row number at {} is out of range"),
    11: ("Layout", "the text is not in the layout"),
    29: ("GroupCount", "the group count is outside 2 to the number of items"),
    30: ("InvalidGrouping", "the grouping has a name missing or twice, or sizes that do not fit"),
}
_PLACED = (7, 8, 10)

_FAULTS = {
    21: ("Range", "is outside -1,000,000 to 1,000,000"),
    22: ("Diagonal", "is on the diagonal and not 1,000,000"),
    23: ("Mirror", "is unlike its mirror"),
}


class Refusal(Exception):
    """A refused call: number and cause by the table, and the place where the table names one (the draws read for 7), else None."""

    def __init__(self, number: int, place: Optional[int] = None):
        self.number = number
        self.cause, self._text = _CAUSES[number]
        self.place = place if number in _PLACED else None
        super().__init__(number, self.place)

    def __str__(self) -> str:
        return "refused {}: {}".format(self.number, self._text.format(self.place))


class Improper(Exception):
    """A book in millionths that is not proper: number (21 to 23), cause, row and column of its first faulty cell, and place, row times n plus column."""

    def __init__(self, number: int, row: int, column: int, place: int):
        self.number = number
        self.cause, self._text = _FAULTS[number]
        self.row = row
        self.column = column
        self.place = place
        super().__init__(number, row, column, place)

    def __str__(self) -> str:
        return "refused {}: the cell in row {}, column {} {}".format(self.number, self.row, self.column, self._text)


@dataclass(frozen=True)
class Grouping:
    """A grouping by name. The names are those given to group, or 0 to n - 1."""

    groups: List[List[Any]]
    """the groups by rising number, each the list of its names"""
    scores: Dict[Any, float]
    """the silhouette score of each name"""
    labels: Dict[Any, int]
    """the number of each name's group"""
    order: List[Any]
    """the names, the groups one after the other"""
    sizes: List[int]
    """the size of each group"""
    ordered: List[List[float]]
    """the matrix by rows, its rows and columns in the order of `order`"""
    draws_read: int
    """how many draws were read, of the seed's generator or from the front of the list"""


_doubles_in = ctypes.POINTER(ctypes.c_double)
_draws_in = ctypes.POINTER(ctypes.c_uint64)
_cells_in = ctypes.POINTER(ctypes.c_int64)
_sizes_in = ctypes.POINTER(ctypes.c_size_t)


@functools.lru_cache(maxsize=None)
def _library() -> ctypes.CDLL:
    here = os.path.dirname(os.path.abspath(__file__))
    path = os.environ.get("ONC_LIBRARY") or os.path.join(here, "..", "..", "target", "lib", "libonc.so")
    path = os.path.abspath(path)
    if not os.path.isfile(path):
        raise OSError("the shared object {} is not there: run bindings/build.sh, or set ONC_LIBRARY".format(path))
    library = ctypes.CDLL(path)
    size = ctypes.c_size_t
    doubles, draws, cells, sizes = [_doubles_in, size], [_draws_in, size], [_cells_in, size], [_sizes_in, size]
    lent = sizes + sizes + doubles + doubles + doubles + sizes + sizes
    for name, arguments, result in [
        ("onc_get_onc_clusters_with_seed", doubles + [size, size, size] + [ctypes.c_uint64] + lent, size),
        ("onc_get_onc_clusters_with_draws", doubles + [size, size, size] + draws + lent, size),
        ("onc_mean", doubles + doubles + sizes, size),
        ("onc_variance", doubles + [size] + doubles + sizes, size),
        ("onc_std_dev", doubles + [size] + doubles + sizes, size),
        ("onc_check_book", cells + [size, size] + sizes, size),
        ("onc_draws_for", [size], ctypes.c_uint64),
    ]:
        function = getattr(library, name)
        function.argtypes = arguments
        function.restype = result
    return library


def _array(kind, values):
    """An array of these values. It has room for one more, so that its pointer is never null."""
    return (kind * (len(values) + 1))(*values)


def _room(kind, length: int):
    """An array of zeros, likewise."""
    return (kind * (length + 1))()


def _view(values) -> Optional[memoryview]:
    """The buffer of an object that has one."""
    try:
        return memoryview(values)
    except TypeError:
        return None


def _format(view: memoryview, kinds: str, what: str) -> Tuple[str, str]:
    """The byte order and the kind of a buffer's items; a TypeError unless the kind is one of these."""
    order, kind = (view.format[0], view.format[1:]) if view.format.startswith(tuple("@=<>!")) else ("@", view.format)
    if len(kind) != 1 or kind not in kinds or struct.calcsize(order + kind) != view.itemsize:
        raise TypeError("{}: a buffer of format {!r} and {} bytes an item is not read".format(what, view.format, view.itemsize))
    return order, kind


def _unpacked(view: memoryview, order: str, kind: str) -> Sequence:
    """The items of a buffer in C order, whatever its strides and its byte order."""
    data = view.tobytes()
    return struct.unpack("{}{}{}".format(order, len(data) // view.itemsize, kind), data)


def _double(value) -> float:
    # float() reads texts and bytes too, which are no numbers here.
    number = hasattr(type(value), "__float__") or hasattr(type(value), "__index__")
    if isinstance(value, str) or not number:
        raise TypeError
    return float(value)


def _items(values, kinds: str, read, what: str) -> Sequence:
    """The items of a flat list, each by `read`, or of a one-dimensional buffer of these kinds."""
    view = _view(values)
    if view is not None:
        order, kind = _format(view, kinds, what)
        if view.ndim != 1:
            raise ValueError("{}: a buffer of {} dimensions, not one".format(what, view.ndim))
        return _unpacked(view, order, kind)
    if not isinstance(values, Sequence) or isinstance(values, str):
        raise TypeError("{}: {} is neither a list nor a buffer".format(what, type(values).__name__))
    items = []
    for value in values:
        try:
            items.append(read(value))
        except TypeError:
            raise TypeError("{}: item {} is {}".format(what, len(items), type(value).__name__)) from None
        except OverflowError:
            raise ValueError("{}: item {} is too large for a double".format(what, len(items))) from None
    return items


_DOUBLES = ("df", _double)
# Items of one byte are left out: bytes are no list of numbers.
_WHOLES = ("hHiIlLqQ", operator.index)


def _size(value, what: str) -> int:
    """A whole number of 64 bits, as sizes and seeds are."""
    try:
        whole = operator.index(value)
    except TypeError:
        raise TypeError("{} is {}, not a whole number".format(what, type(value).__name__)) from None
    if not 0 <= whole < 2**64:
        raise ValueError("{} is below 0 or not below 2**64".format(what))
    return whole


def _draws(values) -> Sequence:
    draws = _items(values, *_WHOLES, "draws")
    if draws and (min(draws) < 0 or max(draws) >= 2**64):
        place = next(i for i, draw in enumerate(draws) if not 0 <= draw < 2**64)
        raise ValueError("draws: item {} is below 0 or not below 2**64".format(place))
    return draws


def _matrix(book, kinds: str, read) -> Tuple[int, int, Sequence]:
    """Rows, columns and cells of a list of rows or of a buffer of one or two dimensions. There are cells for 1 to 256 rows and as many columns alone:
    the library refuses all other matrices without them (2, 4)."""
    view = _view(book)
    if view is not None:
        order, kind = _format(view, kinds, "book")
        if view.ndim == 1:
            rows = cols = math.isqrt(view.shape[0])
            if rows * cols != view.shape[0]:
                raise ValueError("book: a buffer of {} items is not a square matrix".format(view.shape[0]))
        elif view.ndim == 2:
            rows, cols = view.shape
        else:
            raise ValueError("book: a buffer of {} dimensions, not one or two".format(view.ndim))
        if rows != cols or rows > _MOST_NAMES:
            return rows, cols, []
        return rows, cols, _unpacked(view, order, kind)
    if not isinstance(book, Sequence) or isinstance(book, str):
        raise TypeError("book: {} is neither a list of rows nor a buffer".format(type(book).__name__))
    rows = [_items(row, kinds, read, "book: row {}".format(i)) for i, row in enumerate(book)]
    cols = len(rows[0]) if rows else 0
    for i, row in enumerate(rows):
        if len(row) != cols:
            raise ValueError("book: row {} has {} cells, row 0 has {}".format(i, len(row), cols))
    if len(rows) != cols or cols > _MOST_NAMES:
        return len(rows), cols, []
    return cols, cols, [cell for row in rows for cell in row]


def _names(names, count: int) -> List[Any]:
    """The names, each hashable and given once."""
    if names is None:
        return list(range(count))
    ordered = hasattr(type(names), "__len__") and hasattr(type(names), "__getitem__")
    if not ordered or isinstance(names, (str, bytes, bytearray, Mapping, Set)):
        raise TypeError("names: {} is not a list of names".format(type(names).__name__))
    listed = list(names)
    if len(listed) != count:
        raise ValueError("names: {} for a book of {} rows".format(len(listed), count))
    if len(set(listed)) != count:
        raise ValueError("names: a name is given twice")
    return listed


def group(book, seed: int = DEFAULT_SEED, repeat: int = 1, names=None) -> Grouping:
    """Groups the names of a book by ONC: k-means for every number of groups, the best silhouette t-stat, weak groups clustered again.

    book: a correlation matrix of 2 to 256 names, as a list of rows, or as a buffer of doubles or floats with one dimension (row by row) or two.
    NaN and infinite cells are taken. A buffer of integers is refused by a TypeError: it may be a book in millionths.
    seed: 0 to 2**64 - 1. The random draws are those of Rust's StdRng (rand 0.10), seeded by seed_from_u64; the same seed gives the same grouping.
    repeat: 1 to 64. names: one for each row, each once; without them the names are 0, 1, ..
    """
    return _grouping("onc_get_onc_clusters_with_seed", book, repeat, [_size(seed, "seed")], names)


def group_with_draws(book, draws, repeat: int = 1, names=None) -> Grouping:
    """As group, with draws of the caller's own in place of a seed.

    draws: the random draws as a list or a buffer of whole numbers. For each repeat and each number of groups of a round the first is an index, below
    the number of the round's names; those behind it are shares, below 2**53 and meaning themselves over 2**53 (indexes again where the names' least
    squared distances to a centre do not sum to more than 0). draws_enough says how many are always enough. Zeros, in range everywhere, are for trying
    out; random numbers below the number of names everywhere give poor groupings. random_draws.py beside this file makes proper ones.
    """
    draws = _draws(draws)
    return _grouping("onc_get_onc_clusters_with_draws", book, repeat, [_array(ctypes.c_uint64, draws), len(draws)], names)


def _grouping(function: str, book, repeat: int, source: Sequence, names) -> Grouping:
    """The grouping that this function of the library answers; source is the seed, or the draws and how many they are."""
    rows, cols, cells = _matrix(book, *_DOUBLES)
    repeat = _size(repeat, "repeat")
    # Without cells the library refuses the call before it asks for lists.
    n = rows if cells else 0
    names = _names(names, n) if cells else []
    order, sizes = _room(ctypes.c_size_t, n), _room(ctypes.c_size_t, n)
    scores, ordered = _room(ctypes.c_double, n), _room(ctypes.c_double, n * n)
    floats_length, numbers_length = 8 * n * n + 256 * n, 320 * n
    floats, numbers = _room(ctypes.c_double, floats_length), _room(ctypes.c_size_t, numbers_length)
    answer = _room(ctypes.c_size_t, 4)
    number = getattr(_library(), function)(
        _array(ctypes.c_double, cells), len(cells), rows, cols, repeat, *source,
        order, n, sizes, n, scores, n, ordered, n * n, floats, floats_length, numbers, numbers_length, answer, 4,
    )  # fmt: skip
    if number != 0:
        raise Refusal(number, answer[1])
    sizes = sizes[: answer[2]]
    by_order = [names[i] for i in order[:n]]
    groups, at = [], 0
    for size in sizes:
        groups.append(by_order[at : at + size])
        at += size
    label_of = {name: label for label, members in enumerate(groups) for name in members}
    return Grouping(
        groups=groups,
        scores=dict(zip(names, scores[:n])),
        labels={name: label_of[name] for name in names},
        order=by_order,
        sizes=sizes,
        ordered=[ordered[i * n : i * n + n] for i in range(n)],
        draws_read=answer[3],
    )


def _average(call) -> Optional[float]:
    average, answer = _room(ctypes.c_double, 1), _room(ctypes.c_size_t, 2)
    number = call(average, 1, answer, 2)
    if number != 0:
        raise Refusal(number)
    return average[0] if answer[1] == 1 else None


def mean(values) -> Optional[float]:
    """The mean of up to 65,536 values: exact where all are finite with equal bits, else the sum from the left over the count. None of no values."""
    values = _items(values, *_DOUBLES, "values")
    return _average(functools.partial(_library().onc_mean, _array(ctypes.c_double, values), len(values)))


def variance(values, ddof: int = 0) -> Optional[float]:
    """The squared differences from the mean, summed from the left, over the count less ddof. None where the count is 0 or at most ddof."""
    values, ddof = _items(values, *_DOUBLES, "values"), _size(ddof, "ddof")
    return _average(functools.partial(_library().onc_variance, _array(ctypes.c_double, values), len(values), ddof))


def std_dev(values, ddof: int = 0) -> Optional[float]:
    """The root of the variance. None where there is no variance."""
    values, ddof = _items(values, *_DOUBLES, "values"), _size(ddof, "ddof")
    return _average(functools.partial(_library().onc_std_dev, _array(ctypes.c_double, values), len(values), ddof))


def check_book(book) -> None:
    """Checks a book in whole millionths, a list of rows or a buffer of integers: 2 to 256 names, every cell within -1,000,000 to 1,000,000, the
    diagonal 1,000,000, each cell equal to its mirror. Raises Refusal for the shape (2, 4), Improper for the first faulty cell (21 to 23)."""
    rows, cols, cells = _matrix(book, *_WHOLES)
    # A cell beyond 64 bits is out of range, and stays so at the limit.
    cells = [max(-(2**63), min(2**63 - 1, cell)) for cell in cells]
    answer = _room(ctypes.c_size_t, 2)
    number = _library().onc_check_book(_array(ctypes.c_int64, cells), len(cells), rows, cols, answer, 2)
    if number in _FAULTS:
        place = answer[1]
        raise Improper(number, place // cols, place % cols, place)
    if number != 0:
        raise Refusal(number)


def draws_for(names: int, repeat: int = 1) -> Optional[int]:
    """How many draws a round of so many names reads with so many repeats. None outside 2 to 256 names and 1 to 64 repeats."""
    names, repeat = operator.index(names), operator.index(repeat)
    if not 2 <= names <= _MOST_NAMES or not 1 <= repeat <= _MOST_REPEATS:
        return None
    return repeat * _library().onc_draws_for(names)


def draws_enough(names: int, repeat: int = 1) -> Optional[int]:
    """How many draws are enough for every book of so many names: 32 times the first round's. With so many no run ends by 7."""
    round_of = draws_for(names, repeat)
    return None if round_of is None else _ROUNDS * round_of
