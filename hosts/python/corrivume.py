"""A proved dictionary of weighted k-mers: Python over its C interface, standard library only.

A `Collection` holds DNA strings in which every word of k letters (a k-mer) has a weight. It can be put in an order with
the fewest runs of equal weights (`cover`, `apply`), its runs listed (`runs`), and a `Dictionary` made of it answers
whether a word stands there, as asked or as its reverse complement, under which handle, with which weight.

    >>> given = Collection.read(b"K\\t3\\nS\\tAAACC\\t2\\t2\\t5\\nS\\tTACA\\t3\\t5\\n")
    >>> cover = given.cover()
    >>> least = given.apply(cover.places)
    >>> cover.paths, len(given.runs()), len(least.runs())
    (1, 4, 3)
    >>> Dictionary(least, 2).weight("TTT")
    2

Letters and words are bytes, str or anything with the buffer protocol; number tables are lists, arrays, numpy arrays or
any other buffer. They are copied once, so a value made here never changes. A number that its 32-bit table cannot hold
raises OverflowError.

The shared library is made by the script `build` beside this file; the variable CORRIVUME_LIBRARY names another place.
"""

from __future__ import annotations

import ctypes
import enum
import operator
import os
import pathlib
import sys
from array import array
from typing import Any, Iterator, NamedTuple, Optional, Sequence, Union

__all__ = ["Answer", "Collection", "Cover", "Dictionary", "Error", "Found", "Index", "Run", "RunList", "Side"]

Letters = Union[bytes, bytearray, memoryview, str, Any]
Numbers = Union[Sequence[int], array, memoryview, Any]

MOST_LETTERS = 1_048_576
MOST_STRINGS = 65_536

_BUILT = pathlib.Path(__file__).resolve().parents[2] / "target" / "hosts" / "python" / "libcorrivume.so"
_LARGEST = ctypes.c_size_t(-1).value
# The type code of an unsigned and a signed 32-bit array.
_U32, _I32 = ("I", "i") if array("I").itemsize == 4 else ("L", "l")
# How a buffer's format marks this machine's order of bytes, where it marks it.
_NATIVE = "<" if sys.byteorder == "little" else ">"


def _load() -> ctypes.CDLL:
    """The shared library: where the variable says, else where `build` puts it."""
    path = os.environ.get("CORRIVUME_LIBRARY") or str(_BUILT)
    try:
        return ctypes.CDLL(path)
    except OSError as error:
        raise ImportError(
            f"no shared library at {path} ({error}); make it, from the root of the repository, by "
            "`hosts/library` and then `hosts/python/build`"
        ) from error


_library = _load()

_SENTENCES = {
    1: "a lent output or work table is too short",
    2: "k is not 3 to 31, or p is not 1 to 8 and at most k",
    3: f"there are more than {MOST_LETTERS} letters or more than {MOST_STRINGS} strings",
    4: "string {0} is shorter than k, or is one past the last and the ends miss the letters",
    5: "letter {0} is not A, C, G or T",
    6: "weight {0} is not 1 to 16777215",
    7: "the word of handle {0} stands earlier too, as it is or turned",
    8: "the place of string {0} is zero, too large or used by an earlier string",
    9: "the asked word is not k letters of A, C, G, T, or the handle is not 1 to n",
    10: "the index doesn't fit",
    11: "line {0} of the sheet is wrong",
    12: "the run list is bad",
}
_WITHOUT_PLACE = {
    6: "there is not exactly one weight for each k-mer",
    8: "there is not exactly one place for each string",
}


class Error(ValueError):
    """A refused call: `number` says why, `place` where, counted from 1, or 0 where the refusal has no place."""

    def __init__(self, number: int, place: int) -> None:
        sentence = (_WITHOUT_PLACE if place == 0 else {}).get(number) or _SENTENCES.get(number, "refused at {0}")
        super().__init__(f"{sentence.format(place)} (refusal {number})")
        self.number = number
        self.place = place

    def __reduce__(self) -> tuple:
        return Error, (self.number, self.place)


class Side(enum.Enum):
    """How a word stands in the collection: as it was asked, or as its reverse complement."""

    ASKED = "+"
    TURNED = "-"


class Cover(NamedTuple):
    """Signed places with the fewest runs (negative: the string is turned), and how many paths they make."""

    places: array
    paths: int


class Run(NamedTuple):
    """A run's weight and its first handle."""

    weight: int
    first: int


class Found(NamedTuple):
    """Where a word was found: its handle from 1, its side, and how many k-mers were compared."""

    handle: int
    side: Side
    compared: int


class Answer(NamedTuple):
    """What QUICK says: where the word was found, or None, and how many k-mers were compared."""

    found: Optional[Found]
    compared: int


def _bytes(letters: Letters) -> bytes:
    """Letters as bytes. A str with other letters becomes bytes that no call takes for letters."""
    if isinstance(letters, bytes):
        return letters
    if isinstance(letters, str):
        return letters.encode("utf-8", "surrogatepass")
    view = memoryview(letters)
    if view.itemsize != 1:
        raise TypeError("letters must be single bytes")
    return view.tobytes()


def _table(numbers: Numbers, code: str) -> array:
    """A copy of the numbers as an array: of the bytes where they have this type already, else one by one."""
    table = array(code)
    try:
        view = memoryview(numbers)
    except TypeError:
        table.extend(iter(numbers))
        return table
    if view.format in (code, _NATIVE + code):
        table.frombytes(view.tobytes())
    else:
        table.extend(iter(numbers))
    return table


def _size(number: int) -> int:
    """A number as the C interface takes it. What doesn't fit is refused just like the largest that does."""
    number = operator.index(number)
    return number if 0 <= number <= _LARGEST else _LARGEST


def _zeros(code: str, length: int) -> array:
    return array(code, bytes(array(code).itemsize * length))


def _call(name: str, *arguments: Union[int, bytes, array]) -> list[int]:
    """One call: a table goes as its address and length, the answer table is added. Gives the answers, or raises."""
    lent: list[Any] = []
    for a in arguments:
        if isinstance(a, int):
            lent.append(ctypes.c_size_t(_size(a)))
        elif isinstance(a, bytes):
            lent += [ctypes.c_char_p(a), ctypes.c_size_t(len(a))]
        else:
            address, length = a.buffer_info()
            lent += [ctypes.c_void_p(address), ctypes.c_size_t(length)]
    answer = (ctypes.c_uint64 * 4)()
    call = getattr(_library, "corrivume_" + name)
    call.restype = ctypes.c_uint32
    number = call(*lent, answer, ctypes.c_size_t(4))
    if number:
        raise Error(number, answer[0])
    return list(answer)


def _view(table: array) -> memoryview:
    return memoryview(table).toreadonly()


class Collection:
    """Weighted DNA strings: k, the letters end to end, the strings' ends and one weight for each k-mer.

    It was judged when it was made: only repeated words may still be in it (`check`).
    """

    __slots__ = ("_k", "_letters", "_ends", "_weights")

    def __init__(self, k: int, letters: Letters, ends: Numbers, weights: Numbers) -> None:
        """Takes the tables and judges them. End i is the number of letters up to the end of string i."""
        self._k = _size(k)
        self._letters = _bytes(letters)
        self._ends = _table(ends, _U32)
        self._weights = _table(weights, _U32)
        # WRITE judges everything but repeats before it looks at its output, and no sheet is empty: lent no room, it
        # refuses a good collection with 1 and any other with its own number.
        try:
            _call("write", *self._tables(), array("B"))
        except Error as refused:
            if refused.number != 1:
                raise

    @classmethod
    def _made(cls, k: int, letters: bytes, ends: array, weights: array) -> Collection:
        """A collection that a call has filled: there is nothing left to judge."""
        self = cls.__new__(cls)
        self._k, self._letters, self._ends, self._weights = k, letters, ends, weights
        return self

    def _tables(self) -> tuple[int, bytes, array, array]:
        return self._k, self._letters, self._ends, self._weights

    @classmethod
    def read(cls, sheet: Letters) -> Collection:
        """READ: the collection that a sheet writes down."""
        sheet = _bytes(sheet)
        # No table fills more entries than the sheet has bytes, nor more than the limits, which are judged first.
        room = min(len(sheet), MOST_LETTERS)
        letters, ends, weights = _zeros("B", room), _zeros(_U32, min(room, MOST_STRINGS)), _zeros(_U32, room)
        k, n_letters, n_ends, n_weights = _call("read", sheet, letters, ends, weights)
        return cls._made(k, letters[:n_letters].tobytes(), ends[:n_ends], weights[:n_weights])

    def write(self) -> bytes:
        """WRITE: the collection's sheet."""
        sheet = _zeros("B", 5 + 3 * len(self._ends) + len(self._letters) + 9 * len(self._weights))
        return sheet[: _call("write", *self._tables(), sheet)[0]].tobytes()

    def check(self) -> None:
        """CHECK: raises refusal 7 if a word repeats, turned or not."""
        _call("check", *self._tables(), _zeros(_U32, 4 * len(self._weights)))

    def cover(self) -> Cover:
        """COVER: signed places with the least number of runs, and their number of paths."""
        m = len(self._ends)
        places = _zeros(_I32, m)
        return Cover(places, _call("cover", *self._tables(), places, _zeros(_U32, 16 * m))[0])

    def apply(self, places: Numbers) -> Collection:
        """APPLY: the collection with each string at its place, turned with its weights where the place is negative."""
        m = len(self._ends)
        letters, ends, weights = _zeros("B", len(self._letters)), _zeros(_U32, m), _zeros(_U32, len(self._weights))
        _call("apply", *self._tables(), _table(places, _I32), letters, ends, weights, _zeros(_U32, m))
        return Collection._made(self._k, letters.tobytes(), ends, weights)

    def runs(self) -> RunList:
        """RUNS: the maximal stretches of equal neighbours in all weights."""
        n = len(self._weights)
        weights, firsts = _zeros(_U32, n), _zeros(_U32, n)
        runs = _call("runs", *self._tables(), weights, firsts)[0]
        return RunList(weights[:runs], firsts[:runs], n)

    def access(self, handle: int) -> memoryview:
        """ACCESS: the k letters of a handle, as a part of the collection's letters, not a copy."""
        start, length = _call("access", self._k, self._letters, self._ends, operator.index(handle))[:2]
        return memoryview(self._letters)[start : start + length]

    def plain(self, word: Letters) -> Optional[tuple[int, Side]]:
        """PLAIN question, by a scan: the lowest handle of an equal word as asked, else of an equal turned word."""
        handle, turned = _call("plain", *self._tables(), _bytes(word))[:2]
        return (handle, Side.TURNED if turned else Side.ASKED) if handle else None

    def index(self, p: int) -> Index:
        """INDEX: the stretches by their minimizers of p letters. Raises refusal 7 if a word repeats."""
        n, p = len(self._weights), _size(p)
        firsts, positions, numbers = _zeros(_U32, n), _zeros(_U32, n), _zeros(_U32, n)
        # Beyond 8 the call refuses p before it looks at a table.
        before = _zeros(_U32, 4**p + 1 if p <= 8 else 0)
        k, letters, ends, weights = self._tables()
        work = _zeros(_U32, 4 * n)
        s = _call("index", k, p, letters, ends, weights, firsts, positions, numbers, before, work)[0]
        return Index(p, firsts[:s], positions[:s], numbers[:s], before)

    @property
    def k(self) -> int:
        """The length of a word."""
        return self._k

    @property
    def letters(self) -> bytes:
        """All letters, strings end to end."""
        return self._letters

    @property
    def ends(self) -> memoryview:
        """For each string the number of letters up to its end."""
        return _view(self._ends)

    @property
    def weights(self) -> memoryview:
        """The weight of each k-mer, by handle."""
        return _view(self._weights)

    @property
    def strings(self) -> int:
        """The number of strings, m."""
        return len(self._ends)

    @property
    def kmers(self) -> int:
        """The number of k-mers, n."""
        return len(self._weights)

    def __eq__(self, other: object) -> bool:
        return isinstance(other, Collection) and self._tables() == other._tables()

    def __hash__(self) -> int:
        return hash((self._k, self._letters))

    def __repr__(self) -> str:
        return f"<Collection k={self._k} strings={self.strings} kmers={self.kmers}>"


class RunList:
    """The runs of the weights of n k-mers: each run's weight and first handle."""

    __slots__ = ("_weights", "_firsts", "_n")

    def __init__(self, weights: Numbers, firsts: Numbers, n: int) -> None:
        """Takes a run list. It is judged by each `weight`, not here."""
        self._weights, self._firsts, self._n = _table(weights, _U32), _table(firsts, _U32), _size(n)

    def weight(self, handle: int) -> int:
        """WEIGHT of a handle. It judges the whole list each time, so it takes time in proportion to the runs."""
        return _call("weight", self._weights, self._firsts, self._n, operator.index(handle))[0]

    @property
    def weights(self) -> memoryview:
        """Each run's weight."""
        return _view(self._weights)

    @property
    def firsts(self) -> memoryview:
        """Each run's first handle."""
        return _view(self._firsts)

    def __len__(self) -> int:
        return len(self._weights)

    def __iter__(self) -> Iterator[Run]:
        return map(Run, self._weights, self._firsts)


class Index:
    """The stretches of a collection, by minimizer and then by handle."""

    __slots__ = ("_p", "_firsts", "_positions", "_numbers", "_before")

    def __init__(self, p: int, firsts: Numbers, positions: Numbers, numbers: Numbers, before: Numbers) -> None:
        """Takes the tables of an index. They are judged by each `quick`, not here."""
        self._p = _size(p)
        self._firsts, self._positions = _table(firsts, _U32), _table(positions, _U32)
        self._numbers, self._before = _table(numbers, _U32), _table(before, _U32)

    def _tables(self) -> tuple[array, array, array, array]:
        return self._firsts, self._positions, self._numbers, self._before

    def quick(self, collection: Collection, word: Letters) -> Answer:
        """QUICK question: where the word stands in the collection that this index was made of."""
        handle, turned, compared = _call(
            "quick", collection._k, self._p, _bytes(word), collection._letters, *self._tables()
        )[:3]
        found = Found(handle, Side.TURNED if turned else Side.ASKED, compared) if handle else None
        return Answer(found, compared)

    @property
    def p(self) -> int:
        """The length of a minimizer."""
        return self._p

    @property
    def firsts(self) -> memoryview:
        """Each stretch's first handle."""
        return _view(self._firsts)

    @property
    def positions(self) -> memoryview:
        """The position, from 0, of each stretch's first letter."""
        return _view(self._positions)

    @property
    def numbers(self) -> memoryview:
        """Each stretch's number of k-mers."""
        return _view(self._numbers)

    @property
    def before(self) -> memoryview:
        """How many stretches stand before each minimizer, and last their total."""
        return _view(self._before)


class Dictionary:
    """A collection with its index and its run list, ready for questions."""

    __slots__ = ("collection", "index", "runs")

    def __init__(self, collection: Collection, p: int) -> None:
        """Makes the index, which also looks for repeated words, and the run list. p is 1 to 8 and at most k."""
        self.collection = collection
        self.index = collection.index(p)
        self.runs = collection.runs()

    def ask(self, word: Letters) -> Optional[Found]:
        """QUICK question: where the word stands, or None."""
        return self.index.quick(self.collection, word).found

    def weight(self, word: Letters) -> Optional[int]:
        """The weight of a word, or None if it is absent. Like `RunList.weight` it judges the whole run list."""
        c, i, r = self.collection, self.index, self.runs
        there, weight = _call(
            "weigh", c._k, i._p, _bytes(word), c._letters, *i._tables(), r._weights, r._firsts, r._n
        )[:2]
        return weight if there else None
