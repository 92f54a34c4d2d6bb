"""Ravelsickle for Python: the highest y under half-planes a*x + b*y <= c, within a number of row readings that is known
beforehand.

    >>> import ravelsickle
    >>> rows = [(1.0, 1.0, 2.0), (-1.0, 1.0, 0.0)]
    >>> ravelsickle.solve(rows, allowance=1000)
    Solved(answer=Answer(x=1.0, y=1.0), active=(0, 1), count=7)

Rows are given in one of three ways, and are changed in place where they are normalised, as in the original:

* a buffer of C doubles, contiguous, aligned and writable (a numpy array of float64, an array.array('d'), a
  memoryview): nothing is copied. It is flat, or its last dimension is a row;
* a list of floats, three to a row: changed floats are written back into the list;
* a list of rows of three floats: changed rows are written back, a list in place and a tuple as a new tuple.

An entry that only reads (lp_1d, recover) takes a read-only buffer or a tuple as well.

"No row" is None. A number that an answer does not have is None. A call that gives no answer raises Refusal, whose
`number` is the refusal's number.

Records that come off a link a few bytes at a time, cut anywhere, are answered by a Link.

The entries are called in a shared object linked from the static library that `rt lib` writes in crates/kernel; bindings/run
links it. RAVELSICKLE_SHARED names another one.
"""

import ctypes
import operator
import os
import sys
from array import array
from dataclasses import dataclass
from pathlib import Path
from typing import List, Optional, Tuple

__all__ = [
    "BEYOND",
    "MOST_BYTES",
    "ROW_LIMIT",
    "UNLIMITED",
    "Answer",
    "Bounds",
    "Collector",
    "Frame",
    "Link",
    "Refusal",
    "Solved",
    "Tolerances",
    "WarmStart",
    "fused",
    "lp_1d",
    "lp_2d_incre_max_y",
    "normalize",
    "recover",
    "root",
    "solve",
    "solve_2x2",
]

# The most rows, or pairs, that an entry takes.
ROW_LIMIT = 4096

# A start level that means "beyond the set": a solve that begins there may move up to the edge of a larger box.
BEYOND = 1e6

# The largest allowance. No solve takes as many readings.
UNLIMITED = 2**64 - 1

# Bytes of a link past this number of them count as not there.
MOST_BYTES = 2**63


@dataclass(frozen=True)
class WarmStart:
    """Where a solve starts, and how many leading rows that point is known to meet."""

    x: float = 0.0
    y: float = BEYOND
    skip: int = 0


@dataclass(frozen=True)
class Tolerances:
    """By how much a point may violate a row, and what multiplies that in a reduction to one dimension. The values are
    those of the original's builder."""

    feasibility: float = 1e-9
    scale: float = 10.0


@dataclass(frozen=True)
class Frame:
    """What a recovery is posed in: half the width of the box, and by how much a point may violate a row, in the plane
    and in a reduction to one dimension."""

    bound: float
    epsilon: float
    reduced: float


@dataclass(frozen=True)
class Answer:
    """A point has x and y, a level y alone, across x alone, nothing neither. Infinite numbers are numbers."""

    x: Optional[float]
    y: Optional[float]

    @property
    def kind(self) -> str:
        """The answer in a word: point, level, across or nothing."""
        if self.x is None:
            return "nothing" if self.y is None else "level"
        return "across" if self.y is None else "point"


@dataclass(frozen=True)
class Solved:
    """A finished solve: its answer, the first and the second active row, and the row readings that it took."""

    answer: Answer
    active: Tuple[Optional[int], Optional[int]]
    count: int


@dataclass(frozen=True)
class Bounds:
    """The highest and the lowest t of a line; both NaN where there is none."""

    high: float
    low: float


@dataclass
class Collector:
    """The active rows of a caller, which a recovery changes where it finds others."""

    first: Optional[int] = None
    second: Optional[int] = None


class Refusal(Exception):
    """An entry gave no answer. `number` says why; `count` is the readings of a solve that was stopped, else None."""

    def __init__(self, number: int, count: Optional[int] = None):
        self.number = number
        self.count = count
        super().__init__(f"refusal {number}: {_REASONS.get(number, 'a number that this module does not know')}")

    def __reduce__(self):
        """Pickled by its numbers, from which its text is made again."""
        return Refusal, (self.number, self.count)


# The number 4 was that of a refusal which could not come, and is not used again.
_REASONS = {
    1: "the floats lent are no whole rows or pairs",
    2: f"more than {ROW_LIMIT} rows or pairs",
    3: "the solve needs more readings than its allowance",
    5: "the two equations have no reliable crossing",
    6: "recovery found no point",
    7: "the prefix is longer than the rows",
    10: "the number for normalising names no mode",
    12: "the link has been told its end",
}


# ---- The shared object ----

_double = ctypes.c_double
_number = ctypes.c_uint64
_flag = ctypes.c_bool
_floats = ctypes.POINTER(ctypes.c_double)
_bytes = ctypes.c_void_p


class _Row(ctypes.Structure):
    _fields_ = [("a", _double), ("b", _double), ("c", _double)]


class _Task(ctypes.Structure):
    _fields_ = [
        ("feasibility", _double),
        ("scale", _double),
        ("x0", _double),
        ("y0", _double),
        ("skip", _number),
        ("normalize", _number),
        ("allowance", _number),
    ]


class _Answered(ctypes.Structure):
    _fields_ = [
        ("refusal", _number),
        ("kind", _number),
        ("x", _double),
        ("y", _double),
        ("count", _number),
        ("first", _number),
        ("second", _number),
        ("has_first", _flag),
        ("has_second", _flag),
    ]


class _Solution(ctypes.Structure):
    _fields_ = [("refusal", _number), ("kind", _number), ("x", _double), ("y", _double)]


class _Crossing(ctypes.Structure):
    _fields_ = [("refusal", _number), ("x", _double), ("y", _double)]


class _LineTask(ctypes.Structure):
    _fields_ = [("feasibility", _double), ("scale", _double), ("autonan", _flag)]


class _LineBounds(ctypes.Structure):
    _fields_ = [("refusal", _number), ("high", _double), ("low", _double)]


class _RecoveryTask(ctypes.Structure):
    _fields_ = [
        ("upto", _number),
        ("x0", _double),
        ("y0", _double),
        ("bound", _double),
        ("epsilon", _double),
        ("reduced", _double),
        ("first", _number),
        ("second", _number),
        ("has_first", _flag),
        ("has_second", _flag),
    ]


class _Recovered(ctypes.Structure):
    _fields_ = [
        ("refusal", _number),
        ("x", _double),
        ("y", _double),
        ("first", _number),
        ("second", _number),
        ("has_first", _flag),
        ("has_second", _flag),
    ]


class _Reader(ctypes.Structure):
    _fields_ = [("live", _number), ("lines", _number), ("left", _number), ("passed", _number), ("word", _number)]


class _Fed(ctypes.Structure):
    _fields_ = [("refusal", _number), ("taken", _number), ("printed", _number), ("reader", _Reader)]


# The bytes of a record before its rows, the floats of the most rows that a record may have, and room for any text that a
# call prints.
_HEAD = 55
_FLOATS = 6144
_LINE = 149


# Every entry: what it gives back, and what it is given. The records are those of bindings/c/ravelsickle.h.
_ENTRIES = {
    "ravelsickle_root": (_double, [_double]),
    "ravelsickle_fused": (_double, [_double] * 3),
    "ravelsickle_normalize": (_number, [_floats, _number]),
    "ravelsickle_solve_2x2": (_Crossing, [_Row, _Row]),
    "ravelsickle_lp_1d": (_LineBounds, [_floats, _number, _LineTask]),
    "ravelsickle_solve": (_Answered, [_floats, _number, _Task]),
    "ravelsickle_lp_2d_incre_max_y": (_Solution, [_floats, _number, _Task]),
    "ravelsickle_recover_2d_prefix": (_Recovered, [_floats, _number, _RecoveryTask]),
    "ravelsickle_reader_start": (_Reader, [_number]),
    "ravelsickle_reader_feed": (_Fed, [_Reader, _bytes, _floats, _bytes, _number, _bytes]),
    "ravelsickle_reader_end": (_Fed, [_Reader, _bytes, _bytes]),
}


def _shared_object() -> Path:
    named = os.environ.get("RAVELSICKLE_SHARED")
    if named:
        return Path(named)
    return Path(__file__).resolve().parents[2] / "target" / "bindings" / "libravelsickle.so"


def _load(path: Path) -> ctypes.CDLL:
    if not path.is_file():
        raise ImportError(
            f"there is no Ravelsickle library at {path}: bindings/run links it from the static library; "
            "RAVELSICKLE_SHARED names another one"
        )
    try:
        library = ctypes.CDLL(str(path))
    except OSError as error:
        raise ImportError(f"the Ravelsickle library at {path} is not one for this processor: {error}") from error
    for name, (result, arguments) in _ENTRIES.items():
        if not hasattr(library, name):
            raise ImportError(f"the Ravelsickle library at {path} has no {name}: it is older than this module")
        entry = getattr(library, name)
        entry.restype = result
        entry.argtypes = arguments
    return library


_library = _load(_shared_object())


# ---- Floats lent to an entry ----


class _Buffer:
    """The memory of a buffer, lent as it is."""

    def __init__(self, view: memoryview):
        self.count = view.nbytes // view.itemsize
        self.memory = (ctypes.c_double * self.count).from_buffer(view)

    def give_back(self) -> None:
        """Nothing: the entry changed the memory itself."""


class _Copy:
    """A copy of floats, lent in the place of a list, which Python alone can change."""

    def __init__(self, floats):
        self.count = len(floats)
        self.memory = (ctypes.c_double * self.count)(*floats)
        self.before = bytes(self.memory)

    def is_changed(self) -> bool:
        return bytes(self.memory) != self.before


class _FlatList(_Copy):
    """The floats of a list, written back where the entry changed any."""

    def __init__(self, floats: list):
        super().__init__(floats)
        self.floats = floats

    def give_back(self) -> None:
        if self.is_changed():
            self.floats[:] = self.memory


class _ListOfRows(_Copy):
    """The floats of a list of rows, written back where the entry changed any: into a row that is a list, and in the
    place of one that is a tuple."""

    def __init__(self, rows: list):
        super().__init__([x for row in rows for x in row])
        self.rows = rows

    def give_back(self) -> None:
        if self.is_changed():
            for k, row in enumerate(self.rows):
                changed = self.memory[3 * k : 3 * k + 3]
                if isinstance(row, list):
                    row[:] = changed
                else:
                    self.rows[k] = tuple(changed)


def _fault(view: memoryview, width: int) -> Optional[Exception]:
    """Why a buffer is no whole doubles one after another, `width` to a row where it has rows; None where it is."""
    native = {"d", "@d", "=d", "<d" if sys.byteorder == "little" else ">d"}
    if view.format not in native:
        return TypeError(f"the buffer holds elements of format {view.format!r}; rows are float64, format 'd'")
    if not view.c_contiguous:
        return ValueError("the buffer is not contiguous: its floats have to lie one after another")
    if view.ndim > 1 and view.shape[-1] != width:
        return ValueError(f"the buffer has the shape {view.shape}: its last dimension has to be {width}")
    return None


def _view(rows, width: int) -> Optional[memoryview]:
    """The buffer of something that has one, checked. One that is refused is let go before the error is raised, which may
    be kept for long."""
    try:
        view = memoryview(rows)
    except TypeError:
        return None
    fault = _fault(view, width)
    if fault is not None:
        view.release()
        raise fault
    return view


def _is_aligned(view: memoryview) -> bool:
    """Whether a writable buffer begins where a double may lie."""
    begin = ctypes.addressof(ctypes.c_char.from_buffer(view)) if view.nbytes else 0
    return begin % ctypes.alignment(ctypes.c_double) == 0


def _is_row(item) -> bool:
    return isinstance(item, (list, tuple))


def _lend_list(rows: list, width: int):
    if not any(_is_row(item) for item in rows):
        return _FlatList(rows)
    for item in rows:
        if not _is_row(item) or len(item) != width:
            raise ValueError(f"a list of rows has {width} floats in each; it has {item!r}")
    return _ListOfRows(rows)


def _lend(rows):
    """Rows that the entry may change."""
    view = _view(rows, 3)
    if view is not None:
        if not view.readonly and _is_aligned(view):
            return _Buffer(view)
        why = "is read-only: rows are changed in place" if view.readonly else "does not begin where a float64 may lie"
        view.release()
        raise ValueError(f"the buffer {why}")
    if isinstance(rows, list):
        return _lend_list(rows, 3)
    raise TypeError(f"rows are a list or a writable buffer of float64, not {type(rows).__name__}")


def _writable_copy(view: memoryview) -> memoryview:
    """A copy of what ctypes cannot lend: what is read-only, or begins where no double may lie."""
    copy = array("d")
    copy.frombytes(view.tobytes())
    return memoryview(copy)


def _lend_to_read(floats, width: int):
    """Rows or pairs that the entry only reads."""
    view = _view(floats, width)
    if view is not None:
        return _Buffer(_writable_copy(view) if view.readonly or not _is_aligned(view) else view)
    if isinstance(floats, (list, tuple)):
        return _lend_list(list(floats), width)
    raise TypeError(f"rows are a list, a tuple or a buffer of float64, not {type(floats).__name__}")


def _called(entry, lent, *given):
    """Calls an entry on what is lent and gives it back. Nothing holds the memory afterwards, also where a call that fails
    is kept as an error: a buffer that is held cannot grow."""
    try:
        got = entry(lent.memory, lent.count, *given)
        lent.give_back()
        return got
    finally:
        lent.memory = None


# ---- What crosses ----


def _whole(value: int, what: str, width: int) -> int:
    """A whole number that fits; ctypes would cut any other."""
    try:
        number = operator.index(value)
    except TypeError:
        raise TypeError(f"{what} is a whole number, not {value!r}") from None
    if not 0 <= number < 2**width:
        raise ValueError(f"{what} is a whole number from 0 to 2^{width} - 1, not {value!r}")
    return number


def _task(start: WarmStart, tolerances: Tolerances, normalize: bool, allowance: int) -> _Task:
    skip = _whole(start.skip, "the number of rows to skip", 64)
    allowed = _whole(allowance, "an allowance", 64)
    return _Task(tolerances.feasibility, tolerances.scale, start.x, start.y, skip, 1 if normalize else 0, allowed)


def _row_number(row: Optional[int]) -> int:
    """A row's number; without a row it says nothing."""
    return 0 if row is None else _whole(row, "a row's number", 64)


def _row(has: bool, number: int) -> Optional[int]:
    return number if has else None


def _answer(kind: int, x: float, y: float) -> Answer:
    """The answer of a kind's number, with the pair beside it."""
    answers = {1: Answer(x, y), 2: Answer(None, y), 3: Answer(x, None), 4: Answer(None, None)}
    if kind not in answers:
        raise RuntimeError(f"the library gave an answer of kind {kind}: it is newer than this module")
    return answers[kind]


def _check(number: int, count: Optional[int] = None) -> None:
    if number != 0:
        raise Refusal(number, count if number == 3 else None)


# ---- The entries ----


def root(x: float) -> float:
    """The square root, rounded once. NaN for a number below zero; -0 for -0."""
    return _library.ravelsickle_root(x)


def fused(x: float, y: float, z: float) -> float:
    """x*y + z, rounded once."""
    return _library.ravelsickle_fused(x, y, z)


def normalize(rows) -> None:
    """Scales the rows in place to unit normals. A row whose norm is zero or not finite becomes zeros.

    Refusals 1 and 2 leave the rows."""
    _check(_called(_library.ravelsickle_normalize, _lend(rows)))


def solve_2x2(r, s) -> Tuple[float, float]:
    """The point (x, y) on the boundaries of both rows, each given as its three floats. Refusal 5."""
    (a0, b0, c0), (a1, b1, c1) = r, s
    got = _library.ravelsickle_solve_2x2(_Row(a0, b0, c0), _Row(a1, b1, c1))
    _check(got.refusal)
    return got.x, got.y


def lp_1d(pairs, autonan: bool, tolerances: Tolerances = Tolerances()) -> Bounds:
    """The highest and the lowest t with a*t <= b for every pair (a, b); infinite where no pair bounds it. With autonan a
    high below the low becomes the middle of both where they are within the tolerance of each other, else NaN.

    Refusals 1 and 2."""
    task = _LineTask(tolerances.feasibility, tolerances.scale, bool(autonan))
    got = _called(_library.ravelsickle_lp_1d, _lend_to_read(pairs, 2), task)
    _check(got.refusal)
    return Bounds(got.high, got.low)


def solve(
    rows,
    start: WarmStart = WarmStart(),
    tolerances: Tolerances = Tolerances(),
    normalize: bool = False,
    allowance: int = UNLIMITED,
) -> Solved:
    """The highest y under the rows, the rows that hold it, and the readings it took, of which `allowance` are allowed.

    Refusals 1 and 2 leave the rows; refusal 3 leaves them as after the last normalisation all of whose readings
    fitted."""
    task = _task(start, tolerances, normalize, allowance)
    got = _called(_library.ravelsickle_solve, _lend(rows), task)
    _check(got.refusal, got.count)
    active = (_row(got.has_first, got.first), _row(got.has_second, got.second))
    return Solved(_answer(got.kind, got.x, got.y), active, got.count)


def lp_2d_incre_max_y(
    rows, start: WarmStart = WarmStart(), tolerances: Tolerances = Tolerances(), normalize: bool = False
) -> Answer:
    """The original's own entry: the answer of solve without allowance, active rows or count.

    Refusals 1 and 2 leave the rows."""
    task = _task(start, tolerances, normalize, UNLIMITED)
    got = _called(_library.ravelsickle_lp_2d_incre_max_y, _lend(rows), task)
    _check(got.refusal)
    return _answer(got.kind, got.x, got.y)


def recover(rows, upto: int, at: Tuple[float, float], frame: Frame, collector: Collector) -> Tuple[float, float]:
    """A point (x, y) that holds for the first `upto` rows, after a solve's usual step failed at the point `at`. The
    collector then holds the point's active rows, or is as before where the point is `at` itself and no row's boundary
    gave one.

    Refusals 1, 2, 7 and 6, which leave the collector."""
    task = _RecoveryTask(
        _whole(upto, "a prefix", 64),
        *at,
        frame.bound,
        frame.epsilon,
        frame.reduced,
        _row_number(collector.first),
        _row_number(collector.second),
        collector.first is not None,
        collector.second is not None,
    )
    got = _called(_library.ravelsickle_recover_2d_prefix, _lend_to_read(rows, 3), task)
    _check(got.refusal)
    collector.first, collector.second = _row(got.has_first, got.first), _row(got.has_second, got.second)
    return got.x, got.y


# ---- Records off a link ----


def _portion(data) -> bytes:
    """The bytes of a portion. What may be changed meanwhile is copied; bytes are taken as they are."""
    try:
        view = memoryview(data)
    except TypeError:
        raise TypeError(f"a portion is bytes, a bytearray or a memoryview, not {type(data).__name__}") from None
    with view:
        if view.itemsize != 1:
            raise TypeError(f"the buffer holds elements of format {view.format!r}; a portion is bytes, format 'B'")
        return data if type(data) is bytes else view.tobytes()


class Link:
    """A reader of records (section 12 of docs/RULES.md) that is fed portions of bytes, cut anywhere, and is then told the
    end. However the bytes are cut, the lines are the same. They are given without their newlines.

        >>> link = Link()
        >>> link.feed(bytes([1, 0]))
        []
        >>> link.feed(bytes([0, 0, 9, 0, 255, 7, 7]))
        ['1 refused 9']
        >>> link.end()
        ['2 refused 8', 'end 2']

    Leaving a `with` block tells the end, unless it was told before or an error is on its way; the last lines are in `last`:

        >>> with Link() as link:
        ...     lines = link.feed(bytes([0, 0, 0, 0, 9, 0]))
        >>> lines + link.last
        ['1 refused 9', 'end 1']

    Bytes past the first `limit` count as not there; a limit above MOST_BYTES is that number. A link holds the rows of one
    record, and nothing of a record that is skipped: about 48 KiB. One thread at a time may call it."""

    def __init__(self, limit: int = MOST_BYTES):
        # the last lines; none until the end was told
        self.last: List[str] = []
        self._reader = _library.ravelsickle_reader_start(_whole(limit, "a limit", 64))
        # what stands before the rows of the record in hand, and the floats of its rows
        self._head = ctypes.create_string_buffer(_HEAD)
        self._rows = (ctypes.c_double * _FLOATS)()
        self._text = ctypes.create_string_buffer(_LINE)

    def feed(self, data) -> List[str]:
        """Takes all bytes of a portion (bytes, a bytearray, a memoryview) and gives the lines of the records that ended in
        it. No bytes change nothing. Refusal 12 after the end, also for no bytes."""
        portion = _portion(data)
        begin = ctypes.cast(ctypes.c_char_p(portion), ctypes.c_void_p).value
        lines, taken = [], 0
        while True:
            left = len(portion) - taken
            feed = _library.ravelsickle_reader_feed
            fed = feed(self._reader, self._head, self._rows, begin + taken, left, self._text)
            lines += self._printed(fed)
            taken += fed.taken
            if taken == len(portion):
                return lines

    def end(self) -> List[str]:
        """Tells the end, and gives the last lines: that of a record that is cut, refusal 8 in it, and the closing line.
        Refusal 12 after the end."""
        self.last = self._printed(_library.ravelsickle_reader_end(self._reader, self._head, self._text))
        return self.last

    def _printed(self, fed: _Fed) -> List[str]:
        """The lines of a call, whose reader is kept."""
        _check(fed.refusal)
        self._reader = fed.reader
        return self._text.raw[: fed.printed].decode("ascii").splitlines()

    def __enter__(self) -> "Link":
        return self

    def __exit__(self, kind, error, trace) -> None:
        if kind is None and self._reader.live:
            self.end()
