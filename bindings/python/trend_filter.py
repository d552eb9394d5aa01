"""L1 trend filtering and its squared-penalty counterpart, by the proved port, for Python 3.8 and later.

    tools/build trend_filter         proves the library and writes it
    bindings/python/build            makes the shared object of it (needs cc)
    PYTHONPATH=bindings/python python3

The shared object is looked for where the variable TREND_FILTER_LIBRARY says, else beside this module, else in target/python of the
repository. Nothing else is needed; NumPy arrays are taken where NumPy is present.

>>> fit = l1_trend_filter([8000, 0, 0, 0, 9000, 9000], lam=2000, order=1)
>>> [round(x, 6) for x in fit.trend]
[6000.0, 1333.333333, 1333.333333, 1333.333333, 8000.0, 8000.0]
>>> fit.knots, fit.converged, fit.reason.text
([0, 3], True, 'gap small enough')
>>> fit.crossings(5000.0)
[0, 3]
>>> fit.nearest_knot(5)
3
>>> needs(168, max_iter=100)
Needs(work=6720, marks=336, steps=100)

What the library refuses is a `Refused`, a ValueError with the number and the words of the first question answered no:

>>> l1_trend_filter([8000, 0], lam=-1.0, order=1)
Traceback (most recent call last):
    ...
trend_filter.Refused: refused 5: is lam finite and not below 0?

**What is taken for numbers.** A series is a list, tuple or other sequence of real numbers, a buffer (array.array, memoryview, a ctypes
array) of floats or whole numbers, or a NumPy array or what offers itself as one, with one dimension. Each number becomes a double as by
`float()`: whole numbers beyond 2**53 are rounded to the nearest, those beyond all doubles count as infinite. What isn't a number is a
TypeError, before any question: bool, str, bytes, None, complex, Decimal, long doubles in an array, masked arrays, a set or mapping, and an
iterator, which would be used up even where the call is refused. Doubles that lie side by side in a NumPy array or a writable buffer are
read where they are, all else is copied; the series is never changed. Another thread must not change it while the call runs.

**What is given back.** Lists, or NumPy arrays (float64; knots as intp) where the series was one.

**Threads.** A call works in memory of its own and lets other threads of Python run meanwhile.

**The floating-point environment.** The promises are of rounding to nearest with subnormal numbers kept and no exception that traps, as a
program starts. A library that was built with -ffast-math may change that for the thread that loads it. `l1_trend_filter` and
`crossings` ask first, which takes a fraction of a microsecond, and raise RuntimeError in a thread where it isn't so: other bits would
come.
"""
import array
import collections.abc
import ctypes
import dataclasses
import enum
import numbers
import operator
import os
import pathlib
import struct
import sys
from typing import Any, Dict, List, NamedTuple, Optional, Protocol, Sequence, Tuple

__all__ = ["Needs", "Reason", "Refused", "Series", "TrendFilterFit", "crossings", "l1_trend_filter", "nearest_knot", "needs"]


class Series(Protocol):
    """What is taken for a series, for a type checker: the head of this module says what it may hold."""

    def __len__(self) -> int: ...

    def __getitem__(self, __place: int) -> Any: ...


_QUESTIONS: Dict[int, str] = {
    0: "nothing was refused",
    1: "are order and penalty each 1 or 2?",
    2: "is the series at least order + 1 long?",
    3: "is the series at most 65,536 long?",
    4: "is every place of the series finite?",
    5: "is lam finite and not below 0?",
    6: "is tol finite and above 0?",
    7: "is max_iter at least 1?",
    8: "have trend, cycle, knots and dual a place for each of the series?",
    9: "have work and marks the places that they need?",
    10: "is every pivot met finite and above 0?",
    18: "is the level finite?",
    19: "is the trend at most 65,536 long, has the list as many places, is the place asked about one of them?",
}


class Refused(ValueError):
    """A refusal: `number` is that of the first question answered no, `question` its words."""

    def __init__(self, number: int) -> None:
        super().__init__(number)
        self.number = number

    @property
    def question(self) -> str:
        return _QUESTIONS.get(self.number, "the library has no question of this number")

    def __str__(self) -> str:
        return f"refused {self.number}: {self.question}"


class Reason(enum.IntEnum):
    """Why the search stopped. Where more than one of GAP_SMALL, LIMIT_SPENT and STALLED holds, it is the first of them.

    It tells of the search and not of the answer: the polish after it may lower the objective, so that `converged` is False after
    GAP_SMALL, or the gap, so that it is True after LIMIT_SPENT, STALLED or PIVOT_LOST. Any reason but LIMIT_SPENT stays, with the whole
    answer, for every larger max_iter. The numbers are those that the weekly program prints.
    """

    CLOSED_PATH = 0  # there was no search: L2, or L1 with lam 0 or at least lam_max
    GAP_SMALL = 1  # where the search stood, the gap was at most tol times the objective
    LIMIT_SPENT = 2  # n_iter is max_iter; also where the search stalled just then
    STALLED = 3  # the last ten steps were no improvements
    PIVOT_LOST = 4  # the last step met a pivot that isn't finite and above 0, and the search stayed where it stood

    @property
    def text(self) -> str:
        """The reason in words."""
        return ("closed path", "gap small enough", "limit spent", "stalled", "pivot lost")[self]


class Needs(NamedTuple):
    """What a fit needs, known before it runs."""

    work: int
    """Places of doubles that it works in: 40 n for L1, 16 n for L2."""
    marks: int
    """Places of 4 bytes that it marks: 2 n for L1, none for L2."""
    steps: int
    """The most steps: n_iter of the fit is never above this. For L1 the lesser of max_iter and 1,447,640, for L2 0."""


@dataclasses.dataclass(frozen=True)
class TrendFilterFit:
    """A fit. Up to `lam_max` the fields are the source's; then comes how its search went, and the dual point."""

    trend: Sequence[float]
    cycle: Sequence[float]
    """y - trend"""
    knots: Sequence[int]
    """Indices where the trend's difference is above the threshold, rising."""
    duality_gap: float
    objective: float
    converged: bool
    n_iter: int
    lam_max: float
    first_gap: float
    """The gap before the first step; on a closed path the gap."""
    best_gap: float
    """The least gap by which a step was an improvement; the first gap where none was."""
    improvements: int
    """How many steps were improvements: n_iter is at most 10 times this plus 10."""
    reason: Reason
    """Why the search stopped."""
    dual: Sequence[float]
    """The point z at which the dual objective of the gap was worked out, n - order places: for L2 lam times each place of D trend, not
    clamped; for L1 with lam 0 or -0 each place +0; otherwise z of the certificate that was kept, clamped to lam."""

    def __eq__(self, other: object) -> bool:
        """Whether all numbers are equal, be they in lists or in arrays."""
        return self._plain() == other._plain() if isinstance(other, TrendFilterFit) else NotImplemented

    __hash__ = None  # type: ignore[assignment]

    def _plain(self) -> List[Any]:
        values = (getattr(self, field.name) for field in dataclasses.fields(self))
        return [list(value) if hasattr(value, "__len__") else value for value in values]

    def crossings(self, level: float) -> List[int]:
        """Where the trend passes `level`: see `crossings`."""
        return crossings(self.trend, level)

    def nearest_knot(self, place: int) -> Optional[int]:
        """The knot nearest a place of the trend: see `nearest_knot`."""
        return nearest_knot(self.trend, self.knots, place)


def l1_trend_filter(y: Series, lam: float, order: int = 2, penalty: str = "l1", tol: float = 1e-8, max_iter: int = 10000) -> TrendFilterFit:
    """The trend of `y` with the penalty weight `lam`.

    order      which differences of the trend are penalised: 1 or 2
    penalty    "l1", lam times the sum of their sizes, or "l2", lam / 2 times the sum of their squares; "L1" and "L2" are the same.
               Any other name is refused with 1: to the library l1 is 1 and l2 is 2
    tol        the search stops when the gap is at most tol times the objective; not used by L2, but asked for all the same
    max_iter   step limit of the search, at least 1. One beyond 2**64 - 1 counts as that: no search takes more than 1,447,640 steps

    Raises Refused with the first of the library's questions 1 to 10 that is answered no, in their order; TypeError for what isn't a
    number, a whole number or, for the penalty, a str; RuntimeError where the thread's floating-point environment is another.
    """
    _asked_environment()
    series = _series(y, "y")
    weight, tolerance = _double(lam, "lam"), _double(tol, "tol")
    limit, order32, kind = _whole(max_iter, "max_iter"), _order(order), _penalty(penalty)
    n = series.n
    room = _needs(n, limit, order32, kind, unless=7)
    trend, cycle, dual, knots = _zeros("d", n), _zeros("d", n), _zeros("d", n), _zeros(_U32, n)
    work, marks = _zeros("d", room.work), _zeros(_U32, room.marks)
    found, counts = _zeros("d", 5), _zeros("Q", 5)
    lent = [part for lend in (trend, cycle, knots, dual, work, marks) for part in lend.buffer_info()]
    _told(_LIBRARY.trend_filter_fit(series.at, n, weight, tolerance, limit, order32, kind, *lent, _at(found), _at(counts)))
    knot_count, n_iter, improvements, converged, reason = counts
    lam_max, duality_gap, first_gap, best_gap, objective = found
    return TrendFilterFit(
        trend=series.alike(trend, n), cycle=series.alike(cycle, n), knots=series.alike(knots, knot_count), duality_gap=duality_gap,
        objective=objective, converged=converged == 1, n_iter=n_iter, lam_max=lam_max, first_gap=first_gap, best_gap=best_gap,
        improvements=improvements, reason=Reason(reason), dual=series.alike(dual, n - order32))


def needs(n: int, order: int = 2, penalty: str = "l1", max_iter: int = 10000) -> Needs:
    """What the fit of a series of n places needs, whatever the series, its lam and tol are. The fit takes 8 * work + 4 * marks bytes to
    work in, given back when it ends, and at most 36 * n for what it answers, as the library has it.

    Raises Refused with the first of questions 1, 2, 3 and 7 answered no.
    """
    return _needs(_whole(n, "n"), _whole(max_iter, "max_iter"), _order(order), _penalty(penalty))


def crossings(trend: Series, level: float) -> List[int]:
    """Where a trend passes `level`, rising: the i for which trend[i] is at or below it and trend[i + 1] above, or trend[i] above it and
    trend[i + 1] at or below. A NaN is neither, so there is no crossing beside it.

    Raises Refused with 18 where the level isn't finite, then with 19 where the trend is longer than 65,536.
    """
    _asked_environment()
    series, found = _series(trend, "trend"), _zeros("Q", 1)
    places = _zeros(_U32, series.n)
    _told(_LIBRARY.trend_filter_crossings(_double(level, "level"), series.at, series.n, *places.buffer_info(), _at(found)))
    return places[:found[0]].tolist()


def nearest_knot(trend: Series, knots: Series, place: int) -> Optional[int]:
    """The one of `knots` that is nearest a place of the trend, the lower of two that are as near; None where there is none. They may be any
    whole numbers from 0 to 2**32 - 1, in any order; others are a ValueError.

    Raises Refused with 19 where the trend is longer than 65,536 or the place isn't one of its places, counted from 0.
    """
    series, found = _series(trend, "trend"), _zeros("Q", 2)
    asked, listed = _index(place, "place"), _knots(knots)
    # a place outside 64 bits is none of the trend's, nor is the last one in them
    asked = asked if 0 <= asked <= _MOST else _MOST
    _told(_LIBRARY.trend_filter_nearest_knot(asked, series.at, series.n, *listed.buffer_info(), _at(found)))
    return found[1] if found[0] else None


_MOST = 2**64 - 1
_U32 = "I" if array.array("I").itemsize == 4 else "L"
_DOUBLE = ("@d", "=d", "<d") if sys.byteorder == "little" else ("@d", "=d", ">d", "!d")


def _zeros(code: str, places: int) -> "array.array[Any]":
    """Memory for a call: so many places of 0."""
    return array.array(code, bytes(places * array.array(code).itemsize))


def _at(places: "array.array[Any]") -> int:
    return places.buffer_info()[0]


def _told(refused: int) -> None:
    """What an entry has answered: 0, or a refusal's number."""
    if refused:
        raise Refused(refused)


def _needs(n: int, limit: int, order: int, penalty: int, unless: int = 0) -> Needs:
    """What a fit needs. Where it is refused with `unless`, nothing: the fit asks 4 to 6 before 7 and doesn't come to its work and marks."""
    found = _zeros("Q", 3)
    refused = _LIBRARY.trend_filter_needs(n, limit, order, penalty, _at(found))
    if refused != unless:
        _told(refused)
    return Needs(*found)


def _asked_environment() -> None:
    if not _LIBRARY.trend_filter_environment():
        raise RuntimeError("this thread's floating-point environment isn't the one that the promises assume: see help(trend_filter)")


def _is_number(value: object) -> bool:
    return isinstance(value, numbers.Real) and not isinstance(value, bool)


def _double(value: Any, name: str) -> float:
    """A number as a double; one beyond all doubles is infinite."""
    if not _is_number(value):
        raise TypeError(f"{name}: a number is taken, and {type(value).__name__} is none")
    try:
        return float(value)
    except OverflowError:
        return float("inf") if value > 0 else float("-inf")


def _index(value: Any, name: str) -> int:
    if isinstance(value, bool) or not isinstance(value, numbers.Integral):
        raise TypeError(f"{name}: a whole number is taken, and {type(value).__name__} is none")
    return operator.index(value)


def _whole(value: Any, name: str) -> int:
    """A whole number as 64 bits have it: one below 0 is 0, one beyond is the greatest."""
    return min(max(_index(value, name), 0), _MOST)


def _order(order: Any) -> int:
    """An order as 32 bits have it; one outside them is 0, which question 1 refuses like them."""
    whole = _index(order, "order")
    return whole if 0 <= whole < 2**32 else 0


def _penalty(penalty: Any) -> int:
    """The number of a penalty; of any other name 0, which question 1 refuses."""
    if not isinstance(penalty, str):
        raise TypeError(f'penalty: "l1" or "l2" is taken, and {type(penalty).__name__} is neither')
    return {"l1": 1, "L1": 1, "l2": 2, "L2": 2}.get(penalty, 0)


def _knots(knots: Series) -> "array.array[Any]":
    """Knots as the entry takes them."""
    listed = [_index(k, "knots") for k in _sequence(knots, "knots")]
    if any(not 0 <= k < 2**32 for k in listed):
        raise ValueError("knots: whole numbers from 0 to 2**32 - 1 are taken")
    return array.array(_U32, listed)


class _Doubles(NamedTuple):
    """A series as the entries take it: where its doubles are, how many, what keeps them there, and NumPy where it was an array of that."""

    at: int
    n: int
    keeps: Any
    numpy: Any

    def alike(self, places: "array.array[Any]", count: int) -> Any:
        """The first places of an answer in the form that the series has."""
        if self.numpy is None:
            return places[:count].tolist()
        found = self.numpy.frombuffer(places, dtype=places.typecode)[:count]
        return found if places.typecode == "d" else found.astype(self.numpy.intp)


def _series(values: Any, name: str) -> _Doubles:
    """A series of any of the forms that are taken."""
    numpy = sys.modules.get("numpy")
    if numpy is not None and hasattr(type(values), "__array__"):
        return _of_numpy(numpy, numpy.asanyarray(values), name)
    if isinstance(values, (bytes, bytearray)):
        raise TypeError(f"{name}: a series of numbers is taken, and {type(values).__name__} is none")
    try:
        view = memoryview(values)
    except TypeError:
        return _of_sequence(values, name)
    return _of_buffer(view, name)


def _copied(listed: "array.array[float]") -> _Doubles:
    return _Doubles(_at(listed), len(listed), listed, None)


def _sequence(values: Any, name: str) -> Any:
    """The same, if it is a sequence that may hold numbers."""
    if not hasattr(type(values), "__getitem__") or isinstance(values, (str, bytes, bytearray, collections.abc.Mapping)):
        raise TypeError(f"{name}: a sequence of numbers is taken, and {type(values).__name__} is none")
    return values


def _of_sequence(values: Any, name: str) -> _Doubles:
    return _copied(array.array("d", [v if type(v) is float else _double(v, name) for v in _sequence(values, name)]))


def _of_buffer(view: memoryview, name: str) -> _Doubles:
    """The numbers of a buffer: doubles that lie side by side and may be written are read where they are."""
    form = view.format if view.format[:1] in ("@", "=", "<", ">", "!") else "@" + view.format
    if view.ndim != 1 or len(form) != 2 or form[1] not in "bBhHiIlLqQefd":
        raise TypeError(f"{name}: a buffer of one dimension of numbers is taken, and {view.ndim} of format {view.format} is none")
    if form in _DOUBLE and view.contiguous and not view.readonly and view.nbytes:
        at = ctypes.addressof(ctypes.c_char.from_buffer(view))
        if at % 8 == 0:
            return _Doubles(at, len(view), view, None)
    return _copied(array.array("d", struct.unpack(f"{form[0]}{len(view)}{form[1]}", view.tobytes())))


def _of_numpy(numpy: Any, values: Any, name: str) -> _Doubles:
    """The numbers of a NumPy array: doubles that lie side by side are read where they are."""
    if values.ndim != 1 or isinstance(values, numpy.ma.MaskedArray):
        raise TypeError(f"{name}: an array of one dimension without a mask is taken, and {type(values).__name__} of {values.ndim} is none")
    if values.dtype.kind == "O":
        copy = _of_sequence(values.tolist(), name)
        return copy._replace(numpy=numpy)
    if values.dtype.kind not in "iuf" or values.dtype.itemsize > 8:
        raise TypeError(f"{name}: an array of floats of at most 8 bytes or of whole numbers is taken, and {values.dtype} is none")
    kept = numpy.require(values, dtype=numpy.float64, requirements=["C", "A"])
    return _Doubles(kept.ctypes.data, len(kept), kept, numpy)


def _path() -> pathlib.Path:
    """Where the shared object is."""
    named = os.environ.get("TREND_FILTER_LIBRARY")
    here = pathlib.Path(__file__).resolve().parent
    places = [pathlib.Path(named)] if named else [here / "libtrend_filter.so", here.parent.parent / "target/python/libtrend_filter.so"]
    for path in places:
        if path.is_file():
            return path.resolve()
    looked, how = " or ".join(str(p) for p in places), "run 'tools/build trend_filter' and bindings/python/build"
    raise ImportError(f"no {looked}: {how}, or set TREND_FILTER_LIBRARY to the shared object")


def _loaded(path: pathlib.Path) -> ctypes.CDLL:
    """The shared object, with the types of its entries."""
    d, size, u32, u64, p = ctypes.c_double, ctypes.c_size_t, ctypes.c_uint32, ctypes.c_uint64, ctypes.c_void_p
    lent = (p, size)
    entries: Dict[str, Tuple[Any, ...]] = {
        "trend_filter_fit": (*lent, d, d, u64, u32, u32, *lent * 6, p, p),
        "trend_filter_needs": (u64, u64, u32, u32, p),
        "trend_filter_crossings": (d, *lent, *lent, p),
        "trend_filter_nearest_knot": (u64, *lent, *lent, p),
        "trend_filter_environment": (),
    }
    try:
        library = ctypes.CDLL(str(path))
        for name, types in entries.items():
            entry = getattr(library, name)
            entry.argtypes, entry.restype = types, u32
    except (OSError, AttributeError) as e:
        raise ImportError(f"{path} isn't this module's shared object ({e}): make it anew with bindings/python/build") from None
    return library


_LIBRARY = _loaded(_path())
