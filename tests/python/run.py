#!/usr/bin/env python3
"""tests/python/run.py [[--before-A7] FOLDER ...]: the Python module of bindings/python, after bindings/python/build.

With no folder: the stored fits of tests/fits, every refusal, the forms of a series, threads, the floating-point environment, the examples
in the module's head, and what is said where there is no shared object. With folders: their stored answers (NAME.case, NAME.exp) only, as
tests/corpus/run.c has them; --before-A7 says of the next folder that its answers are from before L2 needed less than L1.
Every stored fit is run with a list, an array and, where NumPy is present, a NumPy array. Needs cc. The last line counts.
"""
import array
import collections
import ctypes
import dataclasses
import decimal
import doctest
import fractions
import math
import os
import pathlib
import pickle
import re
import shutil
import struct
import subprocess
import sys
import threading
import time

ROOT = pathlib.Path(__file__).resolve().parent.parent.parent
MODULE = ROOT / "bindings/python/trend_filter.py"
OUT = ROOT / "target/tests/python"
sys.dont_write_bytecode = True
sys.path.insert(0, str(MODULE.parent))
import trend_filter as tf

try:
    import numpy as np
except ImportError:
    np = None

NAN = 0x7FF8000000000000
INF = float("inf")
WEEK = [float((i * 7919) % 20000 - 10000 + (5000 if i > 84 else 0)) for i in range(168)]
cases = differences = 0


def check(what, good):
    global cases, differences
    cases += 1
    if not good:
        differences += 1
        if differences <= 40:
            print(what)


def raised(call, *words, **named):
    """What a call raises; None where it raises nothing."""
    try:
        call(*words, **named)
    except Exception as e:
        return e
    return None


def check_refused(what, number, call, *words, **named):
    e = raised(call, *words, **named)
    check(f"{what}: {e!r} where {number} is due", type(e) is tf.Refused and e.number == number and isinstance(e, ValueError))


def check_type_error(what, call, *words, **named):
    e = raised(call, *words, **named)
    check(f"{what}: {e!r} where a TypeError is due", type(e) is TypeError and "\n" not in str(e))


def bits(x):
    return NAN if x != x else struct.unpack("<Q", struct.pack("<d", x))[0]


def words_of(fit):
    """All of a fit as whole numbers, so that every bit is compared and NaN equals NaN."""
    parts = [[bits(x) for x in part] for part in (fit.trend, fit.cycle, fit.dual)]
    gaps = [bits(x) for x in (fit.lam_max, fit.duality_gap, fit.first_gap, fit.best_gap, fit.objective)]
    return parts, gaps, [int(k) for k in fit.knots], [fit.n_iter, fit.improvements, fit.converged, int(fit.reason)]


# The stored answers of the Rust.

def hashed(values, size):
    h = 0xCBF29CE484222325
    for byte in struct.pack(f"<{len(values)}{'Q' if size == 8 else 'I'}", *values):
        h = (h ^ byte) * 0x100000001B3 & 0xFFFFFFFFFFFFFFFF
    return f"{h:016x}"


def listing(call, words):
    """The text that the .exp has, from the words of a fit."""
    (trend, cycle, dual), gaps, knots, (n_iter, improvements, converged, reason) = words
    lines = [f"fit {len(trend)} {call.order} {call.penalty} {n_iter} {improvements} {int(converged)} {reason} {len(knots)}"]
    lines.append("num " + " ".join(f"{g:016x}" for g in gaps))
    hashes = [hashed(trend, 8), hashed(cycle, 8), hashed(knots, 4)] + ([hashed(dual, 8)] if call.with_dual else [])
    lines.append("hash " + " ".join(hashes))
    if len(trend) <= 256:
        lines += [f"h {i} {t:016x} {c:016x}" for i, (t, c) in enumerate(zip(trend, cycle))]
        lines += [f"knot {k}" for k in knots]
        lines += [f"dual {i} {z:016x}" for i, z in enumerate(dual)] if call.with_dual else []
    return "\n".join(lines) + "\n"


Call = collections.namedtuple("Call", "order penalty n lent lam tol max_iter y with_dual")


def read_call(data):
    """A stored call; lent: places of trend, cycle, knots, work, marks and dual."""
    with_dual = data[:4] == b"TFC2"
    if not with_dual and data[:4] != b"TFC1":
        raise ValueError("no stored case")
    order, penalty, _, n, *lent = struct.unpack_from("<BBHI6I" if with_dual else "<BBHI5I", data, 4)
    lam, tol, max_iter = struct.unpack_from("<ddQ", data, 40 if with_dual else 32)
    return Call(order, penalty, n, lent if with_dual else lent + [n], lam, tol, max_iter, data[64 if with_dual else 56:], with_dual)


def by_module(call, y):
    """What the module answers, as an .exp has it, and the fit's words."""
    penalty = {1: "l1", 2: "l2"}.get(call.penalty, f"l{call.penalty}")
    try:
        words = words_of(tf.l1_trend_filter(y, call.lam, order=call.order, penalty=penalty, tol=call.tol, max_iter=call.max_iter))
    except tf.Refused as e:
        return f"refused {e.number}\n", e.number
    return None, words


def by_entry(call, lent):
    """What the entry of the shared object answers to the lengths lent; the module itself never lends too little."""
    codes = zip("ddIdId", (8, 8, 4, 8, 4, 8), lent)
    trend, cycle, knots, work, marks, dual = (array.array(code, bytes(size * places)) for code, size, places in codes)
    numbers, counts, y = array.array("d", bytes(40)), array.array("Q", bytes(40)), array.array("d", call.y)
    parts = [x for part in (trend, cycle, knots, dual, work, marks) for x in part.buffer_info()]
    refused = tf._LIBRARY.trend_filter_fit(y.buffer_info()[0], call.n, call.lam, call.tol, call.max_iter, call.order, call.penalty, *parts,
                                           numbers.buffer_info()[0], counts.buffer_info()[0])
    if refused:
        return f"refused {refused}\n"
    places = [[bits(x) for x in part] for part in (trend[:call.n], cycle[:call.n], dual[:call.n - call.order])]
    return listing(call, (places, [bits(x) for x in numbers], list(knots[:counts[0]]), [counts[1], counts[2], counts[3] == 1, counts[4]]))


def series_forms(data):
    """The same doubles as a list, an array and a NumPy array."""
    made = array.array("d", data)
    return [made.tolist(), made] + ([np.frombuffer(data, dtype="<f8")] if np else [])


def stored_case(name, call, due, before_a7):
    if call.penalty == 2 and before_a7 and due == "refused 9\n" and call.lent[3] >= 16 * call.n:
        due = by_entry(call, [*call.lent[:3], 40 * call.n, 2 * call.n, call.lent[5]])
    if due in ("refused 8\n", "refused 9\n"):
        check(f"{name}: another answer of the entry", by_entry(call, call.lent) == due)
        return
    first = None
    for y in series_forms(call.y):
        before = bytes(memoryview(y)) if not isinstance(y, list) else list(y)
        text, words = by_module(call, y)
        if first is None:
            first = words
            check(f"{name}: another answer", (text or listing(call, words)) == due)
        else:
            check(f"{name}: another answer to {type(y).__name__}", words == first)
        check(f"{name}: y changed", (bytes(memoryview(y)) if not isinstance(y, list) else y) == before)


def stored(folder, before_a7=False):
    found = sorted(folder.glob("*.case"))
    check(f"{folder}: no stored case", bool(found))
    for path in found:
        stored_case(path.stem, read_call(path.read_bytes()), path.with_suffix(".exp").read_text(), before_a7)


# Refusals.

def refusals():
    fit, y = tf.l1_trend_filter, [1.0, 5.0, 2.0, 8.0]
    long, nan = [0.0] * 65537, float("nan")
    # each call has everything after its question wrong as well, so that the order of the questions is compared too
    bad = dict(lam=-1.0, tol=0.0, max_iter=0)
    for order in (0, 3, -1, -2**40, 2**32, 2**32 + 1, 2**64 + 2):
        check_refused(f"order {order}", 1, fit, [nan], order=order, **bad)
    for penalty in ("", "l3", "ridge", "l1 ", "\u21161"):
        check_refused(f"penalty {penalty!r}", 1, fit, [], penalty=penalty, **bad)
    check_refused("order and length", 2, fit, [nan, nan], **bad)
    check_refused("an empty series", 2, fit, [], order=1, **bad)
    check_refused("too long", 3, fit, [nan] + long[1:], **bad)
    for value in (nan, INF, -INF, 10**400, -10**400, fractions.Fraction(10**400)):
        check_refused("a series that isn't finite", 4, fit, [0, 0, value], **bad)
    for lam in (-1, -5e-324, nan, INF, -INF, 10**400, -10**400):
        check_refused(f"lam {lam!s:.20}", 5, fit, y, lam=lam, tol=0.0, max_iter=0)
    for tol in (0, -0.0, -1, nan, INF, 10**400):
        check_refused(f"tol {tol!s:.20}", 6, fit, y, lam=1, tol=tol, max_iter=0)
    for limit in (0, -1, -2**70):
        check_refused(f"max_iter {limit}", 7, fit, y, lam=1, max_iter=limit)
        check_refused(f"needs with max_iter {limit}", 7, tf.needs, 168, max_iter=limit)
    check_refused("a pivot", 10, fit, [0, 0, 0], lam=1e308, penalty="l2")
    others()


def others():
    """The refusals of what isn't a fit."""
    nan = float("nan")
    for n, order, due in ((2, 2, 2), (-1, 1, 2), (0, 1, 2), (65537, 2, 3), (2**64 + 5, 2, 3), (168, 3, 1), (168, -1, 1)):
        check_refused(f"needs of {n}, order {order}", due, tf.needs, n, order=order, max_iter=0)
    check_refused("needs of another penalty", 1, tf.needs, 0, penalty="l0")
    for level in (nan, INF, -INF, 10**400):
        check_refused("a level", 18, tf.crossings, [0.0] * 65537, level)
    check_refused("a long trend", 19, tf.crossings, [0.0] * 65537, 1.0)
    for place in (3, -1, 2**64, 2**64 + 1, -2**64 + 1):
        check_refused(f"place {place}", 19, tf.nearest_knot, [1.0, 2.0, 3.0], [1], place)
    check_refused("no trend", 19, tf.nearest_knot, [], [1], 0)
    check_refused("a long trend and its knots", 19, tf.nearest_knot, [0.0] * 65537, [1], 0)


def texts():
    """The words of each question are those of the Rust crate."""
    errors, source = ((ROOT / "bindings/rust/src" / name).read_text() for name in ("error.rs", "lib.rs"))
    body = errors[errors.index("pub fn question"):]
    listed = {int(a): b for a, b in re.findall(r'(\d+) => "([^"]+)"', body[:body.index("\n    }\n")])}
    check("the questions of the Rust crate", listed == tf._QUESTIONS and len(listed) == 13)
    for number, words in listed.items():
        e = tf.Refused(number)
        check(f"the text of {number}", str(e) == f"refused {number}: {words}" and e.question == words)
        again = pickle.loads(pickle.dumps(e))
        check(f"{number} after pickle", type(again) is tf.Refused and again.number == number and again.args == (number,))
    reasons = dict((int(b), a) for a, b in re.findall(r"(\w+) = (\d),", source))
    named = {int(r): r.name.title().replace("_", "") for r in tf.Reason}
    check("the reasons of the Rust crate", reasons == named and len(named) == 5)
    said = re.findall(r'Reason::(\w+) => "([^"]+)"', source)
    check("the reasons' words", said == [(named[int(r)], r.text) for r in tf.Reason])


# The forms of what is given.

def forms():
    fit = tf.l1_trend_filter
    y = [3, 1, 4, 1, 5, 9, 2, 6]
    due = words_of(fit([float(v) for v in y], 2.0, order=1))
    doubles = array.array("d", y)
    buffered = bytearray(b"x" * 8 + doubles.tobytes() + b"x")
    odd = bytearray(b"x") + doubles.tobytes()
    held = (ctypes.c_double * 8)(*y)
    swapped = (ctypes.c_double.__ctype_be__ * 8)(*y)
    taken = {
        "whole numbers": y, "tuple": tuple(y), "range-like": collections.deque(y), "fractions": [fractions.Fraction(v) for v in y],
        "array of doubles": doubles, "array of floats": array.array("f", y), "array of bytes": array.array("b", y),
        "array of 64 bits": array.array("Q", y), "memoryview": memoryview(doubles), "read-only": memoryview(doubles.tobytes()).cast("d"),
        "strided": memoryview(array.array("d", [x for v in y for x in (v, -v)]))[::2],
        "backwards": memoryview(array.array("d", y[::-1]))[::-1],
        "part": memoryview(buffered)[8:72].cast("d"), "off its place": memoryview(odd)[1:].cast("d"), "ctypes": held, "big-endian": swapped,
    }
    for name, values in taken.items():
        got = fit(values, 2, order=1)
        check(f"{name}: another fit", words_of(got) == due and {type(p) for p in (got.trend, got.cycle, got.knots, got.dual)} == {list})
    check("a range", words_of(fit(range(9), 2, order=1)) == words_of(fit(list(range(9)), 2.0, order=1)))
    check("a sequence's y changed", y == [3, 1, 4, 1, 5, 9, 2, 6] and doubles.tolist() == y and list(held) == y)
    check("penalty in capitals", words_of(fit(y, 2.0, order=1, penalty="L1")) == due)
    check("penalty L2", words_of(fit(y, 2.0, penalty="L2")) == words_of(fit(y, 2.0, penalty="l2")) != words_of(fit(y, 2.0)))
    check("a limit beyond 64 bits", words_of(fit(y, 2.0, order=1, max_iter=2**64)) == due)
    check("a limit of 1", fit(y, 2.0, order=1, max_iter=1).reason == tf.Reason.LIMIT_SPENT)
    check("rounded like float()", fit([2**53 + 1, 2**60 + 2**7 + 1], 0, order=1).trend == [float(2**53 + 1), float(2**60 + 2**7 + 1)])
    check("lam -0", fit(y, -0.0).trend == [float(v) for v in y])


def wrong_forms():
    fit, y = tf.l1_trend_filter, [1.0, 5.0, 2.0]
    wrong = [None, 3.0, "123", b"12345678", bytearray(24), {0: 1.0, 1: 2.0, 2: 3.0}, {1.0, 2.0, 3.0}, iter(y), (v for v in y), zip(y),
             object(), [True, False, True], [1.0, None, 2.0], ["1", "2", "3"], [1.0, 2j, 3.0], [y, y, y], [decimal.Decimal(1)] * 3,
             ctypes.c_double(1), memoryview(array.array("d", y * 2)).cast("B").cast("d", (2, 3)), (ctypes.c_bool * 3)(),
             (ctypes.c_char * 24)(), ((ctypes.c_double * 2) * 3)()]
    for values in wrong:
        # a TypeError comes before any question: everything else is wrong too
        check_type_error(f"y {values!r}", fit, values, lam=-1.0, order=0, tol=0, max_iter=0)
        check_type_error(f"trend {values!r}", tf.crossings, values, INF)
    for value in (None, "1", True, 1j, [1.0], decimal.Decimal(1)):
        check_type_error(f"lam {value!r}", fit, y, value, order=0)
        check_type_error(f"tol {value!r}", fit, y, 1.0, order=0, tol=value)
        check_type_error(f"level {value!r}", tf.crossings, y, value)
    for value in (None, "1", True, 1.0, [1], INF):
        check_type_error(f"order {value!r}", fit, y, -1.0, order=value)
        check_type_error(f"max_iter {value!r}", fit, y, -1.0, max_iter=value)
        check_type_error(f"n {value!r}", tf.needs, value)
        check_type_error(f"place {value!r}", tf.nearest_knot, y, [1], value)
        check_type_error(f"knots {value!r}", tf.nearest_knot, y, [value], 1)
    for value in (None, 1, 2, b"l1", ["l1"], True):
        check_type_error(f"penalty {value!r}", fit, y, -1.0, order=0, penalty=value)
    for knots in ([-1], [2**32]):
        e = raised(tf.nearest_knot, y, knots, 1)
        check(f"knots {knots}", type(e) is ValueError)


def unchanged():
    """A refusal and a fit leave every form of the series as it was; doubles side by side are not copied, all else is."""
    for lam in (-1.0, 2.0):
        for y in series_forms(array.array("d", [3.0, 1.0, 4.0, 1.0, 5.0]).tobytes()):
            before = [bits(v) for v in y]
            raised(tf.l1_trend_filter, y, lam)
            check("y changed", [bits(v) for v in y] == before)
    doubles = array.array("d", WEEK)
    check("an array is copied", tf._series(doubles, "y").at == doubles.buffer_info()[0])
    held = tf._series(doubles, "y")
    check("an array in use can be resized", type(raised(doubles.append, 1.0)) is BufferError and held.n == 168)
    check("doubles off their place are not copied", tf._series(memoryview(bytearray(25))[1:].cast("d"), "y").at % 8 == 0)


def numpy_forms():
    if not np:
        print("NumPy isn't installed: its arrays were left out")
        return
    fit, y = tf.l1_trend_filter, np.array([3.0, 1.0, 4.0, 1.0, 5.0, 9.0, 2.0, 6.0])
    due = words_of(fit(y.tolist(), 2.0, order=1))
    wide = np.zeros((8, 3))
    wide[:, 1] = y
    packed = np.zeros(8, dtype=np.dtype([("a", "u1"), ("y", "f8")]))
    packed["y"] = y
    fixed = y.copy()
    fixed.flags.writeable = False
    others = (y.astype(kind) for kind in (object, ">f8", "f4", ">f4", "f2", "i1", "u1", "i2", "<u4", ">i8", "u8"))
    taken = [y, fixed, wide[:, 1], y[::-1][::-1], packed["y"], *others]
    for values in taken:
        got = fit(values, 2.0, order=1)
        types = [(part.dtype, part.ndim) for part in (got.trend, got.cycle, got.dual)]
        check(f"{values.dtype}: another fit", words_of(got) == due and types == [(np.dtype("f8"), 1)] * 3)
        check(f"{values.dtype}: another kind of knots", got.knots.dtype == np.dtype("intp"))
        got.trend[0], got.knots[0] = 1.0, 1  # the answer is the caller's
    check("the series changed", y.tolist() == [3, 1, 4, 1, 5, 9, 2, 6])
    check("a NumPy array is copied", tf._series(y, "y").at == y.ctypes.data and tf._series(fixed, "y").at == fixed.ctypes.data)
    named = dict(order=np.int64(1), max_iter=np.uint64(10000), tol=np.float64(1e-8))
    check("numbers of NumPy", words_of(fit(list(y), np.float32(2), **named)) == due)
    odd = np.frombuffer(bytearray(b"x" + y.tobytes()), dtype="f8", offset=1)
    check("doubles off their place are not copied", tf._series(odd, "y").at % 8 == 0 and words_of(fit(odd, 2.0, order=1)) == due)
    numpy_helpers(fit(y, 2.0, order=1), fit(y.tolist(), 2.0, order=1))
    whole = np.array([2**53 + 1, 2**63 - 1], dtype="i8")
    check("rounded like float()", fit(whole, 0, order=1).trend.tolist() == [float(int(v)) for v in whole])
    wrong = [y > 2, y.astype("c16"), y.astype("longdouble"), y.reshape(2, 4), np.float64(3), np.array(3.0), y.astype("U8"), y.astype("S8"),
             np.ma.masked_array(y, y > 5), np.zeros(3, "M8[s]"), packed, np.array([1.0, None, 2.0]),
             np.array([True, 2.0, 3.0], dtype=object)]
    for values in wrong:
        check_type_error(f"y {values!r}", fit, values, lam=-1.0, order=0)


def numpy_helpers(got, due):
    other = dataclasses.replace(due, trend=[*due.trend[:-1], 7.0])
    check("fits compared", got == due and due == got and got == dataclasses.replace(got) and got != other and due != other and got != 1)
    for name in ("order", "max_iter"):
        check_type_error(f"{name} a bool of NumPy", tf.l1_trend_filter, [1.0, 2.0], 1.0, **{name: np.bool_(True)})
    for level in (3.0, 4.5):
        check("crossings of a NumPy trend", got.crossings(level) == due.crossings(level) == tf.crossings(list(got.trend), level))
    for place in range(8):
        check("the knot of a NumPy trend", got.nearest_knot(np.int32(place)) == due.nearest_knot(place))


# What is told before and after a fit.

def told():
    check("needs", tf.needs(168) == (6720, 336, 10000) and tf.needs(168, penalty="l2") == (2688, 0, 0))
    check("the most steps", tf.needs(65536, order=1, max_iter=2**70) == (2621440, 131072, 1447640))
    trend = [7900, 8000, 8600, 8100, 7400]
    check("past eight seconds", tf.crossings(trend, 8000) == [1, 3] and tf.crossings(trend, 9000.0) == [] and tf.crossings([], 0.0) == [])
    check("a NaN in a trend", tf.crossings([0.0, math.nan, 2.0, 0.0], 1.0) == [2])
    check("the nearest knot", [tf.nearest_knot(trend, [0, 2], i) for i in range(5)] == [0, 0, 2, 2, 2])
    check("no knot", tf.nearest_knot(trend, [], 0) is None)
    check("any knots", tf.nearest_knot(trend, (2**32 - 1, 7, 6), 4) == 6 and tf.nearest_knot(trend, array.array("I", [9, 5]), 0) == 5)
    fit = tf.l1_trend_filter(WEEK, 20000.0, order=1)
    level = sum(fit.trend) / 168
    due = [i for i in range(167) if (fit.trend[i] <= level) != (fit.trend[i + 1] <= level)]
    check("crossings of a fit", fit.crossings(level) == due and due)
    nearest = [min(fit.knots, key=lambda k: (abs(k - i), k)) for i in range(168)]
    check("nearest knots of a fit", [fit.nearest_knot(i) for i in range(168)] == nearest and len(fit.knots) > 1)
    check("the cycle", fit.cycle == [a - b for a, b in zip(WEEK, fit.trend)])
    check("a fit can't be changed", raised(setattr, fit, "lam_max", 0.0) is not None)
    check("equal fits", fit == tf.l1_trend_filter(tuple(WEEK), 20000.0, order=1) and fit != tf.l1_trend_filter(WEEK, 20001.0, order=1))


# Threads and the floating-point environment.

def threads():
    asked = [(i, 1 + i % 2, 1000.0 * (1 + i % 5), 10 ** -(3 + i % 9)) for i in range(40)]

    def one(i, order, lam, tol):
        return words_of(tf.l1_trend_filter([v * (1 + i % 7) for v in WEEK], lam, order=order, tol=tol))

    due, got = [one(*a) for a in asked], {}
    check("the fits of the threads are all alike", len({repr(d) for d in due}) == len(due))

    def many(start):
        for k in range(len(asked)):
            i = (k + start) % len(asked)
            got[start, i] = one(*asked[i])

    started = [threading.Thread(target=many, args=(5 * s,)) for s in range(8)]
    for t in started:
        t.start()
    for t in started:
        t.join()
    for s in range(8):
        for i in range(len(asked)):
            check(f"fit {i} of thread {s}", got.get((5 * s, i)) == due[i])


def lets_go():
    """While a long fit runs, another thread does."""
    y = array.array("d", [float((i * 7919) % 20011) for i in range(65536)])
    ended = threading.Event()

    def fit():
        tf.l1_trend_filter(y, 1e5, tol=1e-300)
        ended.set()

    worker, ticks = threading.Thread(target=fit), 0
    worker.start()
    while not ended.is_set():
        time.sleep(0.005)
        ticks += 1
    worker.join()
    check(f"no other thread runs during a fit: {ticks} turns", ticks >= 5)


def helper(name, *flags):
    OUT.mkdir(parents=True, exist_ok=True)
    made = OUT / name
    subprocess.run(["cc", "-O1", "-fPIC", "-shared", *flags, str(ROOT / "tests/python/flush.c"), "-o", str(made)], check=True)
    return made


def environment():
    """Each change of the environment is refused in the thread that has it, and in no other."""
    machine = ctypes.CDLL(str(helper("flush.so")))
    machine.get.restype = ctypes.c_uint
    machine.set.argtypes = (ctypes.c_uint,)
    calls = [lambda: tf.l1_trend_filter(WEEK, 1e4), lambda: tf.crossings(WEEK, 0.0)]
    plain = machine.get()
    other = []
    # flush to zero, subnormals as zero, the three other roundings, underflow and division by zero that trap
    for changed in (plain | 0x8000, plain | 0x40, plain | 0x2000, plain | 0x4000, plain | 0x6000, plain & ~0x800, plain & ~0x200):
        def asked():
            machine.set(changed)
            got = [raised(call) for call in calls]
            machine.set(plain)
            other.append([type(e) is RuntimeError and "\n" not in str(e) for e in got])
        asked()
        t = threading.Thread(target=asked)
        t.start()
        t.join()
        check(f"environment {changed:x}", other[-2:] == [[True, True]] * 2)
        check("the environment as it was", [raised(call) for call in calls] == [None, None])


def environment_at_load():
    """A library that changes the environment as it is loaded, before the module or after it."""
    path = helper("at_load.so", "-DAT_LOAD")
    load, use = f"import ctypes; ctypes.CDLL({str(path)!r})\n", "import trend_filter as tf\n"
    for text in (load + use, use + load):
        status, out = in_python(text + "try: tf.l1_trend_filter([1.0, 2.0, 4.0], 1.0)\nexcept RuntimeError: print('refused')\n")
        check("a library that flushes to zero", (status, out) == (0, "refused\n"))


# The shared object, and the examples.

def in_python(text, folder=MODULE.parent, **variables):
    """Runs a text with the module of a folder: its status, and what it printed."""
    given = {k: v for k, v in os.environ.items() if k != "TREND_FILTER_LIBRARY"}
    run = subprocess.run([sys.executable, "-B", "-c", text], env={**given, "PYTHONPATH": str(folder), **variables},
                         stdout=subprocess.PIPE, stderr=subprocess.STDOUT, universal_newlines=True)
    return run.returncode, run.stdout


def no_library():
    alone = OUT / "alone/bindings/python"
    shutil.rmtree(OUT / "alone", ignore_errors=True)
    alone.mkdir(parents=True)
    shutil.copy(str(MODULE), str(alone))
    text = "try: import trend_filter; print(trend_filter._LIBRARY._name)\nexcept ImportError as e: print('none:', e)\n"
    missing, flush = str(OUT / "nowhere.so"), str(helper("flush.so"))
    for what, folder, variables, words in [
            ("no shared object", alone, {}, "bindings/python/build"),
            ("none where the variable says", alone, {"TREND_FILTER_LIBRARY": missing}, missing),
            ("none where the variable says, one in target", MODULE.parent, {"TREND_FILTER_LIBRARY": missing}, missing),
            ("another shared object", alone, {"TREND_FILTER_LIBRARY": flush}, "bindings/python/build"),
            ("a file that is none", alone, {"TREND_FILTER_LIBRARY": str(MODULE)}, "bindings/python/build")]:
        status, out = in_python(text, folder, **variables)
        check(f"{what}: {out}", status == 0 and out.startswith("none:") and out.count("\n") == 1 and words in out)
    built = subprocess.run([sys.executable, str(MODULE.parent / "build")], env={**os.environ, "CC": str(OUT / "no-compiler")},
                           stdout=subprocess.PIPE, stderr=subprocess.STDOUT, universal_newlines=True)
    check(f"no compiler: {built.stdout}", built.returncode == 1 and built.stdout.count("\n") == 1 and "install cc" in built.stdout)
    made = pathlib.Path(tf._LIBRARY._name)
    check("the variable", in_python(text, alone, TREND_FILTER_LIBRARY=str(made)) == (0, f"{made}\n"))
    shutil.copy(str(made), str(alone / "libtrend_filter.so"))
    check("beside the module", in_python(text, alone) == (0, f"{(alone / 'libtrend_filter.so').resolve()}\n"))


def examples():
    failed, tried = doctest.testmod(tf)
    check(f"{failed} of {tried} examples", not failed and tried >= 7)


def main(words):
    if not words:
        stored(ROOT / "tests/fits")
        for group in (refusals, texts, forms, wrong_forms, unchanged, numpy_forms, told, threads, lets_go, environment, environment_at_load,
                      no_library, examples):
            group()
    while words:
        before_a7 = words[0] == "--before-A7"
        stored(pathlib.Path(words[before_a7]), before_a7)
        words = words[1 + before_a7:]
    print(f"{cases} cases, {differences} differences")
    sys.exit(1 if differences else 0)


main(sys.argv[1:])
