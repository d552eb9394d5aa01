#!/usr/bin/env python3
"""fuzz.py [COUNT [SEED [PROGRAM]]]: random and mutated inputs of the weekly program, 100,000 unless COUNT is given.

Each run must end within ten seconds, with status 0, and print a listing or one line `refused N`, nothing else.
Beside that form, a plain reading of the questions 11, 12, 17 (document 02, A8), 13, 22 (A14), 1, 2, 5, 6, 7 and 10 says for each
input which refusal is right, and of a fit n, order, penalty, the bounds of n_iter and what the other fields say of the reason are
checked. The hours must be printed by their positions (document 02, A1), each with the cycle that the trend leaves of the
milliseconds at that position, frames turned into milliseconds by exact fractions and corrections made, and the knots by the
positions of exactly the places at which document 01 has the printed trend bend.
Refusal 10 is right exactly where the Rust's elimination, done here in doubles, meets a pivot that isn't finite and above 0.
The line before the last says how many inputs met each refusal, and how many are fitted; the last one, how many agree, how many
fits have hours in frames and how many refusals are 22.
"""
import collections
import fractions
import functools
import math
import multiprocessing
import random
import re
import struct
import subprocess
import sys

LENGTHS = {1: 6, 2: 2, 3: 28, 4: 8, 5: 14}
WHOLE, HEX = "(?:0|[1-9][0-9]*)", "[0-9a-f]{16}"
FIT = re.compile(rf"fit{f' ({WHOLE})' * 5} ([01]) ([0-4])\n({HEX}) {HEX} {HEX}\n((?:h {WHOLE} {HEX} {HEX}\n)*)((?:knot {WHOLE}\n)*)")
CLOSED, SMALL, SPENT, STALLED, LOST = range(5)


# ---- what is right

def split(data):
    """The records of an input as (kind, body), or None where question 11 is answered no."""
    if len(data) > 4096:
        return None
    records, at = [], 0
    while at < len(data):
        if len(data) - at < 4:
            return None
        length, kind = struct.unpack_from("<HH", data, at)
        if length != LENGTHS.get(kind) or at + 2 + length > len(data):
            return None
        records.append((kind, data[at + 4:at + 2 + length]))
        at += 2 + length
    return records


def has_kind(data, kind):
    """Whether an input splits into whole records, one of that kind among them."""
    return any(k == kind for k, _ in split(data) or [])


def in_milliseconds(body):
    """The double nearest to the milliseconds that an hour in frames says, or a NaN where question 22 refuses it."""
    count, numerator, denominator = struct.unpack("<iII", body)
    if numerator == 0 or denominator == 0:
        return math.nan
    exact = fractions.Fraction(count * 1000 * denominator, numerator)  # in lowest terms
    return float(exact) if abs(exact.numerator) < 2 ** 53 else math.nan


def series_of(records):
    """The (position, milliseconds) of each hour that sounds, corrections made; None where one names no earlier hour."""
    week = []  # by position: milliseconds, or None for a silent hour
    for kind, body in records:
        if kind == 1:
            week.append(struct.unpack("<i", body)[0])
        elif kind == 2:
            week.append(None)
        elif kind == 5:
            week.append(in_milliseconds(body))
        elif kind == 4:
            position, milliseconds = struct.unpack("<Hi", body)
            if position >= len(week):
                return None
            week[position] = milliseconds
    return [(p, float(x)) for p, x in enumerate(week) if x is not None]


def expected(data):
    """A refusal's number, or what reaches the fit: the series and (lam, tol, max_iter, order, penalty)."""
    records = split(data)
    if records is None:
        return 11
    if not records or records[0][0] != 3 or any(k == 3 for k, _ in records[1:]):
        return 12
    series = series_of(records)
    if series is None:
        return 17
    n = len(series)
    if n > 168:
        return 13
    if any(kind == 5 and math.isnan(in_milliseconds(body)) for kind, body in records):
        return 22
    settings = lam, tol, limit, order, penalty = struct.unpack("<ddQBB", records[0][1])
    if order not in (1, 2) or penalty not in (1, 2):
        return 1
    if n < order + 1:
        return 2
    if not math.isfinite(lam) or lam < 0:
        return 5
    if not math.isfinite(tol) or tol <= 0:
        return 6
    if limit < 1:
        return 7
    if not (sound_dd(order, n - order) and (penalty == 1 or sound_l2(order, n, lam))):
        return 10
    return series, settings


def sound(a, bandwidth):
    """Whether the L D L' elimination of a banded matrix, as the Rust does it, meets good pivots only."""
    low, d = [{} for _ in a], []
    for i in range(len(a)):
        pivot = a[i][i]
        for j in range(max(0, i - bandwidth), i):
            pivot -= low[i][j] * low[i][j] * d[j]
        if not (math.isfinite(pivot) and pivot > 0):
            return False
        d.append(pivot)
        for r in range(i + 1, min(len(a), i + bandwidth + 1)):
            v = a[r][i]
            for j in range(max(0, r - bandwidth), i):
                v -= low[r][j] * low[i][j] * d[j]
            low[r][i] = v / pivot
    return True


STENCIL = {1: (-1.0, 1.0), 2: (1.0, -2.0, 1.0)}


@functools.cache
def sound_dd(k, m):
    """Whether the pivots of D D' are good."""
    c = STENCIL[k]
    g = [sum(c[j] * c[j + t] for j in range(k + 1 - t)) for t in range(k + 1)]
    return sound([{j: g[i - j] for j in range(max(0, i - k), i + 1)} for i in range(m)], k)


def sound_l2(k, n, lam):
    """Whether the pivots of I + lam D'D are good: a row of D adds (lam·c[a])·c[b] to the places (t + a, t + b)."""
    c = STENCIL[k]
    rows = [{j: 0.0 for j in range(max(0, i - k), i + 1)} for i in range(n)]
    for i in range(n):
        rows[i][i] += 1.0
    for t in range(n - k):
        for a in range(k + 1):
            for b in range(a + 1):
                rows[t + a][t + b] += lam * c[a] * c[b]
    return sound(rows, k)


def ends_so(reason, penalty, lam, lam_max, n_iter, limit, improvements, converged):
    """Whether a search can have ended for this reason, as far as the listing tells."""
    closed = penalty == 2 or lam == 0 or lam >= lam_max
    return {
        CLOSED: closed and n_iter == 0 and improvements == 0 and converged == 1,
        SMALL: not closed,
        SPENT: not closed and n_iter == limit,
        STALLED: not closed and improvements + 10 <= n_iter < limit,
        LOST: not closed and improvements + 1 <= n_iter,
    }[reason]


def number(word):
    return struct.unpack(">d", bytes.fromhex(word))[0]


def digits(x):
    return "7ff8000000000000" if math.isnan(x) else struct.pack(">d", x).hex()


def bends(y, trend, order):
    """The places at which a trend bends: where the size of its difference is above the threshold."""
    d_y, d_trend = y, trend
    for _ in range(order):
        d_y, d_trend = [[b - a for a, b in zip(x, x[1:])] for x in (d_y, d_trend)]
    threshold = max(1e-6 * max(map(abs, d_y)), 1e-12 * max(map(abs, y)))
    return [i for i, d in enumerate(d_trend) if abs(d) > threshold]


def fault(want, run):
    """What is wrong with a run where `want` is expected, or None."""
    if run.returncode != 0 or run.stderr:
        return f"status {run.returncode}, {run.stderr[:80]!r}"
    if isinstance(want, int):
        return None if run.stdout == b"refused %d\n" % want else f"refused {want} is right"
    series, (lam, _, limit, order, penalty) = want
    positions, y = zip(*series)
    m = FIT.fullmatch(run.stdout.decode("ascii", "replace"))
    if not m:
        return "a listing is right"
    head = [int(m.group(i)) for i in range(1, 8)]
    n_iter, improvements, converged, reason = head[3:]
    lam_max = number(m.group(8))
    if head[:3] != [len(series), order, penalty]:
        return "another n, order or penalty"
    if n_iter > limit or n_iter > 10 * improvements + 10:
        return "more steps than allowed"
    if not ends_so(reason, penalty, lam, lam_max, n_iter, limit, improvements, converged):
        return f"reason {reason} does not go with the other fields"
    lines = [line.split()[1:] for line in m.group(9).splitlines()]
    if [int(p) for p, _, _ in lines] != list(positions):
        return "the hours do not have their positions"
    trend = [number(t) for _, t, _ in lines]
    if [c for _, _, c in lines] != [digits(a - b) for a, b in zip(y, trend)]:
        return "a cycle is not what the trend leaves of its hour"
    if [int(line.split()[1]) for line in m.group(10).splitlines()] != [positions[i] for i in bends(y, trend, order)]:
        return "the knots do not have the positions of the places at which the trend bends"
    return None


# ---- inputs

SILENT = struct.pack("<HH", 2, 2)
# kinds and sizes of a body that there are not
ODD = [(4, 0), (4, 2), (4, 4), (4, 5), (4, 7), (4, 8), (4, 12), (0, 6), (260, 6), (1024, 6)]
ODD += [(5, 0), (5, 4), (5, 6), (5, 8), (5, 11), (5, 13), (5, 14), (1, 12), (2, 12), (6, 12), (261, 12), (1280, 12)]
# frames a second, as television has them
RATES = [(30000, 1001), (24000, 1001), (60000, 1001), (25, 1), (24, 1), (30, 1), (50, 1)]
# numbers whose product is 2^53, 1 or 2 less, or 2 more
AT_LIMIT = [(2 ** i, 2 ** (53 - i)) for i in range(22, 31)] + [(441650591, 20394401), (67108863, 134217730), (308761441, 29172034)]


def correction(position, milliseconds):
    return struct.pack("<HHHi", 8, 4, position, milliseconds)


def overrun(r):
    return r.choice([r.randrange(-8000, 8000), r.randrange(-2 ** 31, 2 ** 31), 2 ** 31 - 1, -2 ** 31])


def in_frames(count, numerator, denominator):
    return struct.pack("<HHiII", 14, 5, count, numerator, denominator)


def usual_frames(r, milliseconds):
    """An hour of about so many milliseconds in frames, at a usual rate; half of them write the rate with larger numbers."""
    numerator, denominator = r.choice(RATES)
    factor = r.choice([1, r.randrange(1, (2 ** 32 - 1) // numerator + 1)])
    return in_frames(milliseconds * numerator // (1000 * denominator), factor * numerator, factor * denominator)


def near_limit(r):
    """A count and a rate whose fraction has an upper number near 2^53, or a part of such a number."""
    count, denominator = r.choice(AT_LIMIT)
    most = (2 ** 32 - 1) // 1000
    rest = r.choice([1, r.randrange(1, most + 1)])
    factor = r.randrange(1, min((2 ** 32 - 1) // denominator, most // rest) + 1)
    return r.choice([-1, 1]) * (count + r.choice([-1, 0, 0, 1])), 1000 * rest * factor, denominator * factor


def near_tie(r):
    """A count and a rate whose milliseconds are as near as can be to a double, or to the middle between two."""
    while True:
        numerator, denominator = r.randrange(1, 2 ** 32), r.choice([1, 1001, r.randrange(1, 4195)])
        if math.gcd(numerator, 10 * denominator) == 1:
            # with so many binary digits behind the point milliseconds near 1000 * denominator, or near half of it, have 54
            shift = 54 - (1000 * denominator).bit_length() + r.randrange(2)
            count = pow(1000 * denominator << shift, -1, numerator)  # and 1 / numerator of the last one is left over
            count = r.choice([count, numerator - count])
            if count < 2 ** 31:
                return r.choice([-1, 1]) * count, numerator, denominator


def odd_frames(r, right):
    """An hour in frames of an unusual count or rate, which question 22 takes if it is to be right, and else refuses."""
    some = lambda: r.choice([1, 1000, 2 ** 31, 2 ** 32 - 1, r.randrange(1, 2 ** 32)])
    while True:
        count = r.choice([0, 1, -1, 77, 2 ** 31 - 1, -2 ** 31, r.randrange(-2 ** 31, 2 ** 31)])
        zero = r.choice([(0, some()), (some(), 0), (0, 0)])
        hour = in_frames(*r.choice([(count, some(), some()), (count, *zero), near_limit(r), near_tie(r)]))
        if math.isnan(in_milliseconds(hour[4:])) != right:
            return hour


def bits(r, right):
    """Eight bytes of a double: a sensible one if it has to be right; else mostly, or an edge, or any pattern."""
    kind = 0 if right else r.random()
    if kind < 0.6:
        return struct.pack("<d", 10 ** r.uniform(-9, 7))
    if kind < 0.75:
        return struct.pack("<d", r.choice([0.0, -0.0, 5e-324, -5e-324, 1e308, 1e-300, math.inf, -math.inf, 1.0, -1.0]))
    if kind < 0.85:
        return struct.pack("<Q", r.choice([0, 2 ** 63]) + 0x7FF0000000000000 + r.choice([1, 2 ** 51, 2 ** 51 + 1, 2 ** 52 - 1]))
    return struct.pack("<Q", r.getrandbits(64))


def settings(r):
    """Settings, in half of the inputs such as no question refuses; in some lam is 0, where the trend is the series itself."""
    right = r.random() < 0.5
    lam = bytes(8) if r.random() < 0.1 else bits(r, right)
    limit = r.choice([1 if right else 0, 1, 2, 20, 60, 100, 2 ** 32, 2 ** 64 - 1, r.getrandbits(64)])
    small = lambda: r.choice([1, 2] if right else [1, 2, 1, 2, 1, 2, 0, 3, r.getrandbits(8)])
    return struct.pack("<HH", 28, 3) + lam + bits(r, right) + struct.pack("<QBB", limit, small(), small())


def hours(r):
    """The records of a week's hours, in milliseconds, in frames and silent; in some weeks question 22 refuses one."""
    n = r.choice([0, 1, 2, 3, r.randrange(4, 40), r.randrange(100, 169), 168, 169])
    framed, odd = r.choice([0, 0, 0.1, 0.5, 1]), r.choice([0, 0.1, 1])  # how many hours are in frames, and how many of these are odd
    level, out, changes = r.randrange(-8000, 8000), [], []
    for i in range(n):
        if r.random() < 0.03:
            level = overrun(r)
            changes.append(i)
        milliseconds = max(-2 ** 31, min(2 ** 31 - 1, level + r.randrange(-300, 300)))
        if r.random() < framed:
            out.append(odd_frames(r, True) if r.random() < odd else usual_frames(r, milliseconds))
        else:
            out.append(struct.pack("<HHi", 6, 1, milliseconds))
    if out and framed and r.random() < 0.25:
        out[r.randrange(n)] = odd_frames(r, False)
    silent = silences(r, out, changes)
    return [slot for s, hour in zip(silent, out) for slot in [SILENT] * s + [hour]] + [SILENT] * silent[n]


def silences(r, out, changes):
    """How many silent hours stand before each of some hours and after the last: none, single ones, or a few runs."""
    n = len(out)
    kind, silent = r.random(), [0] * (n + 1)
    if 0.3 <= kind < 0.5:
        often = r.choice([0.05, 0.5])
        silent = [int(r.random() < often) for _ in silent]
    elif 0.5 <= kind:
        # 4,096 bytes have room for 1,016 beside the settings, less 2 for each hour, 4 in frames, and 2 with a correction, 5 with two
        room = max(0, 1016 - sum(map(len, out)) // 4 - r.choice([0, 2, 5, 200]))
        near = [c + side for c in changes for side in (0, 1)]  # before the hour at which the level changes, and after it
        for _ in range(r.choice([1, 2, 4])):
            run = min(room, r.choice([1, 2, r.randrange(1, 13), r.randrange(1, 400), room]))
            silent[r.choice([0, n, r.randrange(n + 1), *r.sample(near, min(2, len(near)))])] += run
            room -= run
        silent[-1] += r.random() < 0.02  # one too many, where there was no room left
    return silent


def named(r, slots):
    """The positions that are corrected: none; a few, maybe more than once; or silent ones, so many that 168 hours sound, one less or one more."""
    silent = [p for p, slot in enumerate(slots) if slot == SILENT]
    framed = [p for p, slot in enumerate(slots) if slot[2] == 5]
    refused = [p for p in framed if math.isnan(in_milliseconds(slots[p][4:]))]
    kind = r.random()
    if kind < 0.4 or not slots:
        return []
    if kind < 0.55:
        lack = r.choice([167, 168, 169]) - (len(slots) - len(silent))
        return r.sample(silent, max(0, min(lack, len(silent))))
    few = [0, len(slots) - 1, r.randrange(len(slots)), *r.sample(silent, min(3, len(silent))), *r.sample(framed, min(3, len(framed))), *refused]
    return r.choices(few, k=r.choice([1, 2, 5, 20]))


def corrected(r, slots):
    """The records of a week's hours with corrections among them, each after its hour; in some weeks also one whose hour comes later or never."""
    end = len(slots)
    before = [[] for _ in range(end + 1)]  # the corrections before each hour and after the last
    for p in named(r, slots):
        before[r.choice([p + 1, end, r.randrange(p + 1, end + 1)])].append(correction(p, overrun(r)))
    if r.random() < 0.1:
        at = r.randrange(end + 1)
        before[at].append(correction(r.choice([at, r.randrange(at, end + 1), end, 1015, 65535]), overrun(r)))
    return [record for some, slot in zip(before, [*slots, b""]) for record in [*some, slot]]


def mutated(r, data):
    data = bytearray(data)
    for _ in range(r.choice([1, 1, 2, 5])):
        way, at = r.randrange(10), r.randrange(len(data) + 1)
        if way == 0 and at < len(data):
            data[at] ^= 1 << r.randrange(8)
        elif way == 1:
            del data[at:]
        elif way == 2:
            data[at:at] = r.randbytes(r.randrange(1, 9))
        elif way == 3:
            del data[at:at + r.randrange(1, 9)]
        elif way == 4:
            data += settings(r)
        elif way == 5:
            data += SILENT * r.choice([1, 10, 1100])
        elif way == 6:
            data += correction(r.choice([0, 1, r.randrange(200), 1015, 65535]), overrun(r))
        elif way == 7:
            data += r.choice([usual_frames(r, overrun(r)), odd_frames(r, True), odd_frames(r, False)])
        elif way == 8:
            kind, size = r.choice(ODD)
            data += struct.pack("<HH", 2 + size, kind) + r.randbytes(size)
        elif at < len(data):
            data[at] = r.getrandbits(8)
    return bytes(data)


def made(seed):
    r = random.Random(seed)
    kind = r.random()
    if kind < 0.1:
        return r.randbytes(r.choice([0, 1, 3, 4, r.randrange(200), 4096, 4097, 5000]))
    data = settings(r) + b"".join(corrected(r, hours(r)))
    return data if kind < 0.6 else mutated(r, data)


def groups(data, want):
    """What an input counts as."""
    if want == 22 and not any(math.isnan(x) for _, x in series_of(split(data))):
        return ["refused 22", "refused 22 for superseded hours only"]
    if isinstance(want, int):
        return [f"refused {want}"]
    return ["fits"] + [f"fits with {what}" for kind, what in [(4, "corrections"), (5, "hours in frames")] if has_kind(data, kind)]


def one(job):
    seed, program = job
    data = made(seed)
    want = expected(data)
    try:
        what = fault(want, subprocess.run([program], input=data, capture_output=True, timeout=10))
    except subprocess.TimeoutExpired:
        what = "no end within ten seconds"
    return seed, groups(data, want), what


def main():
    count = int(sys.argv[1]) if len(sys.argv) > 1 else 100_000
    first = int(sys.argv[2]) if len(sys.argv) > 2 else 1
    program = sys.argv[3] if len(sys.argv) > 3 else "target/bin/weektrend"
    if count < 1:
        sys.exit("fuzz.py: no input was tried: COUNT is at least 1")
    wrong, counts = 0, collections.Counter()
    with multiprocessing.Pool() as pool:
        for seed, met, what in pool.imap_unordered(one, ((s, program) for s in range(first, first + count)), 200):
            counts.update(met)
            if what:
                wrong += 1
                print(f"input {seed}: {what}")
    print(", ".join(f"{name}: {counts[name]}" for name in sorted(counts, key=lambda g: (len(g), g))))
    print(f"{count - wrong} of {count} inputs: a listing or a refusal, as documents 01 and 02 have it; "
          f"{counts['fits with hours in frames']} fits with hours in frames, {counts['refused 22']} refusals 22")
    sys.exit(1 if wrong else 0)


if __name__ == "__main__":
    main()
