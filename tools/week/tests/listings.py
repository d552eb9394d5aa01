"""Listings are read strictly."""
import os
import random
import struct
import sys

from common import LISTING, PROGRAM, ROOT, fit, hour, read, sample_weeks, settings, write
from week import listing, program, weekfile
from week.files import Failure


def taken(data):
    try:
        return listing.parse(data)
    except Failure:
        return None


def cut(check):
    """A listing that breaks off is never taken for one."""
    for name, data in sample_weeks().items():
        printed = fit(data)
        whole = taken(printed)
        check(f"{name} is taken", isinstance(whole, listing.Fit), printed[:80])
        for end in range(len(printed)) if name in ("sample", "order 2", "three, order 2") else [len(printed) - 1, len(printed) - 9]:
            check(f"{name} cut at {end}", taken(printed[:end]) is None)
        lines = printed.splitlines(True)
        for i in range(0, len(lines), 1 if len(lines) < 20 else 7):
            check(f"{name} without line {i}", taken(b"".join(lines[:i] + lines[i + 1:])) is None)
        check(f"{name} without its last line", taken(b"".join(lines[:-1])) is None)
    check("refused cut", all(taken(b"refused 11\n"[:i]) is None for i in range(11)))
    check.same("refused", taken(b"refused 11\n"), listing.Refusal(11))


def damaged(check):
    """Other forms than the listing's."""
    good = read(LISTING)
    swaps = [(b"fit 164", b"fit 0164"), (b"fit 164", b"fit 165"), (b"fit 164 1", b"fit 164 2"), (b"fit 164 1", b"fit 164 3"), (b"fit 164 1 1", b"fit 164 1 0"),
             (b" 1 1\n", b" 2 1\n"), (b" 1 1\n", b" 1 5\n"), (b"\nh 5 ", b"\nh 4 "), (b"\nh 5 ", b"\nh 05 "), (b"\nh 5 ", b"\nh  5 "), (b"\nh 5 ", b"\nH 5 "),
             (b"\nh 167 ", b"\nh 1014 "), (b"40af12f42f42f434", b"40AF12F42F42F434"), (b"\n", b"\r\n"), (b"knot 56\n", b"knot 55\n"), (b"knot 56\n", b"knot 56\nknot 56\n"),
             (b"knot 56\nknot 57\n", b"knot 57\nknot 56\n"), (b"knot 72\n", b"knot 73\n"), (b"knot 102\n", b"knot 102\nknot 120\n"), (b"knot 102\n", b"knot 102\nknot 167\n")]
    for old, new in swaps:
        data = good.replace(old, new, 1)
        check(f"{new!r} for {old!r}", data != good and taken(data) is None)
    for more in (b"\n", b" ", b"x", b"h 168 0000000000000000 0000000000000000\n", b"refused 1\n"):
        check(f"with {more!r} at its end", taken(good + more) is None)
    for line in (b"refused\n", b"refused -1\n", b"refused 01\n", b"refused 1", b"refused 1\n\n", b"refused 1 2\n"):
        check(f"{line!r}", taken(line) is None)
    odd = b"fit 2 1 1 0 0 1 0\n7ff0000000000000 fff8000000000001 ffffffffffffffff\nh 0 7ff0000000000000 fff0000000000000\nh 2 7ff8000000000000 0000000000000000\n"
    check("numbers that are not finite", isinstance(taken(odd), listing.Fit))


def against(check):
    """A listing is held against its own week, to the last bit."""
    for name, data in sample_weeks().items():
        answer, week = listing.parse(fit(data)), weekfile.measured(weekfile.parts(data)[1])
        places = [i for i, value in enumerate(week) if value is not None]
        others = {"its own": week, "an hour other": [v if i != places[-1] else v + 1000 for i, v in enumerate(week)], "an hour later": [None] + week, "an hour less": week[:places[-1]]}
        for what, other in others.items():
            try:
                listing.check_against(answer, other)
                same = True
            except Failure:
                same = False
            check(f"{name} against {what}", same == (what == "its own"))


def at_random(check):
    """Inputs of the weekly program's own test: what it says of them, and a listing for each fit."""
    if sys.version_info < (3, 9):
        print("tests/week/fuzz.py needs Python 3.9: its inputs were left out")
        return
    sys.path.append(os.path.join(ROOT, "tests", "week"))
    import fuzz
    for seed in range(600):
        data = fuzz.made(seed)
        want = fuzz.expected(data)
        try:
            answer = program.fit(PROGRAM, data[:4097])[1]
        except Failure as e:
            answer = str(e)
        good = answer == listing.Refusal(want) if isinstance(want, int) else isinstance(answer, listing.Fit)
        check(f"random input {seed}", good, f"{answer!r:.100}")


def programs(check, folder):
    """What is no listing, whatever program prints it, is a failure."""
    sample = read(LISTING).decode()
    cuts = sample[:sample.rindex("knot")]
    bodies = {"printed nothing": "true", "status 3": f"cat <<'E'\n{sample}E\nexit 3", "signal 9": f"cat <<'E'\n{sample}E\nkill -9 $$", "no room": "echo no room >&2",
              "weektrend: no": f"cat <<'E'\n{sample}E\necho 'weektrend: no' >&2", "not a whole listing": f"cat <<'E'\n{cuts}E\n", "more than a listing": "yes",
              "longer than": "exec sleep 20", "took longer": "exec >&- 2>&-; sleep 20", "is not the one of this week": "printf 'fit 2 1 1 0 0 1 0\\n"
              "40af400000000000 0000000000000000 416e848000000000\\nh 0 40af400000000000 c0af400000000000\\nh 2 40af400000000000 40af400000000000\\n'"}
    keep, program.SECONDS = program.SECONDS, 1.0
    for said, body in bodies.items():
        path = write(f"#!/bin/sh\n{body}\n", folder, "program")
        os.chmod(path, 0o755)
        try:
            program.fit(path, settings() + hour(1) + hour(2))
            found = "a fit"
        except Failure as e:
            found = str(e)
        check(f"a program: {said}", said in found, found)
    program.SECONDS = keep


def run(check, folder):
    cut(check)
    damaged(check)
    against(check)
    at_random(check)
    programs(check, folder)
    frames = [(100, 30000, 1001, "40aa115555555555"), (-25, 25, 1, "c08f400000000000"), (0, 7, 3, "0000000000000000"), (1, 3, 1, "4074d55555555555")]
    for count, numerator, denominator, want in frames:
        check.same(f"{count} frames", struct.pack(">d", weekfile.in_milliseconds(count, numerator, denominator)).hex(), want)
    r = random.Random(3)
    for _ in range(300):
        data = bytes(r.randrange(256) for _ in range(r.randrange(60)))
        check("random bytes are no listing", taken(data) is None)
