#!/usr/bin/env python3
"""corpus.py [--no-reason] [--places] [--no-corrections] [--no-frames] DIR [PROGRAM]: runs the weekly program on every DIR/NAME.in and compares what it prints with DIR/NAME.out.

With --no-reason the listings of DIR are from before A11 of document 02, when the first line ended with converged: the reason, a
number from 0 to 4 that must stand there, is left out of what the program prints. With --places they are from before A1, when an
hour had its place in the series, silent hours left out: each such number becomes that hour's position among the hours,
silent ones too, counted from NAME.in. With --no-corrections they are from before A8, when kind 4 was no kind, and with
--no-frames from before A14, when kind 5 was none: a week that was refused with 11 and has such a kind among whole records is
held to what fuzz.py reads in it, and the last line names it. All other refusals are compared as they are.
PROGRAM is target/bin/weektrend unless it is given. The last line counts; the exit status is 0 only if all agree.
"""
import os
import pathlib
import re
import subprocess
import sys

import fuzz

# the kind that was not known yet
LATER = {"--no-corrections": 4, "--no-frames": 5}
OPTIONS = ("--no-reason", "--places", *LATER)


def without_reason(listing):
    """A listing without the last field of its first line; nothing if a fit has no such field."""
    shorter, found = re.subn(rb"\A(fit(?: \d+){6}) [0-4]\n", rb"\1\n", listing)
    return shorter if found or not listing.startswith(b"fit") else b""


def renumbered(listing, data):
    """A listing of places with the position of each; a place that the input hasn't gets none, which no program prints."""
    series = fuzz.series_of(fuzz.split(data) or []) or []
    position = {b"%d" % place: b"%d" % p for place, (p, _) in enumerate(series)}
    return re.sub(rb"(?m)^(h|knot) (\w+)", lambda line: line[1] + b" " + position.get(line[2], b"none"), listing)


def not_known_then(want, data, earlier):
    """Whether a week was refused for a kind alone that was not known yet."""
    return want == b"refused 11\n" and any(fuzz.has_kind(data, kind) for option, kind in LATER.items() if option in earlier)


def difference(got, want):
    """The first line that differs."""
    line = want.rfind(b"\n", 0, len(os.path.commonprefix([got, want]))) + 1
    return f"printed {got[line:][:80]!r}, and {want[line:][:80]!r} is right"


def main():
    words = sys.argv[1:]
    earlier = set()
    while words and words[0] in OPTIONS:
        earlier.add(words.pop(0))
    if not words or words[0].startswith("--"):
        sys.exit(__doc__)
    folder = pathlib.Path(words[0])
    program = words[1] if len(words) > 1 else "target/bin/weektrend"
    cases = sorted(folder.glob("*.in"))
    wrong, anew = 0, []
    for case in cases:
        data, want = case.read_bytes(), case.with_suffix(".out").read_bytes()
        run = subprocess.run([program], input=data, capture_output=True, timeout=60)
        got = without_reason(run.stdout) if "--no-reason" in earlier else run.stdout
        want = renumbered(want, data) if "--places" in earlier else want
        fault = None
        if not_known_then(want, data, earlier):
            anew.append(case.stem)
            fault = fuzz.fault(fuzz.expected(data), run)
        elif got != want or run.stderr or run.returncode != 0:
            fault = difference(got, want)
        if fault:
            wrong += 1
            print(f"{case.name}: {fault}")
    print(f"{len(cases) - wrong} of {len(cases)} weeks agree" + "".join(f", {name} by fuzz.py's reading" for name in anew))
    sys.exit(1 if wrong or not cases else 0)


main()
