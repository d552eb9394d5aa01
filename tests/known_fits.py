#!/usr/bin/env python3
"""known_fits.py [--check]: crates/fit/proofs/Corpus.antt from the stored fits of tests/fits.

tests/fits holds TABLE-PLACE.case, a call of the fit, and TABLE-PLACE.exp, the Rust's answer (`oracle answers tests/fits`
writes the answers; oracle/src/stored.rs says what stands where). Each becomes a row of a table, and each table a proof that the
definition works out to the Rust's bits. What the proofs open is taken from crates/fit/proofs/Known.antt.
Table 7 is pairs alike but for tol: docs/PROMISES.md, "A looser tolerance costs no more steps", says what each meets.
Table 8 is how each reason comes about:
    1       a closed path
    2       gap small enough before the first iteration
    3, 4, 7 gap small enough after 3 iterations, the limit above them; the same with the limit 3; the limit 2 is spent
    5, 6    stalled after 10 iterations, the limit above them; with the limit 10 it is the limit that is spent
    8, 9    pivot lost in iteration 2, the limit above it; the same with the limit 2
    10      gap small enough, and the polish leaves converged 0
    11      gap small enough, limit spent and stalled at once: the first of them is the reason
Where dual comes from: +0 in 1-1; z* in 1-2 (at lam) and 1-3 (NaN); lam times D trend in 1-4 to 1-7 (NaN, -0, beyond lam); the
search's last point in 3-1 and 8-8, where the candidate lost; the candidate in 4-1 (at lam, as it was) and 5-2 (clamped).

Without a word the file is written; with --check it is only compared, and another text, or no case, is an error.
"""
import pathlib
import re
import struct
import sys

ROOT = pathlib.Path(__file__).resolve().parent.parent
FITS = ROOT / "tests/fits"
KNOWN = ROOT / "crates/fit/proofs/Known.antt"
CORPUS = ROOT / "crates/fit/proofs/Corpus.antt"
REASONS = ["ClosedPath", "GapSmall", "LimitSpent", "Stalled", "PivotLost"]


def bits(x):
    return "F 0x%016x" % struct.unpack("<Q", struct.pack("<d", x))[0]


def vector(words):
    return "".join(w + " ∷ " for w in words) + "[]"


def fields(pairs):
    return "record { " + "; ".join(f"{name} = {value}" for name, value in pairs) + " }"


def row(path):
    """What a case asks in words, and the case as a record."""
    d = path.read_bytes()
    order, penalty, n = d[4], d[5], struct.unpack_from("<I", d, 8)[0]
    lent = dict(zip(["trend", "cycle", "knots", "work", "marks", "dual"], struct.unpack_from("<6I", d, 12)))
    lam, tol, max_iter = struct.unpack_from("<ddQ", d, 40)
    y = struct.unpack_from(f"<{n}d", d, 64)
    lines = path.with_suffix(".exp").read_text().splitlines()
    asked = fields([("y", vector(map(bits, y))), ("lam", bits(lam)), ("tol", bits(tol)), ("max_iter", max_iter), ("order", order), ("penalty", penalty)])
    room = fields((name, lent[name]) for name in ["trend", "cycle", "knots", "dual", "work", "marks"])
    end = lines[0]
    if not end.startswith("refused"):
        n_iter, improvements, converged, reason = end.split()[4:8]
        numbers = ["F 0x" + w for w in lines[1].split()[1:]]
        places = [line.split() for line in lines if line.startswith("h ")]
        knots = [line.split()[1] for line in lines if line.startswith("knot ")]
        dual = [line.split()[2] for line in lines if line.startswith("dual ")]
        found = fields(
            list(zip(["gap", "first_gap", "best_gap", "objective"], numbers[1:]))
            + [("n_iter", n_iter), ("improvements", improvements), ("converged", "true" if converged == "1" else "false"), ("reason", REASONS[int(reason)])]
        )
        end = "fitted (" + fields(
            [("trend", vector("F 0x" + p[2] for p in places)), ("cycle", vector("F 0x" + p[3] for p in places)), ("knots", vector(knots))]
            + [("dual", vector("F 0x" + w for w in dual)), ("lam_max", numbers[0]), ("numbers", found)]
        ) + ")"
    say = f"-- order {order}, penalty {penalty}, y {y}, lam {lam!r}, tol {tol!r}, at most {max_iter} iterations: {lines[0]}"
    return say, fields([("asked", asked), ("lent", room), ("outcome", end)])


def table(number, cases, opened):
    rows = ""
    for i, path in enumerate(cases):
        say, record = row(path)
        rows += f"    {say}\n    {'∷ ' if i else ''}{record}\n"
    return (
        f"abbrev pub table_{number} : List Case\ntable_{number} =\n{rows}    ∷ []\n\n"
        f"pub known_{number} : worked table_{number} ≡ stated table_{number}\n{opened}\nknown_{number} = refl\n"
    )


def text():
    tables = {}
    for path in FITS.glob("*.case"):
        number, place = map(int, path.stem.split("-"))
        tables.setdefault(number, []).append((place, path))
    if not tables:
        sys.exit("known_fits: tests/fits holds no case")
    known = KNOWN.read_text().splitlines()
    uses = [line for line in known if line.startswith("use Rattle.") and not line.startswith("use Rattle.std.") and ".specs.Known." not in line and ".Reason." not in line]
    # the outcome of a case is named beside what is opened
    uses = [re.sub(r"(\.specs\.Fit\.\{)(?!.*\bfitted\b)", r"\1fitted, ", line) for line in uses]
    opened = next(line for line in known if line.startswith("unfolding"))
    head = [
        "-- Fits that the Rust made, worked out from the definition and compared bit by bit. Written by tests/known_fits.py.",
        "use mathlib.Core.Path.{◌≡◌, refl}",
        "use mathlib.Core.Bool.{true, false}",
        "use mathlib.Core.List.{List, [], ◌∷◌}",
        "use Prim.Native.Nat.{ℕ}",
        "use lib.Ieee.{Float, binary64, of_bits, of_int, add, sub, mul, div, neg, lt, le, eq, is_nan}",
        *uses,
        "use Rattle.search.specs.declared.Reason.TheVariants.{" + ", ".join(REASONS) + "}",
        "use Rattle.fit.specs.Known.{Case, worked, stated}",
        "",
        "-- a double by its bits",
        "abbrev pub F : ℕ → Float",
        "F = of_bits binary64",
        "",
    ]
    return "\n".join(head + [table(n, [p for _, p in sorted(tables[n])], opened) for n in sorted(tables)]), sum(map(len, tables.values()))


def main():
    if sys.argv[1:] not in ([], ["--check"]):
        sys.exit(__doc__)
    right, cases = text()
    if not sys.argv[1:]:
        CORPUS.write_text(right)
        return
    differs = not CORPUS.is_file() or CORPUS.read_text() != right
    if differs:
        print("crates/fit/proofs/Corpus.antt is not what tests/known_fits.py makes of tests/fits")
    print(f"{cases} cases, {int(differs)} differences")
    sys.exit(int(differs))


main()
