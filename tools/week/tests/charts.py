"""Pictures: well formed, the same each time, with everything that they are to show."""
import os
import re
from xml.dom import minidom

from common import EXAMPLES, LISTING, SAMPLE, fit, hour, read, sample_weeks, settings, week, write
from week import chart, clock, listing, scales, weekfile

TITLE = "One station, one week: how late the news starts"


def shape(check, name, data, text):
    """What a picture of a week has: a circle for each hour, a sign for each knot, a hatched stretch for each silence, the marks."""
    root = minidom.parseString(text).documentElement
    answer, measured = listing.parse(fit(data)), weekfile.measured(weekfile.parts(data)[1])
    paths = [p for p in root.getElementsByTagName("path")]
    named = lambda word: [p for p in paths if p.getAttribute("class") == word]
    sign = "tickmark" if len(answer.knots) > chart.FEW else "knot"
    check(f"{name}: a circle for each hour", len(root.getElementsByTagName("circle")) == answer.n + 1)
    check(f"{name}: a sign for each knot", len(named(sign)) == len(answer.knots) + (1 if answer.knots else 0))
    hatched = [r for r in root.getElementsByTagName("rect") if r.getAttribute("fill") == "url(#silent)"]
    silent = scales.silent(measured)
    check(f"{name}: silence", len(hatched) == len(silent) + (1 if silent else 0))
    marked = scales.span([*measured, *(h.trend for h in answer.hours)], 8000.0)[2]
    words = " ".join(t.firstChild.data for t in root.getElementsByTagName("text") if t.firstChild)
    check(f"{name}: marks", (len(named("marks")) == 2 and "+8 s late" in words and "\u22128 s early" in words) if marked else "\u00b18 s" in words, words)
    check(f"{name}: a trend", all(p.getAttribute("d").startswith("M") for p in named("trend")) and len(named("trend")) == 2)
    numbers = [float(x) for p in paths for x in re.findall(r"-?[0-9.]+(?:e[0-9+-]+)?", p.getAttribute("d"))]
    check(f"{name}: all within the picture", all(-100 <= x <= chart.WIDTH + 100 for x in numbers))


def steps(check):
    """The trend's path: level over an hour, broken at silence; straight from hour to hour with order 2."""
    hours = [listing.Hour(0, 0.0, 0.0), listing.Hour(1, 10.0, 0.0), listing.Hour(4, 10.0, 0.0)]
    scale = scales.Scale(0, 0, 50, 10, 5, 0.0, 10.0)
    for order, want in [(1, "M0 10H10V0H20M40 0H50"), (2, "M5 10L15 0M40 0H50")]:
        fitted = listing.Fit(3, order, 1, 0, 0, 1, 0, 0.0, 0.0, 0.0, hours, [])
        check.same(f"path of order {order}", scales.trend_path(fitted, scale), want)
    check.same("stretches", scales.runs([0, 1, 4, 6, 7]), [(0, 2), (4, 5), (6, 8)])
    for values, marked in [([100.0], True), ([1000.0], True), ([-320000.0], True), ([330000.0], False), ([], True), ([float("nan"), float("inf")], True), ([5e-324, -1e-9], True)]:
        low, high, got = scales.span(values, 8000.0)
        check(f"marks for {values}", got == marked and low < 0 < high and (not got or low < -8000.0 < 8000.0 < high), (low, high, got))


def run(check, folder):
    out = os.path.join(folder, "w.svg")
    check.same("chart of the sample", week("chart", SAMPLE, "--title", TITLE, "-o", out), (0, "", ""))
    check.same("examples/week.svg", read(out), read(EXAMPLES, "week.svg"))
    check.same("chart of its listing", week("chart", LISTING, "--title", TITLE, "-o", out)[0], 0)
    check.same("the same picture", read(out), read(EXAMPLES, "week.svg"))
    for name, data in sample_weeks().items():
        path = write(data, folder, "w.bin")
        check.same(f"chart of {name}", week("chart", path, "-o", out, "--start", "2026-11-16T06:30", "--title", "<a & \"b\">")[0], 0)
        first = read(out)
        shape(check, name, data, first)
        week("chart", path, "-o", out, "--start", "2026-11-16T06:30", "--title", "<a & \"b\">")
        check(f"{name} gives the same bytes", read(out) == first)
        check(f"{name} has nothing from elsewhere", b"http" not in first.replace(b"http://www.w3.org/2000/svg", b"") and b"<script" not in first)
    odd = b"fit 3 1 1 0 0 1 0\n7ff0000000000000 fff8000000000001 ffffffffffffffff\nh 0 7ff0000000000000 fff0000000000000\nh 2 7ff8000000000000 0000000000000000\nh 3 7fefffffffffffff ffefffffffffffff\n"
    status, _, errors = week("chart", "-o", out, given=odd)
    check("numbers that are not finite", status in (0, 2) and "Traceback" not in errors, errors)
    drawn = chart.picture(listing.Fit(2, 1, 1, 0, 0, 1, 0, 0.0, 0.0, 0.0, [listing.Hour(0, float("inf"), 0.0), listing.Hour(1, float("nan"), 1e308)], []),
                          None, clock.Clock(), 8000.0, "odd")
    check("drawn without them", minidom.parseString(drawn) is not None and "nan" not in drawn.split("<defs>")[1].replace("trend nan", ""), drawn[-900:])
    for mark in (0.0, 1e-320, 1e15):
        for size in (0.0, 5e-324, 1e-7, 1e299):
            hours = [listing.Hour(0, size, 0.0), listing.Hour(1, -size, 0.0)]
            drawn = chart.picture(listing.Fit(2, 1, 1, 0, 0, 1, 0, 0.0, 0.0, 0.0, hours, []), None, clock.Clock(), mark, "odd")
            check(f"mark {mark}, size {size}", "nan" not in drawn and "inf" not in drawn and minidom.parseString(drawn) is not None)
    os.unlink(out)
    status, _, errors = week("chart", "-o", out, given=settings(-1.0) + hour(1) * 3)
    check("a refused week has no picture", status == 1 and "lam is below 0" in errors and not os.path.exists(out), errors)
    steps(check)
