"""Listings in words: the sample's text, what docs/LISTING.md says, marks, knots, starts."""
import datetime
import os
import re

from common import LISTING, ROOT, SAMPLE, SILENT, hour, read, sample_weeks, settings, week
from week import clock, listing, words

HERE = os.path.dirname(os.path.realpath(__file__))


def rows(text, head):
    """The first table of a text whose first row begins so, by its first column."""
    lines = text[text.index(head):].splitlines()[2:]
    cells = [[cell.strip() for cell in line.strip("|").split(" | ")] for line in lines[:next(i for i, line in enumerate(lines) if not line.startswith("|"))]]
    return {int(row[0].strip("| ")): [cell.strip("| ") for cell in row[1:]] for row in cells}


def documents(check):
    """The texts are docs/LISTING.md's own."""
    text = read(ROOT, "docs", "LISTING.md").decode()
    check.same("reasons", {n: list(pair) for n, pair in words.REASONS.items()}, rows(text, "| reason | what it means"))
    check.same("refusals", {n: [look] for n, (look, _) in words.REFUSALS.items()}, rows(text, "| N | what to look at"))
    for number in list(range(40)) + [10 ** 19]:
        said = "\n".join(words.refusal(number))
        known = number in words.REFUSALS
        check(f"refused {number}", said.startswith(f"refused {number}:") and "what to do: " in said and ("no such number" in said or "always passes" in said) != known, said)


def fake(trend, order=1, penalty=1, converged=1, reason=1, places=None):
    hours = [listing.Hour(p, x, 0.0) for p, x in zip(places or range(len(trend)), trend)]
    bends = listing.differences(trend, order)
    return listing.Fit(len(trend), order, penalty, 5, 4, converged, reason, 1.0, 0.0, 0.0, hours, [i for i, d in enumerate(bends) if d])


def passings(check):
    """Above the mark is past, at the mark isn't; what is too early is turned round."""
    trend = [8000.0, 8000.5, 8000.0, -8000.0, -8000.5, -8000.0, 9000.0, -9000.0]
    late = [line.split()[:4] for line in words.passings(fake(trend), 8000.0, clock.Clock(), "late")[1:]]
    early = [line.split()[:4] for line in words.passings(fake(trend), 8000.0, clock.Clock(), "early")[1:]]
    check.same("late", [(f[1], f[3]) for f in late], [("1", "01:00"), ("2", "02:00"), ("6", "06:00"), ("7", "07:00")])
    check.same("early", [f[1] for f in early], ["4", "5", "7"])
    check.same("counted", (words.late(fake(trend).hours, 8000.0), words.early(fake(trend).hours, 8000.0)), (2, 2))
    heads = {8000.0: "no hours; the week begins at or below 8000 ms", 8001.0: "1 hour; the week begins at or below 8000 ms"}
    for second, said in heads.items():
        check(f"begins, {second}", said in words.passings(fake([8000.0, second]), 8000.0, clock.Clock(), "late")[0])
    check("begins above", "begins above 8000 ms" in words.passings(fake([8000.1, 1.0]), 8000.0, clock.Clock(), "late")[0])
    check("begins below", "begins below -8000 ms" in words.passings(fake([-8000.1, 1.0]), 8000.0, clock.Clock(), "early")[0])
    check("begins nowhere", "on neither side" in words.passings(fake([float("nan"), 1.0]), 8000.0, clock.Clock(), "late")[0])
    check.same("past 3000", week("show", LISTING, "--mark", "3000")[1].splitlines()[9:11],
               ["too late, above 3000 ms: 102 hours; the week begins at or below 3000 ms", "  hour   62  Wed 14:00  goes past: 3656.9 ms, after 1780.5 ms at hour 61"])


def knots(check):
    said = words.knots(fake([1.0, 1.0, 4.5], places=[0, 1, 5]), clock.Clock())
    check.same("a step over silence", said[1], "  Mon 01:00 to Mon 05:00 (hours 1 and 5, 3 silent hours between): +3.5 ms, from 1.0 to 4.5")
    said = words.knots(fake([0.0, 1.0, 5.0], order=2, places=[0, 2, 3]), clock.Clock())
    check.same("a slope", said[1], "  Mon 02:00 (hour 2): +3.0 ms a step, from 1.0 to 4.0")
    check("none", words.knots(fake([1.0, 1.0]), clock.Clock()) == ["no knot: one level from end to end"])
    check("none, order 2", words.knots(fake([1.0, 2.0, 3.0], order=2), clock.Clock()) == ["no knot: one slope from end to end"])
    for reason in range(5):
        settled, not_settled = ("\n".join(words.reason(fake([1.0, 2.0], converged=c, reason=reason))) for c in (1, 0))
        check(f"reason {reason}, settled", settled.endswith("what to do: nothing"))
        check(f"reason {reason}, not settled", not_settled.endswith(words.REASONS[reason][1].replace("nothing. With", "With")), not_settled)
    noisy = fake([1.0, 5.0, 5.0000000001, -4.0])
    check("largest", words.largest(noisy).position == 1 and words.largest(fake([1.0, -7.0, 5.0])).trend == -7.0)


def starts(check):
    for text, first, later in [("Mon", "Mon 00:00", "Tue 01:00"), ("sunday 23:30", "Sun 23:30", "Tue 00:30"), ("2026-11-16", "Mon 2026-11-16 00:00", "Tue 2026-11-17 01:00"),
                               ("2024-02-28T12:00", "Wed 2024-02-28 12:00", "Thu 2024-02-29 13:00"), ("WedT06:00", "Wed 06:00", "Thu 07:00")]:
        start = clock.parse(text)
        check.same(f"start {text}", (start.at(0), start.at(25)), (first, later))
    check.same("the next week", (clock.Clock().at(167), clock.Clock().at(168), clock.Clock().at(1013)), ("Sun 23:00", "Mon 00:00 +1w", "Mon 05:00 +6w"))
    for minute in range(60):
        start = clock.parse(f"Tue 06:{minute:02}")
        check(f"midnights, minute {minute}", {start.time(p).strftime("%H:%M") for p in start.midnights(168)} == {"00:00"} and len(start.midnights(168)) == 7)
    check("a Monday", datetime.datetime(2001, 1, 1).weekday() == 0)
    for text in ("", "Mo", "Mon 24:00", "Mon 00:60", "2026-02-30", "9999-12-31", "2026-11-16T00:00:00", "25", "Mon 00"):
        try:
            check(f"no start {text}", not clock.parse(text))
        except (ValueError, OverflowError):
            check(f"no start {text}", True)


def run(check, folder):
    shown = read(HERE, "show.txt").decode()
    check.same("the sample in words", week("show", SAMPLE), (0, shown, ""))
    check.same("its listing in words", week("show", LISTING), (0, shown, ""))
    check.same("on standard input", week("show", given=read(SAMPLE)), (0, shown, ""))
    check.same("a listing on standard input", week("show", "-", given=read(LISTING)), (0, shown, ""))
    for name, data in sample_weeks().items():
        status, text, errors = week("show", given=data)
        lines = len(re.findall(r"(?m)^ *\d+  \S", text))
        check(f"show {name}", status == 0 and not errors and lines == positions(data), (status, errors, lines))
    text = week("show", given=settings(5.0, penalty=2) + hour(1) + hour(2) + hour(9))[1]
    check("penalty 2", "with penalty 2 nearly every place is one" in text and "no hour is silent" in text, text)
    status, text, _ = week("show", given=settings(-1.0) + hour(1) + hour(2))
    check("show a refusal", status == 1 and text.startswith("refused 5:") and "lam is below 0" in text, text)
    check("trailing silence", week("show", given=settings() + hour(1) * 2 + SILENT * 3)[1].rstrip().endswith("4  Mon 04:00           silent"))
    documents(check)
    passings(check)
    knots(check)
    starts(check)


def positions(data):
    from week import weekfile
    return sum(kind in (1, 2, 5) for kind, _ in weekfile.split(data))
