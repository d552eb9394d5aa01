"""A listing in words: what docs/LISTING.md says of its numbers, in one place, and the text that `show` prints."""
from __future__ import annotations

import math
from typing import List, Optional, Tuple

from week.clock import Clock
from week.listing import Fit, Hour, Refusal
from week.weekfile import Measured

ORDERS = {1: "the trend is a staircase, level between its knots", 2: "the trend is a chain of straight lines"}
PENALTIES = {1: "few sharp bends (L1)", 2: "everything bends a little (L2)"}
TOPS = {1: "from this lam on the trend has no knot", 2: "from this lam on penalty 1 has no knot; with penalty 2 nearly every place is one"}
CONVERGED = {1: "the answer is as exact as tol asks",
             0: "the answer isn't as exact as tol asks; the trend is usable, but look at the gap, and at the reason"}
NOTHING = "nothing"
# what each reason means, and what to do where converged is 0
REASONS = {
    0: ("nothing was searched: lam is 0, or lam_max or more, or penalty is 2, and the answer is worked out directly", NOTHING),
    1: ("the gap became as small as tol asks",
        "nothing. With converged 0 beside it, the last adjustment, after the search, lowered the gap and the objective, and the gap is now "
        "more than tol times the objective: look at the gap"),
    2: ("the limit ran out before the gap was small enough: n_iter is max_iter", "try a larger max_iter"),
    3: ("the search stalled: ten steps in a row brought no improvement",
        "a larger max_iter changes nothing. Look at the gap; a larger tol may be met"),
    4: ("a pivot was lost in a step: the numbers are too large or too small for the arithmetic. The answer is made from the last good step",
        "a larger max_iter changes nothing. Look at lam (one that is almost 0 and stands for 0 should be 0), at the units, at extreme hours"),
}
# the reasons by their names
STOPPED = ("closed path", "gap small enough", "limit spent", "stalled", "pivot lost")
# what to look at for each refusal, and what to do
REFUSALS = {
    11: ("the file: it is longer than 4,096 bytes, breaks off, or has a record of an unknown kind or length",
         "make the file again from its table, with `make`"),
    12: ("the settings: they are missing, do not come first, or come twice", "make the file again from its table, with `make`"),
    17: ("the corrections: one of them names an hour that does not stand before it in the file",
         "count the hours from 0, silent ones too, and put the correction after its hour, at the end for instance"),
    13: ("the hours: there are more than 168, silent ones not counted, corrections made", "leave hours out, or make two weeks of them"),
    22: ("the hours in frames: one of them, corrected or not, has a rate with a 0 in it, or a count and a rate that are too large together",
         "put that hour's record right, or put milliseconds or silence in its place; a correction doesn't help, since every rate is asked"),
    1: ("order or penalty is neither 1 nor 2", "give order 1 or 2 and penalty l1 or l2"),
    2: ("too few hours: order 1 wants two that are not silent, order 2 three, corrections made", "add hours, or wait for more of the week"),
    5: ("lam is below 0, infinite or not a number", "give a lam of 0 or more, 8000 for instance"),
    6: ("tol is not above 0, or infinite or not a number", "give a tol above 0, 1e-8 for instance"),
    7: ("max_iter is 0", "give a max_iter of 1 or more, 100 for instance"),
    10: ("the numbers are so large that the equations cannot be solved", "give a smaller lam, and look at the units"),
}
PASSED = (3, 4, 8, 9)


def refused(number: int) -> Tuple[str, str]:
    """What to look at and what to do, for any number."""
    if number in REFUSALS:
        return REFUSALS[number]
    look = "a week from a file always passes this question" if number in PASSED else "docs/LISTING.md has no such number for a week"
    return look, "see whether this is the right program"


def refusal(number: int) -> List[str]:
    """A refusal in words."""
    look, do = refused(number)
    return [f"refused {number}: the week was not fitted", f"  look at: {look}", f"  what to do: {do}"]


def reason(fit: Fit) -> List[str]:
    """Why the search stopped and what to do; where converged is 1 there is nothing to do."""
    meaning, do = REASONS[fit.reason]
    if fit.converged:
        do = NOTHING
    elif do.startswith(NOTHING + ". "):
        do = do[len(NOTHING + ". "):]
    return [f"reason {fit.reason}: {meaning}", f"what to do: {do}"]


def ms(value: float, sign: str = "") -> str:
    """Milliseconds with one decimal; no 0 with a sign."""
    text = f"{value:{sign}.1f}"
    return text.replace("-", sign) if text.strip("+-0.") == "" else text


def level(mark: float) -> str:
    return f"{mark:.15g}"


def count(number: int, what: str) -> str:
    return f"{number or 'no'} {what}{'' if number == 1 else 's'}"


def late(hours: List[Hour], mark: float) -> int:
    return sum(h.trend > mark for h in hours)


def early(hours: List[Hour], mark: float) -> int:
    return sum(h.trend < -mark for h in hours)


def past(hours: List[Hour], mark: float) -> int:
    """How many hours are past a mark, late or early."""
    return late(hours, mark) + early(hours, mark)


def passings(fit: Fit, mark: float, clock: Clock, side: str) -> List[str]:
    """Where the trend goes past a mark and where it is back: above it is past, at it isn't; for hours too early all is turned round."""
    turn = 1 if side == "late" else -1
    within, beyond = ("at or below", "above") if turn == 1 else ("at or above", "below")
    text = level(turn * mark) if mark else "0"
    first = turn * fit.hours[0].trend
    begins = beyond if first > mark else within if first <= mark else "on neither side of"
    number = (late if turn == 1 else early)(fit.hours, mark)
    lines = [f"too {side}, {beyond} {text} ms: {count(number, 'hour')}; the week begins {begins} {text} ms"]
    for a, b in zip(fit.hours, fit.hours[1:]):
        goes, back = turn * a.trend <= mark < turn * b.trend, turn * a.trend > mark >= turn * b.trend
        if goes or back:
            what = "goes past:" if goes else "is back:  "
            when = f"  hour {b.position:4}  {clock.at(b.position)}"
            lines.append(f"{when}  {what} {ms(b.trend)} ms, after {ms(a.trend)} ms at hour {a.position}")
    return lines


def between(a: Hour, b: Hour) -> str:
    silent = b.position - a.position - 1
    return f", {count(silent, 'silent hour')} between" if silent else ""


def knots(fit: Fit, clock: Clock) -> List[str]:
    """Each knot with the change that it brings, and where."""
    if not fit.knots:
        return [f"no knot: one {'level' if fit.order == 1 else 'slope'} from end to end"]
    if fit.order == 1:
        lines = [f"{count(len(fit.knots), 'knot')}: the level changes between two hours"]
    else:
        lines = [f"{count(len(fit.knots), 'knot')}: the slope changes at an hour; "
                 "a step is from one hour of the trend to the next, silent ones left out"]
    for i in fit.knots:
        here, after = fit.hours[i], fit.hours[i + 1]
        if fit.order == 1:
            where = (f"{clock.at(here.position)} to {clock.at(after.position)} "
                     f"(hours {here.position} and {after.position}{between(here, after)})")
            change, old, new, unit = after.trend - here.trend, here.trend, after.trend, "ms"
        else:
            last = fit.hours[i + 2]
            where = f"{clock.at(after.position)} (hour {after.position})"
            old, new, unit = after.trend - here.trend, last.trend - after.trend, "ms a step"
            change = new - old
        lines.append(f"  {where}: {ms(change, '+')} {unit}, from {ms(old)} to {ms(new)}")
    return lines


def table(fit: Fit, clock: Clock, week: Optional[Measured]) -> List[str]:
    """Every hour: when, what was measured, the trend and the cycle; silent ones as what they are."""
    hours = {h.position: h for h in fit.hours}
    end = len(week) if week is not None else fit.hours[-1].position + 1
    wide = max(len(clock.at(0)), len(clock.at(end - 1)))
    lines = [f"hour  {'when':{wide}}  {'measured ms':>15}  {'trend ms':>15}  {'cycle ms':>15}"]
    for position in range(end):
        when = f"{position:4}  {clock.at(position):{wide}}"
        if position in hours:
            h = hours[position]
            value = week[position] if week is not None else h.trend + h.cycle
            lines.append(f"{when}  {ms(value):>15}  {ms(h.trend):>15}  {ms(h.cycle):>15}")
        else:
            lines.append(f"{when}  {'silent':>15}")
    return lines


def silences(fit: Fit, week: Optional[Measured]) -> str:
    end = len(week) if week is not None else fit.hours[-1].position + 1
    if end == fit.n:
        return "no hour is silent"
    return count(end - fit.n, "silent hour") + (" is" if end - fit.n == 1 else " are") + " left out"


def fitted(fit: Fit, clock: Clock, mark: float, week: Optional[Measured]) -> List[str]:
    """A fit in words; the week is what the file says, if it is there."""
    first, last = fit.hours[0].position, fit.hours[-1].position
    return [
        f"fitted: {fit.n} hours, from hour {first}, {clock.at(first)}, to hour {last}, {clock.at(last)}; {silences(fit, week)}",
        f"order {fit.order}: {ORDERS[fit.order]}",
        f"penalty {fit.penalty}: {PENALTIES[fit.penalty]}",
        f"converged {fit.converged}: {CONVERGED[fit.converged]}",
        *reason(fit),
        f"{count(fit.n_iter, 'step')}, {fit.improvements} of them improvements" if fit.n_iter else "no step was needed",
        f"lam_max {fit.lam_max:.6g}: {TOPS[fit.penalty]}; gap {fit.gap:.3g}; objective {fit.objective:.6g}",
        "",
        *passings(fit, mark, clock, "late"),
        *passings(fit, mark, clock, "early"),
        "",
        *knots(fit, clock),
        "",
        *table(fit, clock, week),
    ]


def text(answer, clock: Clock, mark: float, week: Optional[Measured]) -> str:
    lines = refusal(answer.number) if isinstance(answer, Refusal) else fitted(answer, clock, mark, week)
    return "\n".join(lines) + "\n"


def largest(fit: Fit) -> Hour:
    """The hour with the largest habitual overrun, late or early: the first that shows it to a tenth of a millisecond."""
    size = max((abs(h.trend) for h in fit.hours if not math.isnan(h.trend)), default=math.nan)
    return next((h for h in fit.hours if ms(abs(h.trend)) == ms(size)), fit.hours[0])
