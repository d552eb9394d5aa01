"""A listing, read strictly: every line by its form, and nothing missing at the end."""
from __future__ import annotations

import math
import re
import struct
from typing import List, NamedTuple, Sequence, Tuple, Union

from week.files import Failure
from week.weekfile import SOUNDING, Measured

BYTES = 1 << 16  # no listing is as long
LAST = 1013  # the greatest number that an hour can have in a listing
WHOLE, DOUBLE = "(?:0|[1-9][0-9]{0,19})", "[0-9a-f]{16}"
NEWLINE = b"\n"
REFUSED = re.compile(f"refused ({WHOLE})\n".encode())
FIT = re.compile((f"fit{f' ({WHOLE})' * 7}\n({DOUBLE} {DOUBLE} {DOUBLE})\n"
                  f"((?:h {WHOLE} {DOUBLE} {DOUBLE}\n)*)((?:knot {WHOLE}\n)*)").encode())


class Hour(NamedTuple):
    position: int
    trend: float
    cycle: float


class Fit(NamedTuple):
    n: int
    order: int
    penalty: int
    n_iter: int
    improvements: int
    converged: int
    reason: int
    lam_max: float
    gap: float
    objective: float
    hours: List[Hour]
    knots: List[int]  # places in `hours`, each the one before its bend


class Refusal(NamedTuple):
    number: int


def begins(data: bytes) -> bool:
    """Whether this is a listing, by its first bytes; no week file begins so, since it would be too long."""
    return data.startswith((b"fit ", b"refused "))


def doubles(words: Sequence[bytes]) -> Tuple[float, ...]:
    return struct.unpack(f">{len(words)}d", bytes.fromhex(b"".join(words).decode()))


def parse(data: bytes) -> Union[Fit, Refusal]:
    """What a listing says; fails where it is not a whole one."""
    refused = REFUSED.fullmatch(data)
    if refused:
        return Refusal(int(refused.group(1)))
    found = FIT.fullmatch(data) if len(data) <= BYTES else None
    if not found:
        raise Failure(f"not a whole listing: {'a line has another form' if data.endswith(NEWLINE) else 'it breaks off within a line'}")
    head = [int(found.group(i)) for i in range(1, 8)]
    words = found.group(9).split()
    hours = list(map(Hour, map(int, words[1::4]), doubles(words[2::4]), doubles(words[3::4])))
    check_head(head, hours)
    place = {h.position: i for i, h in enumerate(hours)}
    knots = [place.get(int(word), -1) for word in found.group(10).split()[1::2]]
    check_knots(head[1], hours, knots)
    return Fit(*head, *doubles(found.group(8).split()), hours, knots)


def check_head(head: List[int], hours: List[Hour]) -> None:
    n, order, penalty, _, _, converged, reason = head
    if order not in (1, 2) or penalty not in (1, 2) or converged > 1 or reason > 4 or not order < n <= SOUNDING:
        raise Failure("not a listing: its first line says what cannot be")
    if n != len(hours):
        raise Failure(f"not a whole listing: {len(hours)} lines h, {n} by its first line")
    positions = [h.position for h in hours]
    if any(a >= b for a, b in zip(positions, positions[1:])) or positions[-1] > LAST:
        raise Failure("not a listing: its hours are not in their order")


def differences(values: Sequence[float], order: int) -> List[float]:
    for _ in range(order):
        values = [b - a for a, b in zip(values, values[1:])]
    return list(values)


def threshold(y: Sequence[float], order: int) -> float:
    """A trend bends where the size of its difference is above this (document 01, "Polish, knots, closed paths")."""
    return max(1e-6 * max(map(abs, differences(y, order))), 1e-12 * max(map(abs, y)))


def check_knots(order: int, hours: List[Hour], knots: List[int]) -> None:
    """The knots are the places at which the trend bends, so that a lost line shows; what was measured is known up to rounding."""
    if any(a >= b for a, b in zip([-1] + knots, knots)) or (knots and knots[-1] >= len(hours) - order):
        raise Failure("not a listing: a knot stands at no hour or out of its order")
    y = [h.trend + h.cycle for h in hours]
    if not all(map(math.isfinite, y)):
        return
    edge, bent = threshold(y, order), set(knots)
    doubt = 1e-9 * edge + 1e-20 * max(max(abs(h.trend), abs(h.cycle)) for h in hours)
    for i, bend in enumerate(map(abs, differences([h.trend for h in hours], order))):
        if (bend > edge + doubt and i not in bent) or (bend < edge - doubt and i in bent):
            raise Failure(f"not a whole listing: its knots are not the bends of its trend, see hour {hours[i].position}")


def check_against(fit: Fit, week: Measured) -> None:
    """A listing belongs to a week file if its hours are the file's, with exactly the cycles and knots that the trend leaves."""
    sounding = [(p, y) for p, y in enumerate(week) if y is not None]
    left = [y - h.trend for (_, y), h in zip(sounding, fit.hours)]
    same = [p for p, _ in sounding] == [h.position for h in fit.hours] and \
        all(a == h.cycle or (math.isnan(a) and math.isnan(h.cycle)) for a, h in zip(left, fit.hours))
    if same:
        edge = threshold([y for _, y in sounding], fit.order)
        bends = differences([h.trend for h in fit.hours], fit.order)
        same = fit.knots == [i for i, bend in enumerate(bends) if abs(bend) > edge]
    if not same:
        raise Failure("the listing is not the one of this week file")
