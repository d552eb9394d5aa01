"""What the large picture and the small ones share: the scales, the runs of hours, the trend as a path."""
from __future__ import annotations

import math
from typing import Iterable, List, NamedTuple, Optional, Sequence, Tuple

from week.listing import Fit
from week.weekfile import Measured

FAR, NEAR = 1e300, 1e-6  # milliseconds: what is larger cannot be drawn, what is smaller is drawn as 0


class Scale(NamedTuple):
    """A box of the picture, the hours from its left to its right, and milliseconds from its foot to its top."""
    left: float
    top: float
    width: float
    height: float
    hours: int
    low: float
    high: float

    def x(self, position: float) -> float:
        return self.left + self.width * position / self.hours

    def y(self, value: float) -> float:
        return self.top + self.height * (self.high - value) / (self.high - self.low)


def w(value: float) -> str:
    """A coordinate as it stands in the picture, with one decimal."""
    text = f"{value:.1f}"
    return text[:-2] if text.endswith(".0") else text


def drawable(value: Optional[float]) -> bool:
    return value is not None and abs(value) < FAR


def span(values: Iterable[Optional[float]], mark: float) -> Tuple[float, float, bool]:
    """The least and the greatest value of a picture, and whether the marks are within it: where values are far larger they are not. A week
    that keeps far within them looks flat, as it is; a smaller mark brings it closer."""
    seen = [value for value in values if drawable(value)] + [0.0]
    low, high = min(seen), max(seen)
    size = max(-low, high)
    marked = size <= max(40 * mark, NEAR)
    if marked:
        low, high = min(low, -mark), max(high, mark)
    room = 0.08 * (high - low) if high - low > NEAR else 1.0
    return low - room, high + room, marked


def week_of(fit: Fit, week: Optional[Measured]) -> Measured:
    """What was measured, by position; of a listing alone trend and cycle together."""
    if week is not None:
        return week
    hours: Measured = [None] * (fit.hours[-1].position + 1)
    for h in fit.hours:
        hours[h.position] = h.trend + h.cycle
    return hours


def runs(positions: Sequence[int]) -> List[Tuple[int, int]]:
    """Rising positions as stretches without a gap: the first of each, and the one after its last."""
    found: List[Tuple[int, int]] = []
    for p in positions:
        if found and found[-1][1] == p:
            found[-1] = found[-1][0], p + 1
        else:
            found.append((p, p + 1))
    return found


def silent(week: Measured) -> List[Tuple[int, int]]:
    return runs([p for p, value in enumerate(week) if value is None])


def trend_path(fit: Fit, scale: Scale) -> str:
    """The trend as the data of a path, broken where hours are silent: level over each hour, or straight from one to the next."""
    trend = {h.position: h.trend for h in fit.hours if drawable(h.trend)}
    pieces = []
    for first, end in runs(sorted(trend)):
        if fit.order == 1 or end == first + 1:
            at = w(scale.y(trend[first]))
            pieces.append(f"M{w(scale.x(first))} {at}")
            for p in range(first, end):
                level = w(scale.y(trend[p]))
                if level != at:
                    pieces.append(f"H{w(scale.x(p))}V{level}")
                    at = level
            pieces.append(f"H{w(scale.x(end))}")
        else:
            points = [f"{w(scale.x(p + 0.5))} {w(scale.y(trend[p]))}" for p in range(first, end)]
            pieces.append("M" + "L".join(points))
    return "".join(pieces)


def knot_x(fit: Fit, place: int) -> float:
    """Where a knot stands: at the start of the hour with the new level, or in the middle of the one at which the slope changes."""
    return fit.hours[place + 1].position + (0.0 if fit.order == 1 else 0.5)


def knot_change(fit: Fit, place: int) -> float:
    a, b = fit.hours[place].trend, fit.hours[place + 1].trend
    return b - a if fit.order == 1 else (fit.hours[place + 2].trend - b) - (b - a)


def steps(low: float, high: float, most: int) -> Tuple[List[float], float]:
    """Round numbers between two numbers, at most about so many, and how far they are apart."""
    raw = (high - low) / most
    power = 10.0 ** math.floor(math.log10(raw))
    step = next(power * k for k in (1, 2, 5, 10) if power * k >= raw * 0.999)
    return [i * step for i in range(math.ceil(low / step), math.floor(high / step) + 1)], step
