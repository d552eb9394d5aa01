"""A week as a picture: measurements, trend, knots, silent hours and the marks, readable in black and white."""
from __future__ import annotations

import math
from html import escape
from typing import List, NamedTuple, Optional

from week import scales, words
from week.clock import Clock
from week.listing import Fit
from week.scales import Scale, w
from week.weekfile import Measured

WIDTH, HEIGHT = 1200, 640
LEFT, TOP, RIGHT, FOOT = 76, 166, 1104, 520  # the box in which the hours are drawn
LANE = TOP - 14  # the middle of the knots' signs
REACH, FEW = 96, 40  # how far a label may stand from its knot, and how many knots get triangles
INK, SOFT, FAINT, LINE, SHADE = "#16202c", "#5b6673", "#8c96a1", "#dde2e7", "#f1f3f5"
TREND, MARK = "#0b3d78", "#8a1c1c"
STYLE = f"""
text{{font-family:"Helvetica Neue",Helvetica,Arial,"Liberation Sans",sans-serif;fill:{INK}}}
.title{{font-size:24px;font-weight:700}} .under{{font-size:15px;fill:{SOFT}}} .tick{{font-size:13px;fill:{SOFT}}}
.day{{font-size:14px;font-weight:600}}
.small{{font-size:11px;fill:{SOFT}}} .change{{font-size:13px;font-weight:700}} .mark{{font-size:13px;font-weight:600;fill:{MARK}}}
.end{{text-anchor:end}} .mid{{text-anchor:middle}}
.grid{{stroke:{LINE};stroke-width:1;fill:none}} .days{{stroke:#c3cad1;stroke-width:1;fill:none}}
.axis{{stroke:{SOFT};stroke-width:1.2;fill:none}}
.dots circle{{fill:#fff;stroke:{SOFT};stroke-width:1.2}} .trend{{fill:none;stroke:{TREND};stroke-width:3.4;stroke-linejoin:round}}
.marks{{stroke:{MARK};stroke-width:1.6;stroke-dasharray:9 5;fill:none}} .knot{{fill:{INK}}}
.tickmark{{stroke:{INK};stroke-width:1.3;fill:none}}
.lead{{stroke:{FAINT};stroke-width:1;fill:none}} .guide{{stroke:{INK};stroke-width:1;stroke-dasharray:1.5 3.5;fill:none}}
"""


def signed(value: float, form: str = ",.0f") -> str:
    """A number with its sign, a true minus."""
    text = format(abs(value), form)
    return text if not any(c in "123456789" for c in text) else ("\u2212" if value < 0 else "+") + text


def amount(value: float) -> str:
    """Milliseconds as they are read best."""
    size = abs(value)
    if size < 10_000:
        return signed(value, ",.1f" if size < 10 else ",.0f") + " ms"
    return signed(value / 1000, ",.1f" if size < 1e6 else ",.0f" if size < 1e10 else ".3g") + " s"


def seconds(value: float, step: float, most: float) -> str:
    """A tick's label: as many decimals as the step has, or a power of ten where the largest has too many digits."""
    if most >= 1e6 and value:
        power = math.floor(math.log10(abs(value)) + 1e-9)
        digits = str(power).translate(str.maketrans("0123456789", "\u2070\u00b9\u00b2\u00b3\u2074\u2075\u2076\u2077\u2078\u2079"))
        text = f"{abs(value) / 10.0 ** power:.3g}\u00b710{digits}"
    else:
        text = f"{abs(value):,.{max(0, -math.floor(math.log10(step) + 1e-9))}f}"
    return ("\u2212" if value < 0 else "") + text


def line(text: str, x: float, y: float, *names: str, more: str = "") -> str:
    return f'<text class="{" ".join(names)}" x="{w(x)}" y="{w(y)}"{more}>{escape(text)}</text>'


def breadth(text: str) -> float:
    """About how wide a text is, in its own height."""
    return sum(0.27 if c in "ijltf,.: " else 0.85 if c in "mwMW" else 0.55 for c in text)


def path(name: str, data: str) -> str:
    return f'<path class="{name}" d="{data}"/>' if data else ""


def heading(fit: Fit, clock: Clock, mark: float, title: str) -> List[str]:
    top = words.largest(fit)
    past = words.past(fit.hours, mark)
    under = [f"{fit.n} hours", f"{words.count(len(fit.knots), 'knot')}",
             f"largest habitual overrun {amount(top.trend)} at {clock.short(top.position)}",
             f"{words.count(past, 'hour')} past \u00b1{words.level(mark / 1000)} s", "settled" if fit.converged else "not settled"]
    title = title if len(title) <= 80 else title[:79] + "\u2026"
    return [line(title, LEFT, 42, "title"), line(" \u00b7 ".join(under), LEFT, 68, "under")]


def shade(scale: Scale, mark: float) -> str:
    """What lies past the marks."""
    return f'<path d="M{LEFT} {TOP}H{RIGHT}V{w(scale.y(mark))}H{LEFT}zM{LEFT} {w(scale.y(-mark))}H{RIGHT}V{FOOT}H{LEFT}z" fill="{SHADE}"/>'


def band(scale: Scale, mark: float) -> List[str]:
    """The marks as dashed lines with their names."""
    up, down = scale.y(mark), scale.y(-mark)
    text = words.level(mark / 1000)
    return [path("marks", f"M{LEFT} {w(up)}H{RIGHT}M{LEFT} {w(down)}H{RIGHT}"),
            line(f"+{text} s late", RIGHT + 8, up + 4.5, "mark"), line(f"\u2212{text} s early", RIGHT + 8, down + 4.5, "mark")]


def hatch(week: Measured, scale: Scale) -> List[str]:
    """Silent hours as hatched stretches."""
    return [f'<rect x="{w(scale.x(a))}" y="{TOP}" width="{w(scale.x(b) - scale.x(a))}" height="{FOOT - TOP}" fill="url(#silent)"/>'
            for a, b in scales.silent(week)]


def hushed(week: Measured, scale: Scale) -> List[str]:
    """The word in the silent stretches that are wide enough."""
    drawn, y = [], (scale.y(0) + FOOT) / 2 + 18
    for a, b in scales.silent(week):
        x = (scale.x(a) + scale.x(b)) / 2 + 4
        if scale.x(b) - scale.x(a) >= 17:
            drawn += [f'<rect x="{w(x - 12)}" y="{w(y - 40)}" width="16" height="44" rx="3" fill="#fff"/>',
                      line("silent", x, y, "small", more=f' transform="rotate(-90 {w(x)} {w(y)})"')]
    return drawn


def rows(scale: Scale) -> List[str]:
    """The grid of seconds."""
    ticks, step = scales.steps(scale.low / 1000, scale.high / 1000, 12)
    grid = "".join(f"M{LEFT} {w(scale.y(1000 * t))}H{RIGHT}" for t in ticks)
    labels = [line(seconds(t, step, max(map(abs, ticks))), LEFT - 10, scale.y(1000 * t) + 4.5, "tick", "end") for t in ticks]
    return [path("grid", grid), *labels, line("seconds", LEFT - 10, TOP + 4, "small", "end")]


def columns(clock: Clock, scale: Scale) -> List[str]:
    """A line for each midnight, a name for each day, and the hours between them where there is room."""
    hour = scale.x(1) - scale.x(0)
    midnights = clock.midnights(scale.hours)
    first = (24 - clock.start.hour - clock.start.minute / 60) % 24
    drawn = [path("days", "".join(f"M{w(scale.x(p))} {TOP}V{FOOT + 24}" for p in midnights))]
    apart = next((k for k in (1, 2, 3, 6, 12) if k * hour >= 30), 24)
    clocks = [first - 24 + k for k in range(0, int(scale.hours - first) + 49, apart) if k % 24]
    clocks = [p for p in clocks if 0 <= p <= scale.hours]
    drawn.append(path("axis", f"M{LEFT} {FOOT}H{RIGHT}" + "".join(f"M{w(scale.x(p))} {FOOT}v5" for p in clocks)))
    drawn += [line(f"{clock.time(p).hour:02}", scale.x(p), FOOT + 18, "small", "mid") for p in clocks if apart < 24]
    room = 78 if clock.dated else 40  # for the name of a day
    every = max(1, math.ceil(room / (24 * hour)))
    edges = [0.0] + [p for p in midnights if 0 < p < scale.hours] + [float(scale.hours)]
    for i, (a, b) in enumerate(zip(edges, edges[1:])):
        if every > 1 and i % every == 0:
            drawn.append(line(clock.day(a), scale.x(a) + 3, FOOT + 40, "day"))
        elif every == 1 and (b - a) * hour >= room - 6:
            drawn.append(line(clock.day(a), scale.x((a + b) / 2), FOOT + 40, "day", "mid"))
    return drawn


def dots(fit: Fit, week: Measured, clock: Clock, scale: Scale) -> List[str]:
    """Each measurement as an open circle that tells its numbers when pointed at."""
    radius = min(3.2, max(1.1, 0.44 * (scale.x(1) - scale.x(0))))
    drawn = ['<g class="dots">']
    for h in fit.hours:
        value = week[h.position]
        if scales.drawable(value):
            tells = f"{clock.at(h.position)}, hour {h.position}: measured {words.ms(value)} ms, trend {words.ms(h.trend)} ms"
            x, y = w(scale.x(h.position + 0.5)), w(scale.y(value))
            drawn.append(f'<circle cx="{x}" cy="{y}" r="{w(radius)}"><title>{tells}</title></circle>')
    return drawn + ["</g>"]


class Label(NamedTuple):
    """What is said of a knot, and where: the knot's place and the middle of its two lines of text."""
    x: float
    middle: float
    half: float
    change: str
    when: str
    guide: float  # how far down its guide goes


def label(fit: Fit, clock: Clock, scale: Scale, place: int) -> Label:
    hour, x = fit.hours[place + 1], scale.x(scales.knot_x(fit, place))
    change = amount(scales.knot_change(fit, place)) + ("" if fit.order == 1 else " a step")
    when = clock.short(hour.position)
    half = max(13.5 * breadth(change), 11 * breadth(when)) / 2 + 7
    ends = [scale.y(t) for t in (hour.trend, fit.hours[place].trend) if scales.drawable(t)]
    return Label(x, x, half, change, when, min(ends, default=TOP) - 4)


def labels(fit: Fit, clock: Clock, scale: Scale) -> List[Label]:
    """The labels that have room, the largest changes first, each as near to its knot as can be and in the knots' order."""
    taken: List[Label] = []
    for i in sorted(fit.knots, key=lambda i: (-abs(scales.knot_change(fit, i)), i)):
        new = label(fit, clock, scale, i)
        tries = [new.x] + [other.middle + side * (other.half + new.half) for other in taken for side in (-1, 1)]
        free = [at for at in tries if abs(at - new.x) <= REACH and LEFT - 60 + new.half <= at <= WIDTH - 8 - new.half
                and all(abs(at - other.middle) > other.half + new.half - 0.01 for other in taken)
                and all((at - other.middle) * (new.x - other.x) > 0 for other in taken)]
        if free:
            taken.append(new._replace(middle=min(free, key=lambda at: abs(at - new.x))))
    return taken


def knot_lane(fit: Fit, clock: Clock, scale: Scale) -> List[str]:
    """Above the box, where the trend bends: up or down, and by how much where there is room to say so."""
    drawn = []
    for i in fit.knots:
        x, up = scale.x(scales.knot_x(fit, i)), scales.knot_change(fit, i) > 0
        foot, tip = (LANE + 5, LANE - 5) if up else (LANE - 5, LANE + 5)
        few = len(fit.knots) <= FEW
        drawn.append(path("knot", f"M{w(x - 5.5)} {foot}h11L{w(x)} {tip}z") if few else path("tickmark", f"M{w(x)} {LANE - 5}v10"))
    for one in labels(fit, clock, scale):
        drawn += [path("lead", f"M{w(one.x)} {LANE - 8}L{w(one.middle)} {LANE - 20}"),
                  path("guide", f"M{w(one.x)} {TOP}V{w(max(TOP, one.guide))}"),
                  line(one.change, one.middle, LANE - 40, "change", "mid"), line(one.when, one.middle, LANE - 25, "small", "mid")]
    return drawn


def legend(fit: Fit, week: Measured, marked: bool, mark: float) -> List[str]:
    """What each sign means, by its shape."""
    y, level = FOOT + 84, words.level(mark / 1000)
    items = [(f'<circle cx="13" cy="{y - 4.5}" r="3.2"/>', "measurement", "dots"),
             (path("trend", f"M0 {y - 4.5}h26"), "trend, the habitual overrun", "sign")]
    if fit.knots:
        what = "level" if fit.order == 1 else "slope"
        sign = path("tickmark", f"M13 {y - 10}v10") if len(fit.knots) > FEW else path("knot", f"M2 {y}h10L7 {y - 9}zM15 {y - 9}h10L20 {y}z")
        items.append((sign, f"knot: the {what} rises, falls" if len(fit.knots) <= FEW else f"knot: the {what} changes", "sign"))
    if scales.silent(week):
        sign = f'<rect x="1" y="{y - 12}" width="24" height="14" fill="url(#silent)" stroke="{FAINT}"/>'
        items.append((sign, "silent, left out of the trend", "sign"))
    if marked:
        items.append((path("marks", f"M0 {y - 4.5}h26"), f"{level} seconds late or early", "sign"))
    else:
        items.append(("", f"\u00b1{level} s are too near 0 to be seen", "sign"))
    drawn, x = [], float(LEFT)
    for sign, text, name in items:
        drawn.append(f'<g class="{name}" transform="translate({w(x)} 0)">{sign}{line(text, 34 if sign else 0, y, "tick")}</g>')
        x += 34 + 13 * breadth(text) + 30
    return drawn


def picture(fit: Fit, given: Optional[Measured], clock: Clock, mark: float, title: str) -> str:
    """The whole picture as SVG; the same week gives the same bytes."""
    week = scales.week_of(fit, given)
    low, high, marked = scales.span([*week, *(h.trend for h in fit.hours)], mark)
    scale = Scale(LEFT, TOP, RIGHT - LEFT, FOOT - TOP, len(week), low, high)
    sides = "; ".join(words.passings(fit, mark, clock, side)[0] for side in ("late", "early"))
    spoken = f"{fit.n} hours, {words.count(len(fit.knots), 'knot')}; {sides}"
    pieces = [
        f'<svg xmlns="http://www.w3.org/2000/svg" viewBox="0 0 {WIDTH} {HEIGHT}" width="{WIDTH}" height="{HEIGHT}" '
        f'style="max-width:100%;height:auto" role="img" aria-labelledby="title what">',
        f'<title id="title">{escape(title)}</title><desc id="what">{escape(spoken)}</desc><style>{STYLE}</style>',
        f'<defs><pattern id="silent" width="7" height="7" patternUnits="userSpaceOnUse" patternTransform="rotate(45)">'
        f'<rect width="7" height="7" fill="#fff"/><path d="M0 0V7" stroke="#b4bcc4" stroke-width="2.2"/></pattern></defs>',
        f'<rect width="{WIDTH}" height="{HEIGHT}" fill="#fff"/>',
        *heading(fit, clock, mark, title), shade(scale, mark) if marked else "", *hatch(week, scale), *rows(scale), *columns(clock, scale),
        path("axis", f"M{LEFT} {w(scale.y(0))}H{RIGHT}"), *(band(scale, mark) if marked else []), *hushed(week, scale),
        *dots(fit, week, clock, scale), path("trend", scales.trend_path(fit, scale)),
        *knot_lane(fit, clock, scale), *legend(fit, week, marked, mark), "</svg>"]
    return "\n".join(piece for piece in pieces if piece) + "\n"
