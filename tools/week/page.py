"""The report of a network: one page with a small chart for each strand, and the summary table."""
from __future__ import annotations

import csv
import io
import os
from html import escape
from typing import List, NamedTuple, Optional, Sequence
from urllib.parse import quote

from week import scales, words
from week.clock import Clock
from week.files import plain
from week.listing import Fit
from week.scales import Scale, w
from week.weekfile import Measured

UNREAD, REFUSED, UNSETTLED, FITTED = range(4)  # what needs attention comes first
STATES = ("not read or written", "refused", "not settled", "fitted")
WIDTH, HEIGHT = 336, 120
STYLE = """
:root{--ink:#16202c;--soft:#5b6673;--line:#d9dee3;--shade:#f1f3f5}
*{box-sizing:border-box} body{margin:0 auto;max-width:1480px;padding:28px 24px 60px;color:var(--ink);background:#fff;
font:15px/1.45 "Helvetica Neue",Helvetica,Arial,"Liberation Sans",sans-serif}
h1{font-size:26px;margin:0 0 4px} h2{font-size:18px;margin:40px 0 12px;padding-top:12px;border-top:2px solid var(--ink)}
p{margin:4px 0} .soft{color:var(--soft)} a{color:inherit;text-underline-offset:2px} a:focus-visible{outline:2px solid var(--ink)}
.wide{overflow-x:auto} dt{font-weight:600} dd{margin:0 0 6px}
table{border-collapse:collapse;width:100%;font-size:14px;font-variant-numeric:tabular-nums}
th,td{padding:5px 14px 5px 0;text-align:left;border-bottom:1px solid var(--line);vertical-align:top}
th{border-bottom:2px solid var(--ink);white-space:nowrap}
td.n,th.n{text-align:right;white-space:nowrap}
td:last-child{padding:5px 0 5px 14px} td:nth-child(2){white-space:nowrap}
td.name{font-weight:600;overflow-wrap:anywhere;min-width:8em} .due{font-weight:700}
.cards{display:grid;grid-template-columns:repeat(auto-fill,minmax(300px,1fr));gap:18px}
.card{border:1px solid var(--line);border-radius:6px;padding:12px 14px;break-inside:avoid;min-width:0}
.card h3{font-size:15px;margin:0 0 2px;overflow-wrap:anywhere}
.card p{font-size:13px;color:var(--soft)} .card svg{display:block;width:100%;height:auto;margin-top:8px}
.card:target{border-color:var(--ink);box-shadow:0 0 0 2px var(--ink)}
.still{fill:#d5dade} .box{fill:none;stroke:#c3cad1} .days,.zero{fill:none;stroke:#dde2e7} .zero{stroke:#8c96a1}
.marks{fill:none;stroke:#8a1c1c;stroke-width:1.2;stroke-dasharray:5 3} .dots{fill:none;stroke:#8c96a1;stroke-width:2.2;stroke-linecap:round}
.trend{fill:none;stroke:#0b3d78;stroke-width:2.4;stroke-linejoin:round} .knots{fill:none;stroke:#16202c;stroke-width:1.4}
svg text{font-size:10px;fill:#5b6673} svg .none{font-size:14px;font-weight:600;fill:#16202c;text-anchor:middle}
@media print{body{max-width:none;padding:0} a{text-decoration:none}}
"""


class Strand(NamedTuple):
    """What has become of one file: its name, its state, what is said of it, and its chart."""
    file: str
    station: str
    state: int
    said: str
    chart: str
    hours: Optional[int] = None
    knots: Optional[int] = None
    reason: Optional[int] = None
    largest: Optional[float] = None
    at: Optional[int] = None
    past: Optional[int] = None
    lam: Optional[float] = None
    order: Optional[int] = None


def attention(one: Strand) -> tuple:
    """What strands are sorted by."""
    return one.state, -(one.past or 0), -abs(one.largest or 0.0), one.station, one.file


def chart(week: Optional[Measured], fit: Optional[Fit], clock: Clock, mark: float, said: str) -> str:
    """A strand's small chart: grey stretches are silent, ticks at the foot are knots; without a fit it says why."""
    week = week or []
    values = [*week, *(h.trend for h in fit.hours)] if fit else week
    low, high, marked = scales.span(values, mark)
    scale = Scale(30, 8, WIDTH - 34, HEIGHT - 22, max(1, len(week)), low, high)
    sides = marks(scale, mark) if marked else beyond(values)
    drawn = frame(week, clock, scale) + (sides if week else []) + series(week, fit, scale, said)
    return f'<svg class="chart" viewBox="0 0 {WIDTH} {HEIGHT}" role="img" aria-label="{escape(said)}">{"".join(drawn)}</svg>'


def frame(week: Measured, clock: Clock, scale: Scale) -> List[str]:
    """The box with its days and its silent stretches, and a line at 0."""
    right, foot = w(scale.left + scale.width), w(scale.top + scale.height)
    still = "".join(f"M{w(scale.x(a))} 8H{w(scale.x(b))}V{foot}H{w(scale.x(a))}z" for a, b in scales.silent(week))
    days = "".join(f"M{w(scale.x(p))} 8V{foot}" for p in clock.midnights(len(week)) if 0 < p < len(week))
    drawn = [f'<path class="still" d="{still}"/>' if still else "", f'<path class="days" d="{days}"/>' if days else "",
             f'<path class="box" d="M30 8H{right}V{foot}H30z"/>']
    if week:
        drawn += [f'<path class="zero" d="M30 {w(scale.y(0))}H{right}"/>', side("0", scale.y(0))]
    return drawn


def side(text: str, y: float) -> str:
    """A word at the left edge."""
    return f'<text x="26" y="{w(y + 3.5)}" text-anchor="end">{text}</text>'


def marks(scale: Scale, mark: float) -> List[str]:
    """The marks, dashed."""
    up, down, right, text = scale.y(mark), scale.y(-mark), w(scale.left + scale.width), words.level(mark / 1000)
    return [f'<path class="marks" d="M30 {w(up)}H{right}M30 {w(down)}H{right}"/>', side(f"+{text} s", up), side(f"\u2212{text} s", down)]


def beyond(values: Sequence[Optional[float]]) -> List[str]:
    """Where the marks are far within, the largest value stands in the corner."""
    top = max((value for value in values if scales.drawable(value)), key=abs) / 1000
    return [f'<text x="34" y="18">to {chr(0x2212) if top < 0 else ""}{abs(top):,.0f} s</text>']


def series(week: Measured, fit: Optional[Fit], scale: Scale, said: str) -> List[str]:
    """The measurements as dots, the trend, the knots; or words in their place."""
    drawn, foot = [], scale.top + scale.height
    points = "".join(f"M{w(scale.x(p + 0.5))} {w(scale.y(value))}h0" for p, value in enumerate(week) if scales.drawable(value))
    if points:
        drawn.append(f'<path class="dots" d="{points}"/>')
    if fit is None:
        return drawn + [f'<text class="none" x="{WIDTH // 2 + 12}" y="{HEIGHT - 26 if points else HEIGHT // 2}">{escape(said)}</text>']
    knots = "".join(f"M{w(scale.x(scales.knot_x(fit, i)))} {w(foot + 1)}v6" for i in fit.knots)
    return drawn + [f'<path class="trend" d="{scales.trend_path(fit, scale)}"/>', f'<path class="knots" d="{knots}"/>' if knots else ""]


def link(one: Strand) -> str:
    return "listings/" + quote(os.fsencode(one.file + ".txt"))


def overrun(one: Strand, clock: Clock) -> str:
    return f"{words.ms(one.largest, '+')} ms at {clock.at(one.at)}" if one.largest is not None else ""


def row(i: int, one: Strand, clock: Clock) -> str:
    """A strand's row of the table."""
    values = [one.hours, one.knots, None if one.reason is None else words.STOPPED[one.reason], overrun(one, clock), one.past]
    cells = "".join(f'<td class="n">{"" if value is None else value}</td>' for value in values[:-1])
    cells += f'<td class="n{" due" if one.past else ""}">{"" if one.past is None else one.past}</td>'
    listing = f'<a href="{link(one)}">listing</a>' if one.state != UNREAD else ""
    due, state = " class=due" if one.state != FITTED else "", one.said.split(":")[0] if one.state == REFUSED else STATES[one.state]
    name = f'<td class="name"><a href="#s{i}">{escape(one.station)}</a></td>'
    return f"<tr>{name}<td{due}>{escape(state)}</td>{cells}<td>{listing}</td></tr>\n"


def card(i: int, one: Strand, clock: Clock) -> str:
    """A strand's place on the page: its name, what is said of it, its chart."""
    listing = f' \u00b7 <a href="{link(one)}">listing</a>' if one.state != UNREAD else ""
    facts = ""
    if one.hours is not None:
        facts = f"{words.count(one.hours, 'hour')}, {words.count(one.knots, 'knot')}; {one.past} past; largest {overrun(one, clock)}"
        facts += f"; lam {one.lam:.6g}, order {one.order}"
    text = "; ".join(escape(part) for part in (one.said, facts) if part)
    return f'<article class="card" id="s{i}"><h3>{escape(one.station)}</h3><p>{text}{listing}</p>{one.chart}</article>'


def groups(strands: List[Strand]) -> List[tuple]:
    """The strands by what they need, each group with its heading."""
    heads = ["Could not be read or written", "Refused", "Not settled", "Past the mark", "Within the mark"]
    kinds = [one.state if one.state != FITTED else FITTED if one.past else FITTED + 1 for one in strands]
    return [(head, [(i, one) for i, one in enumerate(strands) if kinds[i] == kind]) for kind, head in enumerate(heads)]


def counts(strands: List[Strand]) -> str:
    """How many strands there are of each state."""
    each = ", ".join(f"{sum(one.state == s for one in strands)} {STATES[s]}" for s in (FITTED, UNSETTLED, REFUSED, UNREAD))
    return f"{words.count(len(strands), 'strand')}: {each}"


def table(strands: List[Strand], clock: Clock, text: str) -> str:
    heads = "".join(f'<th class="n">{head}</th>' for head in ("hours", "knots", "reason", "largest habitual overrun", f"hours past {text} s"))
    rows = "".join(row(i, one, clock) for i, one in enumerate(strands))
    head = f"<thead><tr><th>station</th><th>state</th>{heads}<th></th></tr></thead>"
    return f'<div class="wide"><table>{head}<tbody>\n{rows}</tbody></table></div>\n'


def page(strands: List[Strand], clock: Clock, mark: float, title: str) -> str:
    """The whole page, for strands that are sorted."""
    text = words.level(mark / 1000)
    cards = "".join(f'<h2>{head} ({len(some)})</h2><div class="cards">{"".join(card(i, one, clock) for i, one in some)}</div>\n'
                    for head, some in groups(strands) if some)
    reasons = "".join(f"<dt>{words.STOPPED[number]}</dt><dd>{escape(meaning)}</dd>" for number, (meaning, _) in words.REASONS.items())
    return (f'<!doctype html>\n<html lang="en"><head><meta charset="utf-8">'
            f'<meta name="viewport" content="width=device-width,initial-scale=1"><title>{escape(title)}</title>'
            f'<link rel="icon" href="data:,"><style>{STYLE}</style></head><body>\n<h1>{escape(title)}</h1>\n<p>{counts(strands)}.</p>\n'
            f'<p class="soft">What needs attention comes first. In the charts: dots are measurements, the heavy line is the trend, '
            f'grey stretches are silent hours, ticks at the foot are knots, the dashed lines stand at {text} seconds late and early. '
            f'Below the charts stands the <a href="#summary">summary table</a>.</p>\n'
            f'{cards}<h2 id="summary">Summary</h2>{table(strands, clock, text)}'
            f'<h2>Reasons</h2><dl class="soft">{reasons}</dl>\n</body></html>\n')


def summary(strands: List[Strand], clock: Clock) -> bytes:
    """The summary table as CSV."""
    out = io.StringIO()
    rows = csv.writer(out, lineterminator="\n")
    rows.writerow(["station", "file", "state", "hours", "knots", "reason", "largest_overrun_ms", "at_hour", "when", "hours_past", "lam",
                   "order", "said"])
    for one in strands:
        top = "" if one.largest is None else words.ms(one.largest)
        rows.writerow([one.station, plain(one.file), STATES[one.state], one.hours, one.knots, one.reason, top, one.at,
                       "" if one.at is None else clock.at(one.at), one.past, one.lam, one.order, one.said])
    return out.getvalue().encode("utf-8", "backslashreplace")
