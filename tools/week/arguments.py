"""What can be typed."""
from __future__ import annotations

import argparse

from week import clock, tables
from week.files import FAILED, out, plain, say

ABOUT = "Week files from tables, listings in words and pictures, and a whole network in one run."
STATUSES = """exit status:
  0  all is fitted, or written
  1  refused: the program read the week and refused it
  2  something could not be read or written, or bad usage
  130  interrupted"""
TABLE = """The table is CSV (comma, semicolon or tab; UTF-8) with a header row. Its columns, in any order and case:
  ms      the overrun in whole milliseconds
  frames  the overrun in whole frames, at a rate from the column rate or from --rate
  rate    frames a second, 25 or 30000/1001
  hour    the hour's number from 0; rows may then come in any order, and hours that no row names are silent
Other columns are notes. A row with neither ms nor frames is a silent hour. Without a column hour each row is the
next hour, an empty line too, save for the empty lines at the end. Corrections are a table with the columns hour
and ms; of several for one hour the last counts. A bad cell is named by row and column, the header being row 1,
and nothing is written."""
BACK = """`make` of the tables with the options that are printed gives the same bytes again, unless a correction stands before
a later hour in the file, or `make` cannot take its settings, its rates or its hours. A line on standard error says so."""
EITHER = "FILE is a week file or a listing, standard input if it is - or left out. Of a table make a week file first, with `week make`."
FOLDER = """Week files are *.bin and *.week; tables are *.csv and need --lam, and NAME.corrections.csv has the corrections for
NAME.csv. A week file brings its own settings; --lam to --rate are for the tables. Other files are left alone. REPORT is
a folder, made if need be: index.html, summary.csv and listings/. An old report in it is replaced."""
PENALTIES = {"l1": 1, "l2": 2, "1": 1, "2": 2}
MOST = 1e15  # the largest mark
LOOSE = ("--lam", "--tol", "--mark")  # what follows these is their number, also where it begins with -


class Parser(argparse.ArgumentParser):
    """A parser that tells of a standard output that cannot be written."""

    def print_help(self, file=None) -> None:
        out(self.format_help())

    def error(self, message: str) -> None:
        say(f"{self.format_usage()}{self.prog}: {message}")
        raise SystemExit(FAILED)


def limit(text: str) -> int:
    value = tables.whole(text, 0, 2 ** 64 - 1)
    if value is None:
        raise argparse.ArgumentTypeError(f"'{plain(text)}' is not a whole number from 0 to {2 ** 64 - 1}")
    return value


def double(text: str) -> float:
    try:
        return float(text)
    except ValueError:
        raise argparse.ArgumentTypeError(f"'{plain(text)}' is not a number") from None


def rate(text: str) -> tables.Rate:
    value = tables.rate(text)
    if value is None:
        raise argparse.ArgumentTypeError(f"'{plain(text)}' is not a rate like 25 or 30000/1001")
    return value


def start(text: str) -> clock.Clock:
    try:
        return clock.parse(text)
    except (ValueError, OverflowError):
        raise argparse.ArgumentTypeError(f"'{plain(text)}' is not a start like \"Mon 00:00\" or 2026-11-16T00:00") from None


def mark(text: str) -> float:
    value = double(text)
    if not 0 <= value <= MOST:
        raise argparse.ArgumentTypeError(f"'{plain(text)}' is not a number of milliseconds from 0 to {MOST:g}")
    return abs(value)


def settings(parser: argparse.ArgumentParser, required: bool) -> None:
    parser.add_argument("--lam", type=double, required=required, metavar="LAM", help="the weight of the bends")
    parser.add_argument("--order", type=int, choices=(1, 2), default=1, help="1: a staircase (default); 2: straight lines")
    parser.add_argument("--penalty", choices=tuple(PENALTIES), default="l1",
                        help="l1: few sharp bends (default); l2: everything bends a little")
    parser.add_argument("--tol", type=double, default=1e-8, metavar="TOL", help="how exact the answer is to be (default 1e-8)")
    parser.add_argument("--max-iter", type=limit, default=100, metavar="N", help="the step limit (default 100)")
    parser.add_argument("--rate", type=rate, metavar="RATE", help="frames a second for rows without their own: 25, 30000/1001")


def reading(parser: argparse.ArgumentParser) -> None:
    parser.add_argument("--start", type=start, default=clock.Clock(), metavar="WHEN",
                        help='when hour 0 starts: "Mon 00:00" (default), or 2026-11-16T00:00 for dates')
    parser.add_argument("--mark", type=mark, default=8000.0, metavar="MS",
                        help="hours past so many milliseconds are told (default 8000); with less a picture comes closer")
    parser.add_argument("--program", metavar="PATH",
                        help="the program weektrend; else the variable WEEKTREND names it, else it is the repository's target/bin/weektrend")


def week_commands(command) -> None:
    make = command("make", "make a week file from a table of overruns", TABLE)
    make.add_argument("table", metavar="TABLE.csv")
    make.add_argument("-o", "--output", required=True, metavar="WEEK.bin")
    make.add_argument("--corrections", metavar="CORR.csv", help="a second table, of corrections")
    settings(make, True)
    table = command("table", "turn a week file back into tables, and print its settings as options of make", BACK)
    table.add_argument("week", metavar="WEEK.bin")
    table.add_argument("-o", "--output", required=True, metavar="TABLE.csv")
    table.add_argument("--corrections", metavar="CORR.csv", help="where the corrections go; needed if there are any")


def reading_commands(command) -> None:
    show = command("show", "fit a week and say its listing in words", EITHER)
    show.add_argument("file", nargs="?", default="-", metavar="FILE")
    reading(show)
    chart = command("chart", "fit a week and draw it", EITHER)
    chart.add_argument("file", nargs="?", default="-", metavar="FILE")
    chart.add_argument("-o", "--output", required=True, metavar="WEEK.svg")
    chart.add_argument("--title", metavar="TEXT", help="what stands above the picture (default: the file's name)")
    reading(chart)
    network = command("network", "fit every week file and table of a folder, and report on all of them", FOLDER)
    network.add_argument("folder", metavar="DIR")
    network.add_argument("-o", "--output", required=True, metavar="REPORT")
    settings(network, False)
    reading(network)


def parser() -> argparse.ArgumentParser:
    form = argparse.RawDescriptionHelpFormatter
    whole = Parser(prog="week", description=ABOUT, epilog=STATUSES, formatter_class=form)
    commands = whole.add_subparsers(dest="command", required=True, metavar="COMMAND")

    def command(name: str, what: str, more: str) -> argparse.ArgumentParser:
        said = f"{what[0].upper()}{what[1:]}.\n\n{more}"
        return commands.add_parser(name, help=what, description=said, epilog=STATUSES, formatter_class=form)

    week_commands(command)
    reading_commands(command)
    return whole


def parse(words: list) -> argparse.Namespace:
    """The arguments; a number below 0 stays with its option."""
    joined: list = []
    for word in words:
        if joined and joined[-1] in LOOSE:
            joined[-1] += "=" + word
        else:
            joined.append(word)
    return parser().parse_args(joined)
