"""The commands."""
from __future__ import annotations

import argparse
import os
from typing import List, Optional, Tuple

from week import arguments, files, listing, program, tables, weekfile, words
from week.files import FAILED, GOOD, REFUSED, Failure, plain


def settings_of(given: argparse.Namespace) -> Optional[weekfile.Settings]:
    """The settings that are typed; None without --lam."""
    if given.lam is None:
        return None
    return weekfile.Settings(given.lam, given.tol, given.max_iter, given.order, arguments.PENALTIES[given.penalty])


def make(given: argparse.Namespace) -> int:
    files.apart(given.output, given.table, given.corrections)
    corrections = tables.source(given.corrections) if given.corrections is not None else None
    files.write(given.output, tables.week(tables.source(given.table), corrections, settings_of(given), given.rate))
    return GOOD


def options(settings: weekfile.Settings) -> str:
    """Settings as they are typed; a double in its shortest form that gives it back."""
    lam, tol = (repr(x)[:-2] if repr(x).endswith(".0") else repr(x) for x in settings[:2])
    penalty = {1: "l1", 2: "l2"}.get(settings.penalty, settings.penalty)
    return f"--lam {lam} --order {settings.order} --penalty {penalty} --tol {tol} --max-iter {settings.max_iter}"


def lost(data: bytes, settings: weekfile.Settings, hours: bytes, corrections: bytes) -> Optional[str]:
    """Why `make` of the tables would not give the file back, or None."""
    typed = weekfile.Settings(float(repr(settings.lam)), float(repr(settings.tol)), *settings[2:])
    if settings.order not in (1, 2) or settings.penalty not in (1, 2) or weekfile.join(typed, []) != weekfile.join(settings, []):
        return "`make` cannot take these settings"
    try:
        again = tables.week(("the table", hours), ("the corrections", corrections), settings, None)
    except Failure as e:
        return f"`make` refuses these tables: {str(e).splitlines()[0]}"
    return None if again == data else "the order of the records is not kept: a correction stands before a later hour"


def table(given: argparse.Namespace) -> int:
    data = files.read(given.week, weekfile.BYTES)
    split = weekfile.parts(data)
    if split is None:
        raise Failure(f"{plain(given.week)}: is not a week file: it is too long, breaks off, or its settings do not stand first and alone")
    settings, records = split
    number = sum(kind == weekfile.CORRECTION for kind, _ in records)
    if number and given.corrections is None:
        raise Failure(f"{plain(given.week)}: has {words.count(number, 'correction')}: give --corrections CORR.csv for them")
    if "-" in (given.output, given.corrections):
        raise Failure("the settings go to standard output: give the tables names")
    hours, corrections = tables.tables_of(records)
    files.apart(given.output, given.week)
    if given.corrections is not None:
        files.apart(given.corrections, given.week)
        if os.path.realpath(given.corrections) == os.path.realpath(given.output):
            raise Failure(f"{plain(given.output)}: two tables need two names")
        files.write(given.corrections, corrections)
    files.write(given.output, hours)
    files.out(options(settings) + "\n")
    lack = lost(data, settings, hours, corrections)
    if lack:
        files.say(f"week: {plain(given.week)}: note: {lack}")
    return GOOD


def answer(given: argparse.Namespace) -> Tuple[program.Answer, Optional[weekfile.Measured]]:
    """What a week file or a listing says, and what was measured where that is known exactly."""
    name = "standard input" if given.file == "-" else plain(given.file)
    data = files.read(given.file, listing.BYTES)
    try:
        if listing.begins(data):
            return listing.parse(data), None
        if given.file == "-" and not data:
            raise Failure("nothing came, neither a week file nor a listing")
        if data and all(byte in b"\t\n\r" or byte >= 32 for byte in data):
            raise Failure("is text, but no whole listing; of a table, make a week file first: it needs settings (week make --help)")
        done = program.fit(program.find(given.program), data[:weekfile.BYTES + 1])
        return done.answer, done.week
    except Failure as e:
        raise Failure(f"{name}: {e}") from None


def show(given: argparse.Namespace) -> int:
    found, week = answer(given)
    files.out(words.text(found, given.start, given.mark, week))
    return REFUSED if isinstance(found, listing.Refusal) else GOOD


def chart(given: argparse.Namespace) -> int:
    from week import chart as drawing
    files.apart(given.output, given.file)
    found, week = answer(given)
    if isinstance(found, listing.Refusal):
        for line in words.refusal(found.number):
            files.say(line)
        return REFUSED
    title = given.title if given.title is not None else os.path.basename(given.file) if given.file != "-" else "A week"
    files.write(given.output, drawing.picture(found, week, given.start, given.mark, plain(title)).encode())
    return GOOD


def network(given: argparse.Namespace) -> int:
    from week import network as run
    job = run.Job(program.find(given.program), settings_of(given), given.rate, given.start, given.mark)
    return run.report(given.folder, given.output, job)


def main(given: List[str]) -> int:
    files.settle_streams()
    try:
        parsed = arguments.parse(given)
        return {"make": make, "table": table, "show": show, "chart": chart, "network": network}[parsed.command](parsed)
    except SystemExit as e:  # bad usage, or --help
        return e.code
    except Failure as e:
        for line in str(e).splitlines():
            files.say(f"week: {line}")
        return FAILED
