"""Tables to the records of a week, and back: a bad cell is named by its row and column.

A table has a header row; its columns are known by their names. A row without an overrun is a silent hour. Where the table has a
column `hour` rows may come in any order, and hours that no row names are silent; else each row is the next hour, an empty line
too, save for the empty lines at the end.
"""
from __future__ import annotations

import csv
import io
import re
from typing import Dict, List, NamedTuple, Optional, Sequence, Tuple

from week.files import Failure, plain, read
from week.weekfile import BYTES, CORRECTION, FRAMES, HOUR, POSITIONS, SETTINGS, SILENT, SOUNDING, Record, Settings, join, size

LONGEST = 1 << 20  # a table has no more bytes
NAMED = 20  # so many bad cells are named
KNOWN = ("hour", "ms", "frames", "rate")
I32, U32 = (-2 ** 31, 2 ** 31 - 1), (1, 2 ** 32 - 1)
Rate = Tuple[int, int]
Source = Tuple[str, bytes]  # a table's name, as it is printed, and its bytes


class BadCell(Exception):
    """What is wrong with a cell, and its column."""

    def __init__(self, column: str, text: str):
        super().__init__(text)
        self.column = column


class Row(NamedTuple):
    """A row's number as a spreadsheet counts it, the header being row 1, and its cells by their columns' names."""
    number: int
    cells: Dict[str, str]


def whole(text: str, low: int, high: int) -> Optional[int]:
    """A whole number in plain digits, or None."""
    found = re.fullmatch(r"([+-]?)0*([0-9]{1,20})", text)
    value = int(found.group(1) + found.group(2)) if found else None
    return value if value is not None and low <= value <= high else None


def rate(text: str) -> Optional[Rate]:
    """A rate in frames a second, 25 or 30000/1001, or None."""
    pieces = [whole(piece, *U32) for piece in text.split("/")] if re.fullmatch(r"[0-9/]+", text) else []
    return None if None in pieces or len(pieces) not in (1, 2) else (pieces[0], pieces[1] if len(pieces) == 2 else 1)


def found(text: str) -> str:
    return f"found '{plain(text[:40])}{'...' if len(text) > 40 else ''}'"


def cell(row: Row, column: str, low: int, high: int, what: str) -> Optional[int]:
    """The number in a cell, None where it is blank."""
    text = row.cells.get(column, "")
    value = whole(text, low, high)
    if text and value is None:
        raise BadCell(column, f"{found(text)}, expected {what} from {low} to {high}")
    return value


def source(path: str, regular: bool = False) -> Source:
    """A table that is not read yet: its name and its bytes."""
    data = read(path, LONGEST, regular)
    if len(data) > LONGEST:
        raise Failure(f"{plain(path)}: is longer than {LONGEST} bytes; no week's table is")
    return plain(path), data


def grid(table: Source) -> Tuple[List[str], List[List[str]]]:
    """The header of a table and its other rows; the header shows what parts the cells."""
    name, data = table
    try:
        text = data.decode("utf-8-sig")
    except UnicodeDecodeError as e:
        raise Failure(f"{name}: is not UTF-8 text: see byte {e.start}") from None
    if "\0" in text:
        raise Failure(f"{name}: is not a table: it has a byte 0")
    try:
        mark = max(",;\t", key=lambda mark: sum(name.strip().lower() in KNOWN for name in first_row(text, mark)))
        rows = list(csv.reader(io.StringIO(text, newline=""), delimiter=mark, strict=True))
    except csv.Error as e:
        raise Failure(f"{name}: is not a table: {e}") from None
    return [name.strip().lower() for name in rows[0]] if rows else [], rows[1:]


def first_row(text: str, mark: str) -> List[str]:
    try:
        return next(csv.reader(io.StringIO(text, newline=""), delimiter=mark, strict=True), [])
    except csv.Error:
        return []


def rows_of(table: Source, needed: Sequence[Sequence[str]]) -> Tuple[List[str], List[Row], List[str]]:
    """A table's columns, its rows, and what is wrong with them; of each group of columns one is needed."""
    name, (header, lines) = table[0], grid(table)
    twice = sorted({column for column in header if column and header.count(column) > 1})
    if twice:
        raise Failure(f"{name}: row 1: column {plain(twice[0])} stands there twice")
    for columns in needed:
        if not set(columns) & set(header):
            there = ", ".join(plain(column[:40]) for column in header[:10] if column)
            raise Failure(f"{name}: row 1: no column {' or '.join(columns)}; found {there or 'no names'}")
    while lines and (not lines[-1] or (len(lines[-1]) == 1 and lines[-1][0].isspace())):
        lines.pop()
    rows, faults = [], []
    for number, line in enumerate(lines, 2):
        cells = [text.strip() for text in line]
        beyond = [i for i in range(len(header), len(cells)) if cells[i]]
        if beyond:
            faults.append(f"{name}: row {number}, column {beyond[0] + 1}: {found(cells[beyond[0]])}, the header has {len(header)} columns")
        rows.append(Row(number, {column: text for column, text in zip(header, cells) if column in KNOWN}))
    return header, rows, faults


def slot(row: Row, general: Optional[Rate]) -> Record:
    """The record of the hour that a row says."""
    own = row.cells.get("rate", "")
    if own and rate(own) is None:
        raise BadCell("rate", f"{found(own)}, expected a rate in frames a second like 25 or 30000/1001, numbers from 1 to {U32[1]}")
    ms = cell(row, "ms", *I32, "whole milliseconds")
    frames = cell(row, "frames", *I32, "whole frames")
    if ms is not None and frames is not None:
        raise BadCell("frames", f"{found(row.cells['frames'])}, expected a blank cell: the row has {ms} in column ms too")
    if ms is not None:
        return HOUR, (ms,)
    if frames is None:
        return SILENT, ()
    used = rate(own) if own else general
    if used is None:
        raise BadCell("frames", f"{found(row.cells['frames'])}, but no rate: a cell in a column rate or --rate has to say it")
    return FRAMES, (frames, *used)


class Sheet:
    """What has been read of a week: its hours by position, its corrections in order, the row of each, and what is wrong."""

    def __init__(self) -> None:
        self.hours: Dict[int, Tuple[int, Record]] = {}
        self.corrections: List[Tuple[int, Record]] = []
        self.faults: List[str] = []

    def fault(self, table: Source, row: Row, e: BadCell) -> None:
        self.faults.append(f"{table[0]}: row {row.number}, column {e.column}: {e}")

    def hour_of(self, row: Row) -> Optional[int]:
        """The hour that a row's cell says; None where a row names no hour and has no overrun."""
        hour = cell(row, "hour", 0, POSITIONS - 1, "an hour's number")
        if hour is None and (row.cells.get("ms") or row.cells.get("frames")):
            raise BadCell("hour", f"found a blank cell, expected an hour's number from 0 to {POSITIONS - 1}")
        if hour in self.hours:
            raise BadCell("hour", f"{found(row.cells['hour'])}, which row {self.hours[hour][0]} says already")
        return hour

    def add_hours(self, table: Source, general: Optional[Rate]) -> None:
        header, rows, faults = rows_of(table, [("ms", "frames")])
        self.faults += faults
        for row in rows:
            hour, record = None, (SILENT, ())
            try:
                hour = self.hour_of(row) if "hour" in header else len(self.hours)
                record = slot(row, general)
            except BadCell as e:
                self.fault(table, row, e)
            if hour is not None:
                self.hours[hour] = row.number, record

    def add_corrections(self, table: Source) -> None:
        _, rows, faults = rows_of(table, [("hour",), ("ms",)])
        self.faults += faults
        end = max(self.hours, default=-1) + 1
        for row in rows:
            try:
                hour = cell(row, "hour", 0, POSITIONS - 1, "an hour's number")
                ms = cell(row, "ms", *I32, "whole milliseconds")
                if hour is None and ms is None:
                    continue
                if hour is None or ms is None:
                    raise BadCell("hour" if hour is None else "ms", "found a blank cell, expected a number")
                if hour >= end:
                    raise BadCell("hour", f"{found(row.cells['hour'])}, but the week's hours end with {end - 1}")
                self.corrections.append((row.number, (CORRECTION, (hour, ms))))
            except BadCell as e:
                self.fault(table, row, e)

    def records(self) -> List[Record]:
        end = max(self.hours, default=-1) + 1
        return [self.hours[p][1] if p in self.hours else (SILENT, ()) for p in range(end)] + [record for _, record in self.corrections]

    def limits(self, table: Source, corrections: Optional[Source]) -> None:
        """A file has room for so much, and a week for so many hours: the row at which there is too much is named."""
        length, sounding, before = size(SETTINGS), set(), -1
        steps = [(table, row, p, record) for p, (row, record) in sorted(self.hours.items())]
        steps += [(corrections, row, record[1][0], record) for row, record in self.corrections]
        for (name, _), row, position, record in steps:
            if record[0] != CORRECTION:
                length += size(SILENT) * (position - before - 1)
                before = position
            length += size(record[0])
            sounding |= set() if record[0] == SILENT else {position}
            if length > BYTES:
                raise Failure(f"{name}: row {row}: the file gets longer than {BYTES} bytes here, and no week may be")
            if len(sounding) > SOUNDING:
                raise Failure(f"{name}: row {row}: more than {SOUNDING} hours that are not silent, corrections made")


def week(table: Source, corrections: Optional[Source], settings: Settings, general: Optional[Rate]) -> bytes:
    """The week file that a table and its corrections say."""
    sheet = Sheet()
    sheet.add_hours(table, general)
    if corrections is not None:
        sheet.add_corrections(corrections)
    if sheet.faults:
        more = [f"and {len(sheet.faults) - NAMED} more"] if len(sheet.faults) > NAMED else []
        raise Failure("\n".join(sheet.faults[:NAMED] + more))
    sheet.limits(table, corrections)
    return join(settings, sheet.records())


def text_of(rows: List[List[object]]) -> bytes:
    out = io.StringIO()
    csv.writer(out, lineterminator="\n").writerows(rows)
    return out.getvalue().encode()


def tables_of(records: List[Record]) -> Tuple[bytes, bytes]:
    """The table of a week's hours and the one of its corrections."""
    hours = [(kind, fields) for kind, fields in records if kind != CORRECTION]
    framed = any(kind == FRAMES for kind, _ in hours)
    rows: List[List[object]] = [["hour", "ms"] + (["frames", "rate"] if framed else [])]
    for position, (kind, fields) in enumerate(hours):
        row: List[object] = [position, fields[0] if kind == HOUR else ""]
        if framed:
            row += [fields[0], f"{fields[1]}/{fields[2]}"] if kind == FRAMES else ["", ""]
        rows.append(row)
    return text_of(rows), text_of([["hour", "ms"], *(list(fields) for kind, fields in records if kind == CORRECTION)])
