"""A week file: its records to bytes and back, and what was measured in each hour."""
from __future__ import annotations

import struct
from fractions import Fraction
from typing import List, NamedTuple, Optional, Tuple

BYTES, SOUNDING = 4096, 168  # a file has no more bytes, and a week no more hours that sound
HOUR, SILENT, SETTINGS, CORRECTION, FRAMES = 1, 2, 3, 4, 5
HEAD = struct.Struct("<HH")  # the length of kind and body, the kind
BODIES = {HOUR: struct.Struct("<i"), SILENT: struct.Struct("<"), SETTINGS: struct.Struct("<ddQBB"),
          CORRECTION: struct.Struct("<Hi"), FRAMES: struct.Struct("<iII")}

Record = Tuple[int, tuple]  # kind and fields
Measured = List[Optional[float]]  # by position: milliseconds, None for a silent hour


def size(kind: int) -> int:
    """How many bytes a record of a kind has."""
    return HEAD.size + BODIES[kind].size


POSITIONS = (BYTES - size(SETTINGS)) // size(SILENT)  # so many hours stand in a file at most, if all are silent


class Settings(NamedTuple):
    """How a week is to be fitted, in the order of the record."""
    lam: float
    tol: float
    max_iter: int
    order: int
    penalty: int


def pack(kind: int, *fields) -> bytes:
    body = BODIES[kind].pack(*fields)
    return HEAD.pack(2 + len(body), kind) + body


def join(settings: Settings, records: List[Record]) -> bytes:
    """The file of a week: its settings, then the other records in their order."""
    return pack(SETTINGS, *settings) + b"".join(pack(kind, *fields) for kind, fields in records)


def split(data: bytes) -> Optional[List[Record]]:
    """The records of a file, or None where it is too long or does not split into whole records of known kinds."""
    records, at = [], 0
    while at < len(data) <= BYTES:
        if len(data) - at < HEAD.size:
            return None
        length, kind = HEAD.unpack_from(data, at)
        body = BODIES.get(kind)
        if body is None or length != 2 + body.size or at + 2 + length > len(data):
            return None
        records.append((kind, body.unpack_from(data, at + HEAD.size)))
        at += 2 + length
    return records if len(data) <= BYTES else None


def parts(data: bytes) -> Optional[Tuple[Settings, List[Record]]]:
    """The settings and the other records of a file, or None where it cannot be read as a week."""
    records = split(data)
    if not records or [kind for kind, _ in records].count(SETTINGS) != 1 or records[0][0] != SETTINGS:
        return None
    return Settings(*records[0][1]), records[1:]


def in_milliseconds(count: int, numerator: int, denominator: int) -> Optional[float]:
    """The double nearest to what so many frames last, or None for a rate with a 0 in it."""
    if not numerator or not denominator:
        return None
    return float(Fraction(count * 1000 * denominator, numerator))


def measured(records: List[Record]) -> Measured:
    """What each hour says in milliseconds, corrections made; one that names no earlier hour is passed over."""
    week: Measured = []
    for kind, fields in records:
        if kind == HOUR:
            week.append(float(fields[0]))
        elif kind == SILENT:
            week.append(None)
        elif kind == FRAMES:
            week.append(in_milliseconds(*fields))
        elif kind == CORRECTION and fields[0] < len(week):
            week[fields[0]] = float(fields[1])
    return week
