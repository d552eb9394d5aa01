#!/usr/bin/env python3
"""Writes the sample week as tables, beside this file: week.csv with 168 hours, four of them silent and one in frames, and
corrections.csv with the correction of a mistyped one. tools/week makes the week file of them:

    python3 examples/week.py
    python3 tools/week make examples/week.csv --corrections examples/corrections.csv --rate 25 --lam 8000 -o examples/week.bin
"""
import math
import pathlib
import random

DAYS = ["Mon", "Tue", "Wed", "Thu", "Fri", "Sat", "Sun"]
NIGHT = range(73, 77)  # Thursday, 01:00 to 05:00: the transmitter is off
STEP = 62  # Wednesday, 14:00: a longer jingle package goes on air
MISTYPED = 33  # Tuesday, 09:00: typed with a 0 too many
TELEVISION = 163  # Sunday, 19:00: taken over from television, which logs frames, 25 a second


def drift(hour):
    """How late the news starts, in milliseconds: a slow loss, a daily swing, the step, and chance."""
    swing = 350 * math.sin(2 * math.pi * (hour % 24 - 7) / 24)
    return round(900 + 4 * hour + swing + (2600 if hour >= STEP else 0) + random.gauss(0, 220))


def row(hour, late):
    """A row of the table: the day and the time for the reader, then milliseconds or frames."""
    when = f"{DAYS[hour // 24]},{hour % 24:02}:00"
    if hour in NIGHT:
        return f"{when},,"
    if hour == TELEVISION:
        return f"{when},,{late // 40}"  # a frame lasts 40 ms, and 107 of them just as long as this hour is late
    return f"{when},{10 * late if hour == MISTYPED else late},"


def main():
    random.seed(168)
    late = [drift(hour) for hour in range(168)]
    here = pathlib.Path(__file__).resolve().parent
    rows = ["day,time,ms,frames", *(row(hour, late[hour]) for hour in range(168))]
    (here / "week.csv").write_text("\n".join(rows) + "\n")
    (here / "corrections.csv").write_text(f"hour,ms\n{MISTYPED},{late[MISTYPED]}\n")


main()
