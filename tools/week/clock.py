"""Weekday and clock of the hours of a week."""
from __future__ import annotations

import datetime
import re
from typing import List, NamedTuple

from week.weekfile import POSITIONS

DAYS = ("Mon", "Tue", "Wed", "Thu", "Fri", "Sat", "Sun")
MONTHS = ("Jan", "Feb", "Mar", "Apr", "May", "Jun", "Jul", "Aug", "Sep", "Oct", "Nov", "Dec")
MONDAY = datetime.datetime(2001, 1, 1)  # a Monday, which stands for all where no date is given
WEEK = 168


class Clock(NamedTuple):
    """When hour 0 starts, and whether its date is known."""
    start: datetime.datetime = MONDAY
    dated: bool = False

    def time(self, position: float) -> datetime.datetime:
        return self.start + datetime.timedelta(seconds=round(3600 * position))

    def at(self, position: int) -> str:
        """Wed 14:00, in a later week Wed 14:00 +1w, or with its date."""
        time = self.time(position)
        day, clock = DAYS[time.weekday()], f"{time.hour:02}:{time.minute:02}"
        if self.dated:
            return f"{day} {time.date().isoformat()} {clock}"
        return f"{day} {clock}" + (f" +{position // WEEK}w" if position >= WEEK else "")

    def midnights(self, hours: int) -> List[float]:
        """The midnights among so many hours, by position, the ends included."""
        first = (24 - self.start.hour - self.start.minute / 60) % 24
        return [first + 24 * i for i in range(int((hours - first) // 24) + 1)]

    def short(self, position: int) -> str:
        """Wed 14:00, or with its date 18 Nov 14:00."""
        time = self.time(position)
        return f"{time.day} {MONTHS[time.month - 1]} {time.hour:02}:{time.minute:02}" if self.dated else self.at(position)

    def day(self, position: float) -> str:
        """The day on which an hour lies: Wed, or with its date Wed 18 Nov."""
        time = self.time(position)
        return DAYS[time.weekday()] + (f" {time.day} {MONTHS[time.month - 1]}" if self.dated else "")


def parse(text: str) -> Clock:
    """The start of a week: Mon, Mon 06:00, 2026-11-16 or 2026-11-16T06:00."""
    found = re.fullmatch(r"(?:([A-Za-z]+)|([0-9]{4})-([0-9]{2})-([0-9]{2}))(?:[T ]([0-9]{1,2}):([0-9]{2}))?", text.strip(), re.ASCII)
    if not found:
        raise ValueError("not a weekday or a date")
    name, year, month, day, hour, minute = found.groups()
    clock = datetime.timedelta(hours=int(hour or 0), minutes=int(minute or 0))
    if int(hour or 0) > 23 or int(minute or 0) > 59:
        raise ValueError("not a time of day")
    if not name:
        start = datetime.datetime(int(year), int(month), int(day)) + clock
        start + datetime.timedelta(hours=POSITIONS)
        return Clock(start, True)
    short = [d for d, full in zip(DAYS, ("monday", "tuesday", "wednesday", "thursday", "friday", "saturday", "sunday"))
             if name.lower() in (d.lower(), full)]
    if not short:
        raise ValueError("not a weekday")
    return Clock(MONDAY + datetime.timedelta(days=DAYS.index(short[0])) + clock)
