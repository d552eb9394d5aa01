"""Calls the proved program. Nothing is ever fitted here."""
from __future__ import annotations

import os
import selectors
import subprocess
import time
from typing import Dict, NamedTuple, Optional, Union

from week import listing, weekfile
from week.files import Failure, plain

SECONDS = 30.0  # a run that takes longer is ended
ERRORS = 4096  # so much of standard error is kept
Answer = Union[listing.Fit, listing.Refusal]
BESIDE = os.path.join("..", "..", "target", "bin", "weektrend")


def find(given: Optional[str]) -> str:
    """The program: the one given, else the one that WEEKTREND names, else the one of the repository."""
    path = given or os.environ.get("WEEKTREND") or os.path.normpath(os.path.join(os.path.dirname(os.path.realpath(__file__)), BESIDE))
    if os.path.isfile(path) and os.access(path, os.X_OK):
        return os.path.abspath(path)
    raise Failure(f"{plain(path)}: no such program; `tools/build weektrend` in the repository makes target/bin/weektrend, "
                  "--program PATH names another")


def collect(process: subprocess.Popen, bounds: Dict[int, int]) -> Dict[int, bytearray]:
    """What comes from some open files until their end, each up to its bound; the process is ended where time or room runs out."""
    got = {number: bytearray() for number in bounds}
    end = time.monotonic() + SECONDS
    with selectors.DefaultSelector() as waiting:
        for number in bounds:
            waiting.register(number, selectors.EVENT_READ)
        while waiting.get_map():
            ready = waiting.select(max(0.0, end - time.monotonic()))
            if not ready:
                process.kill()
                raise Failure(f"the program took longer than {SECONDS:g} seconds")
            for key, _ in ready:
                part = os.read(key.fd, 1 << 16)
                got[key.fd] += part
                if len(got[key.fd]) > bounds[key.fd]:
                    process.kill()
                    raise Failure("the program prints more than a listing")
                if not part:
                    waiting.unregister(key.fd)
    return got


def run(program: str, data: bytes) -> bytes:
    """The listing that the program prints for a week, unread; fails on anything that is not plainly a listing's end."""
    ended, end = os.pipe()  # a pipe that says nothing and ends with the process
    try:
        pipe = subprocess.PIPE
        process = subprocess.Popen([program], stdin=pipe, stdout=pipe, stderr=pipe, bufsize=0, pass_fds=(end,))
    except OSError as e:
        os.close(ended)
        raise Failure(f"{plain(program)}: cannot be run: {e.strerror}") from None
    finally:
        os.close(end)
    try:
        with process:
            try:
                process.stdin.write(data)  # a week fits a pipe
            except BrokenPipeError:
                pass
            process.stdin.close()
            got = collect(process, {process.stdout.fileno(): listing.BYTES, process.stderr.fileno(): ERRORS, ended: 0})
    finally:
        os.close(ended)
    output, errors, _ = map(bytes, got.values())
    return judged(process.returncode, output, errors)


def judged(status: int, output: bytes, errors: bytes) -> bytes:
    """The output of a program that ended well and had nothing to say on standard error."""
    if errors.strip():
        raise Failure(plain(errors.decode("utf-8", "backslashreplace").strip().splitlines()[0]))
    if status:
        raise Failure(f"the program ended with status {status}" if status > 0 else f"the program was ended by signal {-status}")
    if not output:
        raise Failure("the program printed nothing")
    return output


class Fitted(NamedTuple):
    """A week's listing, as printed and as read; and, if the week can be read, its settings and what was measured."""
    printed: bytes
    answer: Answer
    settings: Optional[weekfile.Settings]
    week: Optional[weekfile.Measured]


def fit(program: str, data: bytes) -> Fitted:
    """Runs the program on a week; a fit is held against the week itself."""
    printed = run(program, data)
    answer, split = listing.parse(printed), weekfile.parts(data)
    settings, week = (split[0], weekfile.measured(split[1])) if split else (None, None)
    if isinstance(answer, listing.Fit):
        if week is None:
            raise Failure("the program fitted what is no week file")
        listing.check_against(answer, week)
    return Fitted(printed, answer, settings, week)
