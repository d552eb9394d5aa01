"""Reading with a bound, writing all or nothing, and the statuses that a command ends with."""
from __future__ import annotations

import os
import stat

GOOD, REFUSED, FAILED = 0, 1, 2  # fitted or written; refused by the program; something could not be read or written


class Failure(Exception):
    """Something could not be read or written; the text says what, one line for each thing."""


def plain(text: str) -> str:
    """A name or a cell as it can be printed anywhere: bytes that are no text and control characters are written out."""
    text = text.encode("utf-8", "surrogateescape").decode("utf-8", "backslashreplace")
    return "".join(c if c.isprintable() else c.encode("unicode_escape").decode() for c in text)


def why(error: OSError) -> str:
    return error.strerror or type(error).__name__


def settle_streams() -> None:
    """Where standard input, output or error is closed, something that fails takes its place, so that no file gets its number."""
    for number in range(3):
        try:
            os.fstat(number)
        except OSError:
            os.open(os.devnull, os.O_RDONLY if number else os.O_WRONLY)


def say(text: str) -> None:
    """A line on standard error, where there is one."""
    try:
        os.write(2, (text + "\n").encode("utf-8", "backslashreplace"))
    except OSError:
        pass


def out(text: str) -> None:
    """Writes standard output to its end, or fails."""
    pour(1, text.encode("utf-8", "backslashreplace"), "standard output")


def pour(number: int, data: bytes, name: str) -> None:
    try:
        while data:
            data = data[os.write(number, data):]
    except OSError as e:
        raise Failure(f"{name}: cannot be written: {why(e)}") from None


def take(number: int, most: int) -> bytes:
    """What an open file holds, at most one byte more than `most`."""
    parts, left = [], most + 1
    while left:
        part = os.read(number, min(left, 1 << 16))
        if not part:
            break
        parts.append(part)
        left -= len(part)
    return b"".join(parts)


def read(path: str, most: int, regular: bool = False) -> bytes:
    """A file's bytes, at most one more than `most`, so that a longer file shows; "-" is standard input."""
    name = "standard input" if path == "-" else plain(path)
    try:
        if path == "-":
            return take(0, most)
        if regular and not stat.S_ISREG(os.stat(path).st_mode):
            raise Failure(f"{name}: cannot be read: not a regular file")
        number = os.open(path, os.O_RDONLY | os.O_CLOEXEC | (os.O_NONBLOCK if regular else 0))
        try:
            return take(number, most)
        finally:
            os.close(number)
    except OSError as e:
        raise Failure(f"{name}: cannot be read: {why(e)}") from None


def write(path: str, data: bytes) -> None:
    """Writes a file whole or leaves what was there; a device or a pipe is written to as it is, and "-" is standard output."""
    if path == "-":
        return pour(1, data, "standard output")
    name = plain(path) or "a file without a name"
    try:
        mode = os.stat(path).st_mode if os.path.exists(path) else None
        if mode is not None and not stat.S_ISREG(mode):
            number = os.open(path, os.O_WRONLY)
            try:
                pour(number, data, name)
            finally:
                os.close(number)
        else:
            replace(os.path.realpath(path), data, mode, name)
    except OSError as e:
        raise Failure(f"{name}: cannot be written: {why(e)}") from None


def replace(target: str, data: bytes, mode: int | None, name: str) -> None:
    """A new file beside the target takes its place when it is whole."""
    beside = os.path.join(os.path.dirname(target), f".week-{os.getpid()}-{os.urandom(4).hex()}.tmp")
    number = os.open(beside, os.O_WRONLY | os.O_CREAT | os.O_EXCL | os.O_CLOEXEC, 0o666)
    try:
        try:
            if mode is not None:
                os.fchmod(number, stat.S_IMODE(mode))
            pour(number, data, name)
        finally:
            os.close(number)
        os.replace(beside, target)
    except BaseException:
        os.unlink(beside)
        raise


def apart(output: str, *inputs: str | None) -> None:
    """An output that is one of the inputs would destroy it."""
    for path in inputs:
        try:
            if path is not None and path != "-" and os.path.samefile(output, path) and os.path.isfile(path):
                raise Failure(f"{plain(output)}: is read here too; give another name to write to")
        except OSError:
            pass
