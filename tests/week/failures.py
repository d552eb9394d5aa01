#!/usr/bin/env python3
"""failures.py: what the weekly program does where its input can't be read or its listing can't be written.

A read that fails prints nothing and says so in one line on standard error; a write that fails says so there; a call that fails is tried
again for about two seconds first. Prints how many cases there were and how many differed.
"""
import fcntl
import os
import pathlib
import subprocess
import sys
import time

ROOT = pathlib.Path(__file__).resolve().parent.parent.parent
PROGRAM = str(ROOT / "target/bin/weektrend")
WEEK, LISTING = (ROOT / "examples/week.bin").read_bytes(), (ROOT / "examples/week.out").read_bytes()
UNREAD, UNWRITTEN = b"weektrend: the input could not be read to its end\n", b"weektrend: the listing could not be written whole\n"
LATE, TOO_LATE = 0.5, 3.5  # seconds: within the tries, and past them


def run(**how):
    """The program with what is given of its three streams: its status, its output, what it says on standard error."""
    given = {"stdin": subprocess.DEVNULL, "stdout": subprocess.PIPE, "stderr": subprocess.PIPE, **how}
    done = subprocess.run([PROGRAM], timeout=60, **given)
    return done.returncode, done.stdout, done.stderr


def closed(*streams, **how):
    """The program with some of its streams closed."""
    return run(preexec_fn=lambda: [os.close(s) for s in streams], **how)


def fed(parts, pause, blocking):
    """The program at a pipe into which the parts are put, with a pause before each but the first."""
    reader, writer = os.pipe()
    os.set_blocking(reader, blocking)
    with subprocess.Popen([PROGRAM], stdin=reader, stdout=subprocess.PIPE, stderr=subprocess.PIPE) as program:
        for i, part in enumerate(parts):
            time.sleep(pause if i else 0)
            os.write(writer, part)
        os.close(reader)
        os.close(writer)
        out, said = program.communicate(timeout=60)
    return program.returncode, out, said


def drained(pause, read_at_all=True):
    """The program at a pipe of 4,096 bytes that doesn't block, which is emptied only after a pause."""
    reader, writer = os.pipe()
    fcntl.fcntl(writer, fcntl.F_SETPIPE_SZ, 4096)
    os.set_blocking(writer, False)
    with open(ROOT / "examples/week.bin", "rb") as week:
        program = subprocess.Popen([PROGRAM], stdin=week, stdout=writer, stderr=subprocess.PIPE)
    os.close(writer)
    if not read_at_all:
        os.close(reader)
        return program.wait(60), b"", program.stderr.read()
    time.sleep(pause)
    out = b""
    while part := os.read(reader, 65536):
        out += part
        time.sleep(0.01)
    os.close(reader)
    return program.wait(60), out, program.stderr.read()


def full(size):
    """The program at an output that takes no byte, with an input of so many bytes of the sample week."""
    with open("/dev/full", "wb") as out:
        return run(input=WEEK[:size], stdin=None, stdout=out)


def cases():
    whole = (0, LISTING, b"")
    yield "the sample week", run(input=WEEK, stdin=None), whole
    yield "no byte at all", run(), (0, b"refused 12\n", b"")
    yield "an input that is closed", closed(0), (0, b"", UNREAD)
    folder = os.open(ROOT, os.O_RDONLY)
    yield "a folder as input", run(stdin=folder), (0, b"", UNREAD)
    os.close(folder)
    yield "a week in two halves", fed([WEEK[:700], WEEK[700:]], LATE, True), whole
    yield "a week byte by byte", fed([WEEK[i : i + 1] for i in range(len(WEEK))], 0, True), whole
    yield "the second half late, without blocking", fed([WEEK[:700], WEEK[700:]], LATE, False), whole
    yield "the second half too late, without blocking", fed([WEEK[:700], WEEK[700:]], TOO_LATE, False), (0, b"", UNREAD)
    yield "4,097 bytes", run(input=bytes(4097), stdin=None), (0, b"refused 11\n", b"")
    yield "more bytes than are read", run(input=bytes(1 << 20), stdin=None), (0, b"refused 11\n", b"")
    yield "a full device", full(len(WEEK)), (0, None, UNWRITTEN)
    yield "a full device, a refusal", full(0), (0, None, UNWRITTEN)
    with open(ROOT / "examples/week.bin", "rb") as week:
        yield "an output that is closed", closed(1, stdin=week), (0, b"", UNWRITTEN)
    yield "an output that nobody reads", drained(0, False), (0, b"", UNWRITTEN)
    yield "an output that is emptied late", drained(LATE), whole
    late = drained(TOO_LATE)
    yield "an output that is emptied too late", (late[0], LISTING.startswith(late[1]) and late[1] != LISTING, late[2]), (0, True, UNWRITTEN)
    yield "input and standard error closed", closed(0, 2), (0, b"", b"")


def main():
    differences = count = 0
    for name, found, wanted in cases():
        count += 1
        if found != wanted:
            differences += 1
            print(f"{name}: {found!r} and not {wanted!r}")
    print(f"{count} cases, {differences} differences")
    sys.exit(1 if differences else 0)


main()
