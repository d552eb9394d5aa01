"""What the tests share: counting, running a command, weeks made at random."""
import os
import random
import struct
import subprocess
import sys

TOOL = os.path.dirname(os.path.dirname(os.path.realpath(__file__)))
ROOT = os.path.dirname(os.path.dirname(TOOL))
PROGRAM = os.environ.get("WEEKTREND") or os.path.join(ROOT, "target", "bin", "weektrend")
EXAMPLES = os.path.join(ROOT, "examples")
SAMPLE, LISTING = os.path.join(EXAMPLES, "week.bin"), os.path.join(EXAMPLES, "week.out")
SILENT = struct.pack("<HH", 2, 2)


class Check:
    """Counts what was compared and what differs."""

    def __init__(self):
        self.cases = self.differences = 0

    def __call__(self, what, good, found=""):
        self.cases += 1
        if not good:
            self.differences += 1
            if self.differences <= 40:
                print(f"differs: {what} {str(found)[-600:]}", flush=True)

    def same(self, what, got, want):
        self(what, got == want, f"\n  got  {got!r:.400}\n  want {want!r:.400}")


def week(*arguments, given=b"", where=ROOT, **variables):
    """Runs the tool: its status, standard output and standard error."""
    run = subprocess.run([sys.executable, TOOL, *arguments], input=given, stdout=subprocess.PIPE, stderr=subprocess.PIPE, cwd=where,
                         env={**os.environ, "WEEKTREND": PROGRAM, **variables})
    return run.returncode, run.stdout.decode("utf-8", "replace"), run.stderr.decode("utf-8", "replace")


def fit(data):
    return subprocess.run([PROGRAM], input=data, stdout=subprocess.PIPE).stdout


def read(*path):
    with open(os.path.join(*path), "rb") as f:
        return f.read()


def write(data, *path):
    with open(os.path.join(*path), "wb") as f:
        f.write(data if isinstance(data, bytes) else data.encode())
    return os.path.join(*path)


def settings(lam=8000.0, tol=1e-8, max_iter=100, order=1, penalty=1):
    return struct.pack("<HHddQBB", 28, 3, lam, tol, max_iter, order, penalty)


def hour(ms):
    return struct.pack("<HHi", 6, 1, ms)


def frames(count, numerator, denominator):
    return struct.pack("<HHiII", 14, 5, count, numerator, denominator)


def correction(position, ms):
    return struct.pack("<HHHi", 8, 4, position, ms)


def some_week(seed):
    """A week that `make` can make: any settings, hours of each kind, corrections at the end."""
    r = random.Random(seed)
    number = lambda: r.choice([10 ** r.uniform(-300, 300), float(r.randrange(10 ** 6)), 0.0, -1.5, float("inf"), float("-inf"), 5e-324])
    out = settings(number(), number(), r.choice([0, 1, 100, 2 ** 64 - 1]), r.choice([1, 2]), r.choice([1, 2]))
    some = lambda: r.choice([0, 1, -1, r.randrange(-9000, 9000), 2 ** 31 - 1, -2 ** 31])
    part = lambda: r.choice([1, 25, 1001, 30000, 2 ** 32 - 1, r.randrange(1, 2 ** 32)])
    slots = r.randrange(0, 169)
    for _ in range(slots):
        out += r.choice([hour(some()), hour(some()), SILENT, frames(some(), part(), part())])
    for _ in range(r.choice([0, 0, 1, 5, 20]) if slots else 0):
        out += correction(r.randrange(slots), some())
    return out


def sample_weeks():
    """Weeks of many shapes that are fitted."""
    r = random.Random(7)
    body = read(SAMPLE)[30:]
    noise = lambda n, at, spread: b"".join(hour(round(r.gauss(at, spread))) for _ in range(n))
    return {
        "sample": read(SAMPLE), "order 2": settings(60000.0, order=2) + body, "penalty 2": settings(20.0, penalty=2) + body,
        "two hours": settings() + SILENT * 60 + hour(12000) + SILENT * 80 + hour(-3000) + SILENT * 26,
        "three, order 2": settings(order=2, lam=1.0) + hour(0) + SILENT + hour(9000) + SILENT * 2 + hour(100),
        "huge": settings(1e6) + b"".join(hour(r.choice([2 ** 31 - 1, -2 ** 31, r.randrange(-2 ** 31, 2 ** 31)])) for _ in range(168)),
        "frames to 2^53": settings(0.0) + frames(2 ** 21, 1, 2 ** 22) + frames(-2 ** 21, 1, 2 ** 22) + frames(100, 30000, 1001) + hour(5),
        "1,013": settings(1000.0) + hour(9000) + SILENT * 1012 + hour(2000), "small": settings(300.0) + noise(168, 0, 50),
        "zero": settings() + hour(0) * 168, "past": settings(3000.0) + noise(80, 9000, 300) + SILENT * 5 + noise(83, -9500, 300),
        "spent": settings(8000.0, max_iter=4) + body, "lam 0": settings(0.0) + body, "flat": settings(1e9) + body,
    }
