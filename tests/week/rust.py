#!/usr/bin/env python3
"""rust.py COUNT SEED ORACLE [PROGRAM]: whole listings of random weeks, held to the Rust's answers.

The inputs are those of fuzz.py; of COUNT seeds from SEED on, those that reach the fit are used. The series of each, frames turned into
milliseconds (document 02, A14), corrections made (A8) and silent hours left out, is fitted by the Rust (ORACLE is the program of
oracle/). The listing is written here from that answer, each index of the Rust's mapped to the position of its hour (A1), and must be
what PROGRAM prints, byte by byte.
PROGRAM is target/bin/weektrend unless it is given. The last line counts, the weeks with corrections and those with hours in frames
too; the exit status is 0 only if all agree.
"""
import pathlib
import struct
import subprocess
import sys
import tempfile

import fuzz


def case(series, settings):
    """A stored case, as the head of oracle/src/stored.rs says: a TFC1, since no listing has the dual point."""
    lam, tol, limit, order, penalty = settings
    n = len(series)
    head = struct.pack("<4sBBH6I", b"TFC1", order, penalty, 0, n, n, n, n, 40 * n, 2 * n)
    return head + struct.pack("<ddQ", lam, tol, limit) + b"".join(struct.pack("<d", y) for _, y in series)


def listing(answer, positions):
    """The listing of a stored answer: the Rust's indices become positions."""
    if answer.startswith("refused"):
        return answer.encode()
    fit, num, _, *rest = [line.split() for line in answer.splitlines()]
    lines = [fit[:-1], [num[1], num[2], num[5]]] + [[word, str(positions[int(i)]), *doubles] for word, i, *doubles in rest]
    return "".join(" ".join(line) + "\n" for line in lines).encode()


def main():
    if not 4 <= len(sys.argv) <= 5:
        sys.exit(__doc__)
    count, first = int(sys.argv[1]), int(sys.argv[2])
    program = sys.argv[4] if len(sys.argv) > 4 else "target/bin/weektrend"
    weeks = {}
    with tempfile.TemporaryDirectory() as name:
        folder = pathlib.Path(name)
        for seed in range(first, first + count):
            data = fuzz.made(seed)
            want = fuzz.expected(data)
            if not isinstance(want, int):
                series, settings = want
                weeks[seed] = data, [p for p, _ in series]
                (folder / f"{seed}.case").write_bytes(case(series, settings))
        subprocess.run([sys.argv[3], "answers", folder], check=True, stdout=subprocess.DEVNULL)
        wrong = 0
        for seed, (data, positions) in weeks.items():
            run = subprocess.run([program], input=data, capture_output=True, timeout=60)
            if run.stdout != listing((folder / f"{seed}.exp").read_text(), positions) or run.stderr or run.returncode != 0:
                wrong += 1
                print(f"input {seed}: another listing than the Rust's")
    corrected, framed = [sum(fuzz.has_kind(data, kind) for data, _ in weeks.values()) for kind in (4, 5)]
    print(f"{len(weeks) - wrong} of {len(weeks)} listings are the Rust's; {corrected} are of weeks with corrections, {framed} of weeks with hours in frames")
    sys.exit(1 if wrong or not weeks else 0)


main()
