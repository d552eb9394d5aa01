"""The commands as they are typed: statuses, what is said, and that nothing is left half written."""
import os
import resource
import signal
import subprocess
import sys
import time

from common import LISTING, PROGRAM, ROOT, SAMPLE, SILENT, TOOL, hour, read, settings, week, write

MAKE = ["make", "t.csv", "--lam", "8000", "-o", "w.bin"]


def files(folder):
    write("ms\n1\n2\n", folder, "t.csv")
    write("hour,ms\n0,5\n", folder, "c.csv")
    write("ms\n1\nx\n", folder, "bad.csv")
    write(b"ms\n1\n\xff\n", folder, "latin.csv")
    write(b"ms\n" + b"1\n" * 600_000, folder, "long.csv")
    write(b"", folder, "empty")
    write(settings() + hour(1) * 2, folder, "good.bin")
    write((settings() + hour(1) * 2)[:-1], folder, "cut.bin")
    write(b"\x00" * 5000, folder, "big.bin")
    write(settings() + SILENT * 2, folder, "few.bin")
    write(read(LISTING)[:-5], folder, "cut.out")
    os.mkdir(os.path.join(folder, "dir"))


def cases():
    """Arguments, the status, a piece of what is said."""
    for name in ("make", "table", "show", "chart", "network"):
        yield [name, "--help"], 0, "exit status"
        yield [name, "--nonsense"], 2, "week"
    yield [], 2, "COMMAND"
    yield ["--help"], 0, "exit status"
    yield ["nonsense"], 2, "invalid choice"
    yield MAKE, 0, ""
    yield [*MAKE, "--corrections", "c.csv"], 0, ""
    for lam in ("nan", "inf", "-inf", "-1", "-1e5", "0", "1e400", " 5 "):
        yield [*MAKE, "--lam", lam, "--tol", lam], 0, ""
    for option, value, said in [("--lam", "x", "not a number"), ("--tol", "", "not a number"), ("--order", "3", "invalid choice"), ("--penalty", "l3", "invalid choice"),
                                ("--max-iter", "-1", "whole number"), ("--max-iter", "18446744073709551616", "whole number"), ("--max-iter", "1.0", "whole number"),
                                ("--rate", "0", "rate"), ("--rate", "25/0", "rate"), ("--rate", "29.97", "rate"), ("--rate", "\u0662\u0665", "rate")]:
        yield [*MAKE, option, value], 2, said
    for option, value in [("--penalty", "l2"), ("--penalty", "2"), ("--order", "2"), ("--max-iter", "0"), ("--max-iter", "18446744073709551615"), ("--rate", "30000/1001")]:
        yield [*MAKE, option, value], 0, ""
    yield ["make", "t.csv", "-o", "w.bin"], 2, "--lam"
    yield ["make", "t.csv", "--lam", "1"], 2, "-o"
    for table, said in [("bad.csv", "row 3, column ms: found 'x'"), ("none.csv", "No such file"), ("dir", "Is a directory"), ("latin.csv", "not UTF-8"), ("long.csv", "longer than"),
                        ("empty", "no column"), ("good.bin", "not UTF-8"), ("/dev/zero", "longer than"), ("/dev/null", "no column")]:
        yield ["make", table, "--lam", "1", "-o", "w.bin"], 2, said
        yield ["make", "t.csv", "--corrections", table, "--lam", "1", "-o", "w.bin"], 2, said if table != "bad.csv" else "no column hour"
    for target, said in [("dir", "Is a directory"), ("none/w.bin", "No such file"), ("/dev/full", "No space"), ("t.csv", "is read here too"), ("", "cannot be written")]:
        yield ["make", "t.csv", "--lam", "1", "-o", target], 2, said
    for name, status, said in [("good.bin", 0, ""), ("cut.bin", 1, "refused 11"), ("big.bin", 1, "refused 11"), ("few.bin", 1, "refused 2"), ("empty", 1, "refused 12"), ("cut.out", 2, "whole listing"),
                               ("t.csv", 2, "week make"), ("none", 2, "No such file"), ("dir", 2, "Is a directory"), ("/dev/zero", 1, "refused 11")]:
        yield ["show", name], status, said
        yield ["chart", name, "-o", "w.svg"], status, said
    yield ["show"], 2, "nothing came"
    yield ["network", "dir", "-o", ""], 2, "the report needs a name"
    for option, value in [("--start", "Mo"), ("--start", "9999-12-31"), ("--mark", "-1"), ("--mark", "nan"), ("--mark", "inf"), ("--mark", "1e16"), ("--mark", "x")]:
        yield ["show", "good.bin", option, value], 2, option
    for option, value in [("--start", "Fri 06:00"), ("--start", "2026-11-16"), ("--mark", "0"), ("--mark", "1e15"), ("--mark", "1e-320"), ("--mark", "0.5")]:
        yield ["show", "good.bin", option, value], 0, ""
        yield ["chart", "good.bin", "-o", "w.svg", option, value], 0, ""
    for target, said in [("dir", "Is a directory"), ("none/w.svg", "No such file"), ("/dev/full", "No space"), ("good.bin", "is read here too")]:
        yield ["chart", "good.bin", "-o", target], 2, said
    for program, said in [("none", "tools/build weektrend"), ("dir", "tools/build weektrend"), ("good.bin", "tools/build weektrend"), ("/bin/true", "printed nothing"), ("/bin/false", "status 1"),
                          ("/bin/cat", "not a whole listing"), ("/usr/bin/yes", "more than a listing")]:
        for command in (["show", "good.bin"], ["chart", "good.bin", "-o", "w.svg"]):
            yield [*command, "--program", program], 2, said
    for name, said in [("cut.bin", "not a week file"), ("empty", "not a week file"), ("t.csv", "not a week file"), ("none", "No such file"), ("dir", "Is a directory"), ("big.bin", "not a week file")]:
        yield ["table", name, "-o", "o.csv"], 2, said
    yield ["table", "good.bin", "-o", "o.csv"], 0, "--lam 8000"
    yield ["table", "good.bin", "-o", "o.csv", "--corrections", "o.csv"], 2, "two names"
    yield ["table", "good.bin", "-o", "good.bin"], 2, "is read here too"
    yield ["table", SAMPLE, "-o", "o.csv"], 2, "1 correction"
    yield ["network", "none", "-o", "r"], 2, "No such file"
    yield ["network", "good.bin", "-o", "r"], 2, "Not a directory"
    yield ["network", "dir", "-o", "r"], 2, "no week file"
    yield ["network", ".", "-o", "."], 2, "folder of its own"
    yield ["network", ".", "-o", "t.csv"], 2, "cannot be written"
    yield ["network", ".", "-o", "r", "--program", "none"], 2, "tools/build weektrend"


def leaves(folder):
    return sorted(name for name in os.listdir(folder) if name.endswith(".tmp"))


def streams(check, folder):
    """Standard output that is full, closed or gone; standard input and error that are closed."""
    tool = f"'{sys.executable}' '{TOOL}'"
    for command, want in [(f"{tool} show '{SAMPLE}' > /dev/full", (2, "No space")), (f"{tool} show '{SAMPLE}' >&-", (2, "Bad file")), (f"{tool} --help > /dev/full", (2, "No space")),
                          (f"{tool} table good.bin -o o.csv > /dev/full", (2, "No space")), (f"{tool} show <&-", (2, "Bad file")), (f"{tool} show none 2>&-", (2, "")),
                          (f"{tool} make t.csv --lam 8000 -o x.bin <&- >&- 2>&- && cmp x.bin w.bin", (0, "")), (f"{tool} --help >&-", (None, "")),
                          (f"{tool} chart good.bin -o a.svg && {tool} chart good.bin -o /dev/stdout | cmp - a.svg", (0, "")),
                          (f"{tool} make t.csv --lam 8000 -o - | cmp - w.bin", (0, "")), (f"{tool} table good.bin -o -", (2, "give the tables names"))]:
        run = subprocess.run(["sh", "-c", command], cwd=folder, stdout=subprocess.PIPE, stderr=subprocess.PIPE, env={**os.environ, "WEEKTREND": PROGRAM})
        errors = run.stderr.decode()
        check(command[-60:], want[0] in (None, run.returncode) and want[1] in errors and "Traceback" not in errors and "Exception" not in errors, (run.returncode, errors))
    reader, writer = os.pipe()
    os.close(reader)
    run = subprocess.run([sys.executable, TOOL, "show", LISTING], stdout=writer, stderr=subprocess.PIPE)
    os.close(writer)
    check("a pipe that nobody reads", run.returncode == 2 and b"Broken pipe" in run.stderr and b"Traceback" not in run.stderr, run)
    for variables in ({"PYTHONIOENCODING": "ascii"}, {"LC_ALL": "C", "PYTHONUTF8": "0"}):
        status, text, errors = week("show", "good.bin", "--title", where=folder, **variables)
        check("usage in another encoding", status == 2 and "Traceback" not in errors, errors)
        status, _, errors = week("make", "bad\u0661.csv", "--lam", "1", "-o", "w.bin", where=folder, **variables)
        check("a name in another encoding", status == 2 and "Traceback" not in errors, errors)


def whole(check, folder):
    """A write that fails leaves the old file and nothing beside it."""
    def small():
        resource.setrlimit(resource.RLIMIT_FSIZE, (1000, 1000))

    for words in (["make", "big.csv", "--lam", "1", "-o", "old"], ["chart", SAMPLE, "-o", "old"], ["table", SAMPLE, "--corrections", "c2.csv", "-o", "old"]):
        write("ms\n" + "1\n" * 168, folder, "big.csv")
        write("before", folder, "old")
        run = subprocess.run([sys.executable, TOOL, *words], cwd=folder, preexec_fn=small, stdout=subprocess.PIPE, stderr=subprocess.PIPE, env={**os.environ, "WEEKTREND": PROGRAM})
        check(f"{words[0]} without room", run.returncode == 2 and b"too large" in run.stderr and b"Traceback" not in run.stderr, run)
        check(f"{words[0]} leaves the old file", read(folder, "old") == b"before" and not leaves(folder), leaves(folder))
    week("make", "bad.csv", "--lam", "1", "-o", "old", where=folder)
    check("a bad cell leaves the old file", read(folder, "old") == b"before")
    os.chmod(os.path.join(folder, "old"), 0o640)
    week(*MAKE[:-1], "old", where=folder)
    check("a new file keeps the mode", os.stat(os.path.join(folder, "old")).st_mode & 0o777 == 0o640 and read(folder, "old") != b"before")
    os.symlink("old", os.path.join(folder, "link"))
    week("make", "big.csv", "--lam", "1", "-o", "link", where=folder)
    check("a link stays a link", os.path.islink(os.path.join(folder, "link")) and len(read(folder, "old")) == 30 + 8 * 168)


def interrupted(check, folder):
    """Ctrl-C ends a command with 130 and no word of where it was."""
    slow = write("#!/bin/sh\nexec sleep 20\n", folder, "slow")
    os.chmod(slow, 0o755)
    os.makedirs(os.path.join(folder, "weeks"))
    for i in range(6):
        write(settings() + hour(1) * 2, folder, "weeks", f"{i}.bin")
    for words in (["show", "good.bin"], ["chart", "good.bin", "-o", "w.svg"], ["network", "weeks", "-o", "r2"]):
        run = subprocess.Popen([sys.executable, TOOL, *words, "--program", slow], cwd=folder, stdout=subprocess.PIPE, stderr=subprocess.PIPE, start_new_session=True)
        time.sleep(0.7)
        os.killpg(run.pid, signal.SIGINT)
        try:
            _, errors = run.communicate(timeout=10)
        except subprocess.TimeoutExpired:
            os.killpg(run.pid, signal.SIGKILL)
            errors = b"it went on"
        check(f"{words[0]} interrupted", run.returncode == 130 and errors == b"week: interrupted\n", (run.returncode, errors))


def run(check, folder):
    files(folder)
    for words, status, said in cases():
        found = week(*words, where=folder)
        check(f"week {' '.join(words)}", found[0] == status and said in found[1] + found[2] and "Traceback" not in found[1] + found[2], found)
    check("nothing is left over", not leaves(folder), leaves(folder))
    check.same("w.bin is whole", week("show", "w.bin", where=folder)[0], 0)
    check("another folder, by its module", subprocess.run([sys.executable, "-m", "week", "show", LISTING], cwd=folder, stdout=subprocess.PIPE,
                                                         env={**os.environ, "PYTHONPATH": os.path.dirname(TOOL)}).stdout == read(ROOT, "tools/week/tests/show.txt"))
    streams(check, folder)
    whole(check, folder)
    interrupted(check, folder)
