"""Tables to week files and back."""
import os
import random

from common import EXAMPLES, SAMPLE, SILENT, correction, frames, hour, read, settings, some_week, week, write
from week import arguments, commands, weekfile
from week import tables as t
from week.files import Failure

SETTINGS = weekfile.Settings(8000.0, 1e-8, 100, 1, 1)
H, S = hour, SILENT
# a table, the rate, the records that it says
GOOD = [
    ("ms\n5\n-7\n", None, H(5) + H(-7)),
    ("ms\n5\n\n7\n", None, H(5) + S + H(7)),  # an empty line is a silent hour
    ("ms\n5\n\n\n", None, H(5)),  # but not at the end
    ("ms\n5\n  \n", None, H(5)),
    ('ms\n5\n""\n', None, H(5) + S),  # a blank cell is one there too
    ("ms,note\n5,x\n,off air\n7,\n", None, H(5) + S + H(7)),
    ("ms,note\n5,x\n,\n", None, H(5) + S),
    ("MS;Note\n5;x, y\n;\n7\n", None, H(5) + S + H(7)),
    ("note\tMs\nx\t+5\n", None, H(5)),
    ("\ufeffms\r\n5\r\n7\r\n", None, H(5) + H(7)),
    ("ms\r5\r7\r", None, H(5) + H(7)),
    ("ms,day,,\n 5 ,Mon,,\n", None, H(5)),
    ('ms,note\n5,"two\nlines, quoted"\n6,\n', None, H(5) + H(6)),
    ("ms\n2147483647\n-2147483648\n0000000000000000000012\n", None, H(2 ** 31 - 1) + H(-2 ** 31) + H(12)),
    ("frames\n107\n\n-3\n", (25, 1), frames(107, 25, 1) + S + frames(-3, 25, 1)),
    ("frames,rate\n107,\n5,30000/1001\n", (25, 1), frames(107, 25, 1) + frames(5, 30000, 1001)),
    ("frames,rate,ms\n107,25,\n,25,9\n", None, frames(107, 25, 1) + H(9)),
    ("hour,ms\n2,7\n0,5\n", None, H(5) + S + H(7)),
    ("hour,ms\n0,5\n3,\n", None, H(5) + S * 3),
    ("hour,ms\n0,5\n,\n\n1,6\n", None, H(5) + H(6)),  # rows that name no hour and say nothing
    ("ms\n", None, b""),
    ("ms\n" + "1\n" * 168, None, H(1) * 168),
    ("ms,n\n" + ",\n" * 1016, None, S * 1016),
    ("hour,ms\n1015,\n", None, S * 1016),
]
# a table, and a piece of what is said of it
BAD = [
    ("ms\n5\n1.5\n", "row 3, column ms: found '1.5', expected whole milliseconds from -2147483648 to 2147483647"),
    ("ms\n1e3\n", "row 2, column ms: found '1e3'"), ("ms\n1 000\n", "row 2, column ms: found '1 000'"),
    ("ms\n\u0661\u0662\n", "row 2, column ms: found '\u0661\u0662'"), ("ms\n\u22125\n", "row 2, column ms"), ("ms\n--5\n", "row 2, column ms"),
    ("ms\n2147483648\n", "row 2, column ms"), ("ms\n-2147483649\n", "row 2, column ms"), ("ms\n" + "9" * 5000 + "\n", "row 2, column ms"),
    ("ms\nn/a\n", "found 'n/a'"), ("day,ms\nMon,1\nTue,x\nWed,y\n", "row 3, column ms: found 'x'"),
    ("day,ms\nMon,1\nTue,x\nWed,y\n", "row 4, column ms: found 'y'"),
    ("ms,frames,rate\n5,6,25\n", "row 2, column frames: found '6', expected a blank cell"),
    ("frames\n6\n", "row 2, column frames: found '6', but no rate"), ("frames,rate\n6,29.97\n", "row 2, column rate: found '29.97'"),
    ("frames,rate\n6,0\n", "column rate"), ("frames,rate\n6,25/0\n", "column rate"), ("frames,rate\n6,0/25\n", "column rate"),
    ("frames,rate\n6,4294967296\n", "column rate"), ("frames,rate\n6,25/1/1\n", "column rate"), ("frames,rate\n6,-25\n", "column rate"),
    ("frames,rate\n6,25/\n", "column rate"), ("ms,rate\n6,x\n", "row 2, column rate"), ("frames,rate\n6.5,25\n", "row 2, column frames: found '6.5'"),
    ("hour,ms\n0,5\n0,6\n", "row 3, column hour: found '0', which row 2 says already"), ("hour,ms\n,5\n", "row 2, column hour: found a blank cell"),
    ("hour,ms\n-1,5\n", "row 2, column hour"), ("hour,ms\n1016,5\n", "row 2, column hour: found '1016'"), ("hour,ms\nMon,5\n", "row 2, column hour: found 'Mon'"),
    ("a,b\n1,2\n", "row 1: no column ms or frames; found a, b"), ("", "no column ms or frames; found no names"), ("\n5\n", "no column ms or frames"),
    ("ms,note,MS\n1,2,3\n", "row 1: column ms stands there twice"), ("note,ms,Note\n", "column note stands there twice"),
    ("ms\n1,000\n", "row 2, column 2: found '000', the header has 1 columns"), ("ms\n1\x00\n", "has a byte 0"),
    ('ms,note\n1,"open\n2,\n', "is not a table"), ("ms\n" + "1\n" * 169, "row 170: more than 168 hours"),
    ("ms,n\n" + ",\n" * 1017, "row 1018: the file gets longer than 4096 bytes here"),
    ("hour,ms\n1015,5\n", "row 2: the file gets longer than 4096 bytes"),
    ("frames,rate\n" + "1,25\n" * 168 + ",\n" * 400, "the file gets longer"),
]
CORRECTED = [  # a table, its corrections, the records or a piece of what is said
    ("ms\n5\n\n7\n", "hour,ms\n1,9\n0,4\n1,8\n", H(5) + S + H(7) + correction(1, 9) + correction(0, 4) + correction(1, 8)),
    ("ms\n5\n", "ms;note;hour\n9;;0\n;;\n", H(5) + correction(0, 9)), ("ms\n5\n", "hour,ms\n", H(5)),
    ("ms\n5\n", "hour,ms\n1,9\n", "corr: row 2, column hour: found '1', but the week's hours end with 0"),
    ("ms\n5\n", "hour,ms\n0,\n", "corr: row 2, column ms: found a blank cell"), ("ms\n5\n", "hour,ms\n,5\n", "corr: row 2, column hour: found a blank"),
    ("ms\n5\n", "hour,ms\n0,1.0\n", "corr: row 2, column ms: found '1.0'"), ("ms\n5\n", "hour\n0\n", "corr: row 1: no column ms"),
    ("ms\n5\n", "ms\n0\n", "corr: row 1: no column hour"), ("ms\nx\n", "hour,ms\n0,y\n", "corr: row 2, column ms: found 'y'"),
    ("hour,ms\n0,x\n", "hour,ms\n0,1\n", "t: row 2, column ms"),
    ("ms,n\n" + "1,\n" * 168 + ",\n", "hour,ms\n168,5\n", "corr: row 2: more than 168 hours"),
    ("ms,n\n" + "1,\n" * 168 + ",\n", "hour,ms\n167,5\n167,6\n", H(1) * 168 + S + correction(167, 5) + correction(167, 6)),
    ("ms,n\n" + ",\n" * 1015, "hour,ms\n0,5\n", "corr: row 2: the file gets longer than 4096 bytes here"),
]


def made(table, corrections=None, rate=None):
    try:
        corr = ("corr", corrections.encode()) if corrections is not None else None
        return t.week(("t", table.encode()), corr, SETTINGS, rate)[30:]
    except Failure as e:
        return str(e)


def again(data):
    """A week file through its tables and options, as `table` and `make` do it."""
    given, records = weekfile.parts(data)
    typed = arguments.parse(["make", "t", "-o", "w", *commands.options(given).split()])
    hours, corrections = t.tables_of(records)
    return t.week(("t", hours), ("c", corrections), commands.settings_of(typed), typed.rate)


def by_command(check, folder):
    """The sample week, both ways, by the commands."""
    out, csv, corr = (os.path.join(folder, name) for name in ("w.bin", "t.csv", "c.csv"))
    tables = [os.path.join(EXAMPLES, "week.csv"), "--corrections", os.path.join(EXAMPLES, "corrections.csv")]
    check.same("make the sample", week("make", *tables, "--rate", "25", "--lam", "8000", "--order", "1", "--penalty", "l1", "--tol", "1e-8",
                                       "--max-iter", "100", "-o", out), (0, "", ""))
    check.same("the sample week", read(out), read(SAMPLE))
    status, options, errors = week("table", SAMPLE, "-o", csv, "--corrections", corr)
    check.same("table of the sample", (status, options, errors), (0, "--lam 8000 --order 1 --penalty l1 --tol 1e-08 --max-iter 100\n", ""))
    os.unlink(out)
    check.same("make of its tables", week("make", csv, "--corrections", corr, "-o", out, *options.split())[0], 0)
    check.same("the sample week again", read(out), read(SAMPLE))
    odd = {"the order of the records": settings() + H(5) + correction(0, 6) + H(7), "cannot take these settings": settings(order=7) + H(5),
           "refuses these tables": settings() + frames(1, 0, 1)}
    for said, data in odd.items():
        status, _, errors = week("table", write(data, folder, "odd.bin"), "-o", csv, "--corrections", corr)
        check(f"table says {said}", status == 0 and said in errors, (status, errors))
    status, _, errors = week("table", SAMPLE, "-o", os.path.join(folder, "none.csv"))
    check("corrections need their place", status == 2 and "--corrections" in errors and not os.path.exists(os.path.join(folder, "none.csv")), errors)


def run(check, folder):
    for table, rate, want in GOOD:
        check.same(f"table {table[:40]!r}", made(table, rate=rate), want)
    for table, want in BAD:
        found = made(table)
        check(f"bad table {table[:40]!r}", isinstance(found, str) and want in found, found)
    for table, corrections, want in CORRECTED:
        found = made(table, corrections)
        check(f"corrections {corrections[:40]!r}", want in found if isinstance(want, str) and isinstance(found, str) else found == want, found)
    faults = made("ms\n" + "x\n" * 50)
    check("many bad cells", isinstance(faults, str) and faults.count("row ") == 20 and faults.endswith("and 30 more"), faults)
    for seed in range(400):
        data = some_week(seed)
        if len(data) <= 4096 and sum(kind in (1, 5) for kind, _ in weekfile.split(data)) <= 120:
            check.same(f"week {seed} through its tables", again(data), data)
    r = random.Random(11)
    for _ in range(2000):
        text = bytearray(read(EXAMPLES, "week.csv")[:r.choice([40, 200, 5000])])
        for _ in range(r.choice([1, 3, 10])):
            at = r.randrange(len(text))
            text[at:at + r.randrange(4)] = r.choice([b",", b'"', b"\n", b"\r", b"-", b"9", b"x", b"\xff", b"\0", b";", b"\t", b" ", b"ms", b"hour"])
        found = made(bytes(text).decode("latin-1"), rate=(25, 1))
        check("a table at random", isinstance(found, str) or weekfile.split(found) is not None)
    by_command(check, folder)
