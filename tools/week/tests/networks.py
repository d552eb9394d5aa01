"""A whole network: its report, its order, its statuses, its time, and the page in a browser."""
import csv
import html
import io
import os
import random
import re
import shutil
import subprocess
import sys
import tempfile
import time
from xml.dom import minidom

from common import EXAMPLES, PROGRAM, SILENT, TOOL, fit, hour, read, settings, week, write
from week import listing

STRANDS, SECONDS = 400, 3.0


def station(seed):
    """168 hours of a station that drifts, some with a step, a silent night, a low step limit."""
    r = random.Random(seed)
    level, at, jump = r.choice([500, 1500, 3000, 5000, 7500, -2000]), r.randrange(20, 150), r.choice([0, 0, 0, 2500, -3000, -7000, 4000])
    hours = [hour(round(level + 4 * h + (jump if h > at else 0) + r.gauss(0, 260))) for h in range(168)]
    if seed % 5 == 0:
        hours[73:77] = [SILENT] * 4
    return settings(8000.0, max_iter=4 if seed % 31 == 7 else 100, order=2 if seed % 4 == 3 else 1) + b"".join(hours)


def network(*words):
    return week("network", *words)


def rows(report):
    return list(csv.DictReader(io.StringIO(read(report, "summary.csv").decode())))


def all_fitted(check, folder, report):
    """400 strands: the best of three times, a listing each, the page."""
    times = []
    for _ in range(3):
        shutil.rmtree(report, ignore_errors=True)
        begun = time.monotonic()
        status, _, errors = network(folder, "-o", report)
        times.append(time.monotonic() - begun)
        if times[-1] < SECONDS:
            break
    print(f"{STRANDS} strands in {min(times):.2f} seconds")
    check(f"{STRANDS} strands in {SECONDS} seconds", min(times) < SECONDS, times)
    check("all fitted", status == 0 and errors.count("\n") == 1 and "\r" not in errors and "0 refused" in errors, (status, errors))
    for i in range(0, STRANDS, 9):
        check(f"listing {i}", read(report, "listings", f"s{i:03}.bin.txt") == fit(read(folder, f"s{i:03}.bin")))
    check("a listing each", len(os.listdir(os.path.join(report, "listings"))) == STRANDS)
    page = read(report, "index.html").decode()
    charts = re.findall(r'(?s)<svg class="chart".*?</svg>', page)
    check("a chart each", len(charts) == page.count("<svg") == STRANDS, len(charts))
    check("charts are well formed", all(minidom.parseString(c) for c in charts[::20]))
    outside = [x for x in re.findall(r'(?:href|src)="?([^"> ]*)', page) if not x.startswith(("#", "listings/", "data:,"))]
    check("nothing from elsewhere", not outside and "<script" not in page and "url(" not in page and "@import" not in page, outside)
    before = read(report, "index.html"), read(report, "summary.csv")
    network(folder, "-o", report)
    check("the same again", before == (read(report, "index.html"), read(report, "summary.csv")))
    numbers(check, folder, report)


def numbers(check, folder, report):
    """The summary against the listings, and what needs attention first."""
    found = rows(report)
    for row in found:
        answer = listing.parse(read(report, "listings", row["file"] + ".txt"))
        past = sum(abs(h.trend) > 8000 for h in answer.hours)
        top = max((h.trend for h in answer.hours), key=abs)
        check.same(f"summary of {row['file']}", [row[k] for k in ("hours", "knots", "reason", "hours_past", "largest_overrun_ms", "state")],
                   [str(answer.n), str(len(answer.knots)), str(answer.reason), str(past), f"{top:.1f}", "fitted" if answer.converged else "not settled"])
        at = next(h for h in answer.hours if f"{h.trend:.1f}" == f"{top:.1f}")
        check.same(f"where, of {row['file']}", row["at_hour"], str(at.position))
    order = [(row["state"] == "fitted", -int(row["hours_past"]), -abs(float(row["largest_overrun_ms"]))) for row in found]
    check("not settled, then past, then largest", order == sorted(order) and not order[0][0] and order[-1][0] and any(o[1] for o in order))
    page = read(report, "index.html").decode()
    check("the page in the same order", re.findall(r'<h3>(.*?)</h3>', page) == [row["station"] for row in found])


def damage(folder):
    """Files that cannot be read, and weeks that are refused, beside the others."""
    good = station(1)
    write(good[:777], folder, "cut.bin")
    write(b"", folder, "empty.bin")
    write(b"\0" * 100_000, folder, "big.week")
    write(settings(-1.0) + good[30:], folder, "lam.bin")
    os.mkdir(os.path.join(folder, "dir.bin"))
    os.mkfifo(os.path.join(folder, "fifo.bin"))
    os.symlink("nowhere", os.path.join(folder, "gone.bin"))
    os.symlink("/dev/zero", os.path.join(folder, "zero.bin"))
    write(good, folder, "<b>&\".bin")
    write(good, os.fsencode(folder), b"\xff\xfe.bin")
    write(good, folder, "new\nline.week")
    write(good, folder, "x" * 250 + ".bin")
    write(good, folder, "twice.bin")
    write("ms\n1\n2\n3\n", folder, "twice.csv")
    write("ms\n1\nx\n", folder, "bad.csv")
    shutil.copy(os.path.join(EXAMPLES, "week.csv"), os.path.join(folder, "sample.csv"))
    shutil.copy(os.path.join(EXAMPLES, "corrections.csv"), os.path.join(folder, "sample.corrections.csv"))
    write("hour,ms\n0,1\n", folder, "alone.corrections.csv")
    write("notes", folder, "notes.txt")
    write(good, folder, ".hidden.bin")


def damaged(check, folder):
    """One damaged file never stops the others."""
    report = os.path.join(folder, "report.bin")  # within the folder, and named like a week
    damage(folder)
    os.makedirs(os.path.join(report, "listings"))
    write("fit of last week", report, "listings", "gone.bin.txt")
    status, _, errors = network(folder, "-o", report, "--lam", "8000", "--rate", "25")
    check("status 2", status == 2 and "Traceback" not in errors and "2 other files left alone" in errors, (status, errors))
    found = {row["file"]: row for row in rows(report)}
    unread = {"dir.bin", "fifo.bin", "gone.bin", "zero.bin", "bad.csv", "alone.corrections.csv", "x" * 250 + ".bin"}
    refused = {"cut.bin": "11", "empty.bin": "12", "big.week": "11", "lam.bin": "5"}
    check.same("not read or written", {n for n, row in found.items() if row["state"] == "not read or written"}, unread)
    check.same("refused", {n: re.match(r"refused (\d+):", row["said"]).group(1) for n, row in found.items() if row["state"] == "refused"}, refused)
    states = [row["state"] for row in rows(report)]
    rank = {"not read or written": 0, "refused": 1, "not settled": 2, "fitted": 3}
    check("in their order", [rank[s] for s in states] == sorted(rank[s] for s in states))
    check("the sample by its tables", read(report, "listings", "sample.csv.txt") == read(EXAMPLES, "week.out"))
    check("two of one name", found["twice.bin"]["station"] == "twice.bin" and read(report, "listings", "twice.bin.txt") != read(report, "listings", "twice.csv.txt"))
    check("a bad cell is named", "bad.csv: row 3, column ms: found 'x'" == found["bad.csv"]["said"].split(",")[0] + "," + found["bad.csv"]["said"].split(",")[1], found["bad.csv"])
    check("no old listing for what failed", not os.path.exists(os.path.join(report, "listings", "gone.bin.txt")))
    check("nothing is left over", not [n for f in (report, os.path.join(report, "listings")) for n in os.listdir(f) if n.endswith(".tmp")])
    page = read(report, "index.html").decode()
    check("names are written as text", "<b>&" not in page and html.escape('<b>&"') in page and "\\xff\\xfe" in page and "new\\nline" in page)
    check("a chart for each", page.count("<svg") == len(found) == STRANDS + 4 + 7 + 6, (page.count("<svg"), len(found)))
    check("their links", all(os.path.exists(os.path.join(os.fsencode(report), link)) for link in links(page)) and len(links(page)) == len(found) - len(unread))
    return report


def links(page):
    from urllib.parse import unquote_to_bytes
    return sorted({unquote_to_bytes(html.unescape(x)) for x in re.findall(r'href="(listings/[^"]*)"', page)})


def statuses(check, folder):
    """0 all fitted, 1 some refused, 2 something not read or written."""
    some, report = os.path.join(folder, "some"), os.path.join(folder, "some report")
    os.mkdir(some)
    write(station(1), some, "a.bin")
    check.same("all fitted", network(some, "-o", report)[0], 0)
    write(b"", some, "b.bin")
    check.same("one refused", network(some, "-o", report)[0], 1)
    write("ms\n1\n2\n", some, "c.csv")
    check.same("a table without --lam", network(some, "-o", report)[0], 2)
    check.same("with it", network(some, "-o", report, "--lam", "5")[0], 1)
    status, _, errors = network(some, "-o", report, "--lam", "5", "--program", "/bin/false")
    check("a program that fails", status == 2 and "3 not read or written" in errors, (status, errors))
    shutil.rmtree(os.path.join(report, "listings"))
    write("", report, "listings")
    check.same("no folder for listings", network(some, "-o", report, "--lam", "5")[0], 2)
    os.unlink(os.path.join(report, "listings"))
    os.unlink(os.path.join(report, "index.html"))
    os.mkdir(os.path.join(report, "index.html"))
    check.same("no place for the page", network(some, "-o", report, "--lam", "5")[0], 2)
    run = subprocess.run([sys.executable, "-c", LOST, os.path.dirname(TOOL), some, PROGRAM], stdout=subprocess.PIPE, stderr=subprocess.PIPE)
    check("a process that is lost", run.stdout == b"3 1\n", run)


# a process of the two is ended before it has done anything; its strands are fitted all the same
LOST = """
import os, signal, sys
sys.path.insert(0, sys.argv[1])
from week import clock, network, weekfile
work, network.work = network.work, lambda job, share, number: os.kill(os.getpid(), signal.SIGKILL)
job = network.Job(sys.argv[3], weekfile.Settings(5.0, 1e-8, 100, 1, 1), None, clock.Clock(), 8000.0)
os.makedirs(sys.argv[2] + "/r/listings")
found, others = network.entries(sys.argv[2], sys.argv[2] + "/r")
strands = network.spread(job, found)
print(len(strands), sum(s.state == 1 for s in strands))
"""


def browser(check, report, number):
    """The page in a browser: it opens, has its charts, and no script error; a page with one shows that this would be seen."""
    name = next((n for n in ("chromium", "chromium-browser", "google-chrome") if shutil.which(n)), None)
    if name is None:
        print("no browser is installed: the page was not opened")
        return
    with tempfile.TemporaryDirectory() as profile:
        broken = write(read(report, "index.html").replace(b"</body>", b"<script>nothing()</script></body>"), profile, "broken.html")
        for path, good in [(os.path.join(report, "index.html"), True), (broken, False)]:
            run = subprocess.run([name, "--headless", "--no-sandbox", "--disable-gpu", f"--user-data-dir={profile}/p", "--enable-logging=stderr", "--v=0", "--dump-dom",
                                  "file://" + path], stdout=subprocess.PIPE, stderr=subprocess.PIPE, timeout=120)
            page, errors = run.stdout.decode("utf-8", "replace"), run.stderr.decode("utf-8", "replace")
            check("the page opens", run.returncode == 0 and "</html>" in page and "week&#39;s trends" not in page and "the week's trends" in page, errors[-300:])
            check("it has its charts", page.count('<svg class="chart"') == number, page.count("<svg"))
            check("no script error" if good else "a script error would be seen", ("CONSOLE" not in errors) == good, errors[-300:])


def progress(check, folder):
    """On a terminal the progress is one line that is written over."""
    import pty
    parent, child = pty.openpty()
    run = subprocess.Popen([sys.executable, TOOL, "network", folder, "-o", os.path.join(folder, "tty"), "--program", PROGRAM, "--lam", "5"], stderr=child, stdout=subprocess.PIPE)
    os.close(child)
    text = b""
    while True:
        try:
            part = os.read(parent, 4096)
        except OSError:
            break
        if not part:
            break
        text += part
    run.wait()
    os.close(parent)
    check("progress", b"\r1 of 3" in text and b"\r3 of 3" in text and text.count(b"\n") == 2 and text.startswith(b"week: note: 2 week files"), text)


def again(check, folder):
    """A second report over an old one, corrections by their own names, settings of week files, and scales of small and large strands."""
    weeks, report = os.path.join(folder, "again"), os.path.join(folder, "again", "report")
    os.mkdir(weeks)
    for name in ("a.bin", "b.bin"):
        write(station(1), weeks, name)
    network(weeks, "-o", report)
    os.unlink(os.path.join(weeks, "b.bin"))
    write("notes of an editor", report, "listings", "notes.txt")
    status, _, errors = network(weeks, "-o", report)
    check("nothing of before", status == 0 and "note" not in errors and sorted(os.listdir(os.path.join(report, "listings"))) == ["a.bin.txt", "notes.txt"], errors)
    for name, ms in (("A", 100), ("a", 900)):
        write("ms\n1\n2\n3\n", weeks, name + ".csv")
        write(f"hour,ms\n0,{ms}\n", weeks, name + ".corrections.csv")
    write(settings(0.0) + b"".join(hour(h % 7) for h in range(24)), weeks, "quiet.bin")
    write(settings(0.0) + b"".join(hour(-10_000_000 * h) for h in range(24)), weeks, "far.bin")
    status, _, errors = network(weeks, "-o", report, "--lam", "0", "--order", "2")
    first = {name: listing.parse(read(report, "listings", name + ".csv.txt")).hours[0].trend for name in "Aa"}
    check.same("corrections by their own names", first, {"A": 100.0, "a": 900.0})
    check("settings of their own are told", status == 0 and "note: 3 week files with settings of their own" in errors, errors)
    used = {row["file"]: (row["lam"], row["order"]) for row in rows(report)}
    check.same("the settings that were used", used, {"A.csv": ("0.0", "2"), "a.csv": ("0.0", "2"), "a.bin": ("8000.0", "1"), "quiet.bin": ("0.0", "1"), "far.bin": ("0.0", "1")})
    cards = {name: card for name, card in re.findall(r"(?s)<h3>(.*?)</h3>(.*?)</article>", read(report, "index.html").decode())}
    check("a quiet strand has the marks", 'class="marks"' in cards["quiet"] and 'class="marks"' in cards["a.bin"])
    check("a strand far beyond has its size", 'class="marks"' not in cards["far"] and "to \u2212230,000 s" in cards["far"], cards["far"][:900])


def run(check, folder):
    weeks, report = os.path.join(folder, "weeks"), os.path.join(folder, "report")
    os.mkdir(weeks)
    for i in range(STRANDS):
        write(station(i), weeks, f"s{i:03}.bin")
    all_fitted(check, weeks, report)
    browser(check, report, STRANDS)
    damaged(check, weeks)
    statuses(check, folder)
    again(check, folder)
    progress(check, os.path.join(folder, "some"))
