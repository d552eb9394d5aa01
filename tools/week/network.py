"""Every week of a folder, over the cores: a listing each, one summary table, one page."""
from __future__ import annotations

import os
import pickle
import selectors
import signal
import struct
import time
from collections import Counter
from typing import Dict, Iterator, List, NamedTuple, Optional, Sequence, Tuple

from week import files, listing, page, program, tables, weekfile, words
from week.clock import Clock
from week.files import FAILED, GOOD, Failure, plain
from week.page import FITTED, REFUSED, UNREAD, UNSETTLED, Strand

WEEKS, TABLE, CORRECTIONS = (".bin", ".week"), ".csv", ".corrections.csv"
LENGTH = struct.Struct("<I")


class Job(NamedTuple):
    """What holds for every strand."""
    program: str
    settings: Optional[weekfile.Settings]
    rate: Optional[tables.Rate]
    clock: Clock
    mark: float


class Entry(NamedTuple):
    """A file of the folder, the table of its corrections, and where its listing goes."""
    path: str
    corrections: Optional[str]
    station: str
    output: str


def entries(folder: str, report: str) -> Tuple[List[Entry], int]:
    """What is to be fitted, and how many other files there are."""
    try:
        names = sorted(os.listdir(folder))
    except OSError as e:
        raise Failure(f"{plain(folder)}: cannot be read: {files.why(e)}") from None
    place = os.path.realpath(report)
    names = [name for name in names if os.path.realpath(os.path.join(folder, name)) != place]
    beside = {name.lower(): name for name in names}
    beside.update((name, name) for name in names)  # a name as it is goes before one in other letters
    chosen, others = [], 0
    for name in names:
        if name.startswith(".") or not name.lower().endswith(WEEKS + (TABLE,)):
            others += 1
        elif not name.lower().endswith(CORRECTIONS) or name.lower()[:-len(CORRECTIONS)] + TABLE not in beside:
            chosen.append(name)  # corrections without their table are an entry, which fails
    stems = [os.path.splitext(name)[0] for name in chosen]
    times, found = Counter(stems), []
    for name, stem in zip(chosen, stems):
        exact = stem + CORRECTIONS
        own = beside.get(exact, beside.get(exact.lower())) if name.lower().endswith(TABLE) else None
        station = plain(name if times[stem] > 1 else stem)
        listed = os.path.join(report, "listings", name + ".txt")
        found.append(Entry(os.path.join(folder, name), own and os.path.join(folder, own), station, listed))
    return found, others


def week_of(job: Job, entry: Entry) -> bytes:
    """The week file of an entry, read or made from its table."""
    if not entry.path.lower().endswith(TABLE):
        return files.read(entry.path, weekfile.BYTES, regular=True)
    if entry.path.lower().endswith(CORRECTIONS):
        raise Failure(f"{plain(entry.path)}: the table that it corrects is not there")
    if job.settings is None:
        raise Failure(f"{plain(entry.path)}: a table needs --lam")
    corrections = tables.source(entry.corrections, regular=True) if entry.corrections else None
    return tables.week(tables.source(entry.path, regular=True), corrections, job.settings, job.rate)


def fitted(job: Job, entry: Entry) -> Strand:
    """Fits one strand and, when all is known of it, writes its listing."""
    done = program.fit(job.program, week_of(job, entry))
    one = told(job, entry, done)
    files.write(entry.output, done.printed)
    return one


def told(job: Job, entry: Entry, done: program.Fitted) -> Strand:
    """What is said of a strand that was fitted or refused, and its chart."""
    name, answer, week = os.path.basename(entry.path), done.answer, done.week
    if isinstance(answer, listing.Refusal):
        said = f"refused {answer.number}"
        drawn = page.chart(week, None, job.clock, job.mark, said)
        return Strand(name, entry.station, REFUSED, f"{said}: {words.refused(answer.number)[0]}", drawn)
    top, past = words.largest(answer), words.past(answer.hours, job.mark)
    said = "" if answer.converged else f"not settled, reason {answer.reason}: {words.REASONS[answer.reason][0]}"
    tells = f"{entry.station}: {answer.n} hours, {len(answer.knots)} knots, {past} hours past the mark"
    drawn = page.chart(week, answer, job.clock, job.mark, tells)
    return Strand(name, entry.station, FITTED if answer.converged else UNSETTLED, said, drawn, answer.n, len(answer.knots), answer.reason,
                  top.trend, top.position, past, done.settings.lam, answer.order)


def strand(job: Job, entry: Entry) -> Strand:
    """What becomes of one entry, whatever it holds: no file stops the others."""
    try:
        return fitted(job, entry)
    except Exception as e:  # whatever it is, it is this strand's alone
        said = str(e) if isinstance(e, Failure) else f"{plain(entry.path)}: {type(e).__name__}: {plain(str(e))}"
    said = said.replace(plain(os.path.join(os.path.dirname(entry.path), "")), "")  # the folder's name is no news
    drawn = page.chart(None, None, job.clock, job.mark, "no listing")
    return Strand(os.path.basename(entry.path), entry.station, UNREAD, "; ".join(said.splitlines()), drawn)


def work(job: Job, share: Sequence[Tuple[int, Entry]], number: int) -> None:
    """One process's share; each strand is sent as soon as it is done."""
    signal.signal(signal.SIGINT, signal.SIG_DFL)
    for i, entry in share:
        data = pickle.dumps((i, strand(job, entry)))
        files.pour(number, LENGTH.pack(len(data)) + data, "a pipe")


def start(job: Job, share: Sequence[Tuple[int, Entry]]) -> Tuple[int, int]:
    """A process with a share of the strands: its id, and where its strands come from."""
    come, go = os.pipe()
    process = os.fork()
    if process:
        os.close(go)
        return process, come
    try:
        os.close(come)
        work(job, share, go)
    finally:
        os._exit(0)


def collect(pipes: Sequence[int]) -> Iterator[Tuple[int, Strand]]:
    """The strands as they come, until every pipe has ended."""
    got: Dict[int, bytearray] = {number: bytearray() for number in pipes}
    with selectors.DefaultSelector() as waiting:
        for number in pipes:
            waiting.register(number, selectors.EVENT_READ)
        while waiting.get_map():
            for key, _ in waiting.select():
                part, held = os.read(key.fd, 1 << 16), got[key.fd]
                held += part
                while len(held) >= LENGTH.size and len(held) >= LENGTH.size + LENGTH.unpack_from(held)[0]:
                    end = LENGTH.size + LENGTH.unpack_from(held)[0]
                    yield pickle.loads(bytes(held[LENGTH.size:end]))
                    del held[:end]
                if not part:
                    waiting.unregister(key.fd)


def spread(job: Job, all_entries: List[Entry]) -> List[Strand]:
    """All strands, fitted over the cores; one whose process was lost is fitted here."""
    cores = max(1, min(len(os.sched_getaffinity(0)), len(all_entries)))
    numbered = list(enumerate(all_entries))
    processes = [start(job, numbered[i::cores]) for i in range(cores)]
    done: Dict[int, Strand] = {}
    try:
        for i, one in collect([come for _, come in processes]):
            done[i] = one
            progress(len(done), len(all_entries))
    except BaseException:
        for process, _ in processes:
            os.kill(process, signal.SIGTERM)
        if os.isatty(2):
            files.say("")  # ends the progress line
        raise
    finally:
        for process, _ in processes:
            os.waitpid(process, 0)
    return [done[i] if i in done else strand(job, entry) for i, entry in numbered]


def progress(done: int, of: int) -> None:
    if os.isatty(2):
        os.write(2, f"\r{done} of {of}".encode())


def clear(output: str) -> None:
    """The report's folder, without an old report, so that two are never mixed; other files in it stay."""
    folder = os.path.join(output, "listings")
    try:
        os.makedirs(folder, exist_ok=True)
        old = [os.path.join(output, name) for name in ("index.html", "summary.csv")]
        texts = [os.path.join(folder, name) for name in os.listdir(folder) if name.endswith(".txt")]
        old += [path for path in texts if os.path.isfile(path) and listing.begins(files.read(path, 8))]
        for path in old:
            if os.path.isfile(path):
                os.unlink(path)
    except OSError as e:
        raise Failure(f"{plain(output)}: cannot be written: {files.why(e)}") from None


def own_settings(found: Sequence[Entry], job: Job) -> None:
    """Whoever types settings is told that week files have their own."""
    weeks = sum(not entry.path.lower().endswith(TABLE) for entry in found)
    if weeks and job.settings is not None:
        files.say(f"week: note: {words.count(weeks, 'week file')} with settings of {'its' if weeks == 1 else 'their'} own; "
                  "--lam and the other settings are for tables")


def report(folder: str, output: str, job: Job) -> int:
    """Fits a folder and writes the report; the status is the worst of the strands'."""
    begun = time.monotonic()
    if not output:
        raise Failure("the report needs a name")
    if os.path.realpath(folder) == os.path.realpath(output):
        raise Failure(f"{plain(output)}: the report needs a folder of its own")
    found, others = entries(folder, output)
    if not found:
        raise Failure(f"{plain(folder)}: no week file (*.bin, *.week) and no table (*.csv) in it")
    own_settings(found, job)
    clear(output)
    strands = sorted(spread(job, found), key=page.attention)
    files.write(os.path.join(output, "summary.csv"), page.summary(strands, job.clock))
    title = f"{plain(os.path.basename(os.path.realpath(folder)))}: the week's trends"
    files.write(os.path.join(output, "index.html"), page.page(strands, job.clock, job.mark, title).encode("utf-8", "backslashreplace"))
    took = time.monotonic() - begun
    files.say(("\r" if os.isatty(2) else "") + f"{page.counts(strands)}; {words.count(others, 'other file')} left alone; {took:.1f} seconds")
    states = {one.state for one in strands}
    return FAILED if UNREAD in states else files.REFUSED if REFUSED in states else GOOD
