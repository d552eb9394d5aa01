#!/usr/bin/env python3
"""documents.py: what the documents show is what the programs do.

Every example of docs/INPUT.md is put together from its hexadecimal lines, run, and held to the listing printed there; the sample week's
tables are made again by examples/week.py, its file and every picture by tools/week, and compared byte by byte; every link within the
repository leads to a file. Prints how many cases there were and how many differed.
"""
import pathlib
import re
import shutil
import subprocess
import sys
import tempfile

ROOT = pathlib.Path(__file__).resolve().parent.parent
TOOL = [sys.executable, str(ROOT / "tools/week")]
TABLE = ["make", "examples/week.csv", "--corrections", "examples/corrections.csv", "--rate", "25"]
HEX = re.compile(r"    ((?:[0-9a-f]{2} )*[0-9a-f]{2})(?:  .*)?")
# the pictures of the sample week, in examples/ and docs/CHOOSING_LAM.md: their lam, and what stands above them
PICTURES = {
    "examples/week.svg": ("8000", "One station, one week: how late the news starts"),
    "docs/pictures/lam-max.svg": ("113834", "lam 113,834: lam_max"),
    "docs/pictures/lam-half.svg": ("56917", "lam 56,917: half of lam_max"),
    "docs/pictures/lam-tenth.svg": ("11383", "lam 11,383: a tenth of lam_max"),
    "docs/pictures/lam-hundredth.svg": ("1138", "lam 1,138: a hundredth of lam_max"),
}


def blocks(text):
    """The indented blocks of a document, each a list of its lines."""
    found, here = [], []
    for line in text.splitlines() + [""]:
        if line.startswith("    "):
            here.append(line)
        elif here:
            found, here = found + [here], []
    return found


def examples():
    """Each block of bytes in docs/INPUT.md, and the block after it: what these bytes print."""
    all_blocks = blocks((ROOT / "docs/INPUT.md").read_text(encoding="utf-8"))
    for block, after in zip(all_blocks, all_blocks[1:]):
        found = [HEX.fullmatch(line) for line in block]
        if all(found):
            yield bytes.fromhex(" ".join(m.group(1) for m in found)), "".join(line[4:] + "\n" for line in after).encode()


def shown():
    for data, wanted in examples():
        done = subprocess.run([ROOT / "target/bin/weektrend"], input=data, stdout=subprocess.PIPE, stderr=subprocess.PIPE)
        yield f"docs/INPUT.md, {len(data)} bytes", (done.stdout, done.stderr), (wanted, b"")


def tables():
    with tempfile.TemporaryDirectory() as folder:
        made = pathlib.Path(folder)
        shutil.copy(ROOT / "examples/week.py", made)
        subprocess.run([sys.executable, made / "week.py"], check=True)
        subprocess.run([*TOOL, *TABLE, "--lam", "8000", "-o", made / "week.bin"], cwd=ROOT, check=True)
        for name in ("week.csv", "corrections.csv", "week.bin"):
            yield f"examples/{name}", (made / name).read_bytes() == (ROOT / "examples" / name).read_bytes(), True


def pictures():
    with tempfile.TemporaryDirectory() as folder:
        week, picture = pathlib.Path(folder, "week.bin"), pathlib.Path(folder, "week.svg")
        for name, (lam, title) in PICTURES.items():
            subprocess.run([*TOOL, *TABLE, "--lam", lam, "-o", week], cwd=ROOT, check=True, stdout=subprocess.DEVNULL)
            subprocess.run([*TOOL, "chart", week, "--title", title, "-o", picture], cwd=ROOT, check=True, stdout=subprocess.DEVNULL)
            yield name, picture.read_bytes() == (ROOT / name).read_bytes(), True


def links():
    names = subprocess.run(["git", "ls-files", "*.md"], cwd=ROOT, check=True, stdout=subprocess.PIPE, text=True).stdout.split()
    for name in names:
        page = ROOT / name
        for link in re.findall(r"\]\(([^)#]+)(?:#[^)]*)?\)", page.read_text(encoding="utf-8")):
            if not link.startswith(("http:", "https:")):
                yield f"{name}: {link}", (page.parent / link).exists(), True


def main():
    count = differences = 0
    for part in (shown, tables, pictures, links):
        before = count
        for name, found, wanted in part():
            count += 1
            if found != wanted:
                differences += 1
                print(f"{name}: {found!r} and not {wanted!r}")
        if count == before:
            differences += 1
            print(f"{part.__name__}: nothing was compared")
    print(f"{count} cases, {differences} differences")
    sys.exit(1 if differences else 0)


main()
