#!/usr/bin/env python3
"""promises.py: holds docs/PROMISES.md to the crates. Needs nothing but this repository.

The reading list: every file of it is there, the lines of document 01's part (imports with the blank line after them, and Known.antt, not counted) are
below 1,300, no two definitions of it share a name, each has its comment, and what its files import is on it too, or a file of the kit that it names.
The files under "Later requests" are counted apart.
The tables: every exported function of a crate stands in them.
"""
import collections, os, re, sys

os.chdir(os.path.join(os.path.dirname(os.path.abspath(__file__)), ".."))
text = open("docs/PROMISES.md").read()
head, listed = text.split("## Reading list")
faults = []

# ---- the reading list
files, later, crate = [], set(), None
for item in re.findall(r"^\d+\. .*$", listed, re.M):
    for word in re.findall(r"`(\w+)` specs/|(\w+)\.antt", item):
        if word[0]:
            crate = word[0]
        else:
            files.append((crate, word[1]))
            if "Later requests" in item:
                later.add(files[-1])

DECLARED = re.compile(r"^(?:(?:abbrev|unfoldable|opaque|rec) )*pub (?:(?:abbrev|unfoldable|rec) )*(record |data |)([^\s:({]+)")
# the four operations, which the file's head explains, and the constants, whose decimal stands beside them
SELF_EVIDENT = {"◌⊕◌", "◌⊖◌", "◌⊗◌", "◌⊘◌", "c0", "c1", "c2", "half", "c0·99", "c0·01", "c0·2", "c1·2", "c1e_6", "c1e_10", "c1e_12", "infinity"}
total, added, blank, names, kit = 0, 0, 0, collections.defaultdict(list), collections.defaultdict(set)
for crate, name in files:
    path = f"crates/{crate}/specs/{name}.antt"
    if not os.path.exists(path):
        faults.append(f"{path} is not there")
        continue
    lines = [l.rstrip("\n") for l in open(path)]
    body = [l for i, l in enumerate(lines) if not l.startswith("use ") and not (l == "" and lines[i - 1].startswith("use "))]
    if name != "Known":
        if (crate, name) in later:
            added += len(body)
        else:
            total += len(body)
        blank += sum(l == "" for l in body)
        print(f"{len(body):5} {path}")
    inside = ""
    for above, line in zip([""] + lines, lines):
        m = DECLARED.match(line)
        if m:
            inside = m.group(1).strip()
            names[m.group(2)].append(path)
            if not above.startswith("--") and m.group(2) not in SELF_EVIDENT:
                faults.append(f"{path}: {m.group(2)} has no comment")
        elif inside == "data" and (m := re.match(r"  (\S+) : ", line)):
            names[m.group(1)].append(path)
    for line in lines:
        m = re.match(r"use (\S+?)(?:\.\{(.*)\}| as .*)?$", line)
        if not m:
            continue
        own = re.match(r"Rattle\.(\w+)\.specs\.(.+)", m.group(1))
        if own and os.path.isdir(f"crates/{own.group(1)}"):
            by_meaning = f"`{own.group(1)}` specs/{own.group(2)}.antt, which need not be read" in listed
            if not own.group(2).startswith("declared.") and (own.group(1), own.group(2)) not in files and not by_meaning:
                faults.append(f"{path} imports {own.group(1)} specs/{own.group(2)}.antt, which is not on the list")
        else:
            kit[m.group(1)] |= {w.strip() for w in (m.group(2) or "").split(",")}
for name, where in sorted(names.items()):
    if len(where) > 1:
        faults.append(f"{name} stands in {', '.join(where)}")
for module in sorted(kit):
    if f"`{module}`" not in listed:
        faults.append(f"the kit's {module} is not named in the list: {', '.join(sorted(kit[module]))}")
if not files or total >= 1300:
    faults.append(f"the reading list has {total} lines before the later requests, in {len(files)} files")

# ---- the exported functions
functions = 0
for crate in sorted(os.listdir("crates")):
    if not os.path.exists(f"crates/{crate}/src/lib.rt"):
        continue
    queue = [f"crates/{crate}/src/lib.rt"]
    while queue:
        path = queue.pop()
        code = open(path).read()
        queue += [f"crates/{crate}/src/{m}.rt" for m in re.findall(r"^pub mod (\w+);", code, re.M)]
        for name in re.findall(r'^pub (?:extern "C" )?fn (\w+)', code, re.M):
            functions += 1
            if f"`{name}`" not in head:
                faults.append(f"{crate}::{name} is exported and not in the tables")
if not functions:
    faults.append("no exported function was found")

print(f"{len(files)} files, {total} lines and {added} of later requests, {blank} of them blank, {sum(map(len, names.values()))} names; {functions} exported functions; {len(faults)} faults")
for fault in faults:
    print("FAULT", fault)
sys.exit(1 if faults else 0)
