#!/usr/bin/env python3
"""tools/respell.py: brings the names of the repository's own definitions and lemmas to the kit's spelling.

Run once, at the top, after the kit's port.py, with --force: --dry writes nothing, --list prints the names. A word is in snake case; a dash stays only where it joins two names of
functions or definitions, as in length-list; a record's field and a constructor are in snake case. Types and modules keep
their capitals, functions of src/ and whatever the kit generates keep their names. A new name that stands in the same file
already is listed, and without --force nothing is written then. All that are listed were looked at: they are a module, a
field or a function of src/ beside a definition, or names of crates that do not meet. Those that would be one are in EXCEPT.
"""
import collections
import glob
import re
import sys

TOKEN = r"(?<![\w'′₀-₉≡≢-])%s(?![\w'′₀-₉-])"
WORDS = set("""length take drop set append concat list cond not and or leb eqb ltb lt le add mul sub div neg round min max sum suc zero
compare get put at fold map reverse replicate repeat pow mod pos negsuc gcd up down fits to_bits of_bits sqrt size cmp
getD get_or T drop dot digits decimal log2 splice""".split())
EXCEPT = {
    "frames-in": "frames_in_lem",
    "settings-in": "settings_in_lem",
    "one-or-two": "one_or_two_lem",
    "same-places": "same_places_lem",
    "is-nan": "is_nan_lem",
    "nan-bits": "nan_bits_lem",
    "quotient-of": "quotient_of_lem",
    "milliseconds-in": "milliseconds_in_lem",
    "nearest-of": "nearest_of_lem",
    "kept_of": "kept_of_lem",
    "held_by": "marks_say",
}
DECL = re.compile(r"^((?:(?:pub|abbrev|unfoldable|record|data|ruleset)\s+)*)([^\s:{}()\[\],.;]+)\s*(?=[:({\s])")
BLOCK = re.compile(r"^  (?:(?:pub|abbrev|unfoldable)\s+)*([^\s:{}()\[\],.;]+)\s*:(?!:)")
MEMBER = re.compile(r"^\s{2,4}(?:pub\s+)?([^\s:{}()\[\],.;]+)\s*:(?!:)")


def declared(text):
    """The names that a file declares, and the fields and constructors of its records and data."""
    names, members = set(), set()
    inside = module = False
    for line in text.split("\n"):
        if line.strip().startswith("--"):
            continue
        if line and not line[0].isspace():
            m = DECL.match(line)
            module = line.startswith("module ")
            inside = bool(m) and bool(re.search(r"\b(record|data)\b", m[1]))
            if m and m[2] not in ("use", "unfolding", "mod", "pub", "where", "syntax", "}", ")", "]"):
                names.add(m[2])
        elif module and not inside and (m := BLOCK.match(line)):
            names.add(m[1])
        elif inside:
            m = MEMBER.match(line)
            if m:
                members.add(m[1])
    return names, members


def snake(w):
    w = w.replace("′", "'")
    if not w[:1].islower():
        return w
    w = re.sub(r"(?<=[a-z0-9])([A-Z]+)(?![a-z])", lambda m: "_" + m[1].lower(), w)
    return re.sub(r"(?<=[a-z0-9])([A-Z])", lambda m: "_" + m[1].lower(), w)


def respelled(name, functions):
    parts = [snake(p) for p in name.split("-")]
    out = parts[0]
    for a, b in zip(parts, parts[1:]):
        both = a in functions and b in functions
        out += ("-" if both else "_") + b
    return out


def files(pattern):
    return sorted(f for f in glob.glob(pattern, recursive=True) if "/out/" not in f)


def main():
    lemma_files = files("crates/*/specs/*.antt") + files("crates/*/proofs/*.antt")
    texts = {f: open(f, encoding="utf-8").read() for f in files("crates/**/*.antt") + files("crates/**/*.rt") + files("crates/*/must-fail/*.edit")}
    names, members, functions = set(), set(), set(WORDS)
    for f in lemma_files:
        n, m = declared(texts[f])
        names |= n
        members |= m
        if "/specs/" in f:
            functions |= {snake(x) for x in n if x[:1].islower()}
    turned = {}
    for n in sorted(names):
        new = EXCEPT.get(n) or (respelled(n, functions) if n[:1].islower() else n.replace("′", "'"))
        if new != n:
            turned[n] = new
    fields = {}
    for n in sorted(members - set(turned)):
        new = EXCEPT.get(n) or snake(n).replace("-", "_")
        if new != n:
            fields[n] = new
    bad = []
    change = {**turned, **fields}
    back = collections.defaultdict(set)
    for a, b in {**turned, **fields}.items():
        back[b].add(a)
    for b, olds in back.items():
        if len([o for o in olds if o in turned]) > 1 or (b in names and b not in change and any(o in turned for o in olds)):
            bad.append(f"{', '.join(sorted(olds))} fall together as {b}")
    for f, t in texts.items():
        if not f.endswith(".antt"):
            continue
        tokens = set(re.findall(r"[\w'′₀-₉≡≢-]+", t))
        for a in tokens & set(change):
            if change[a] in tokens:
                bad.append(f"{f}: {a} becomes {change[a]}, which stands there already")
    if bad:
        print("\n".join(bad))
        if "--force" not in sys.argv:
            sys.exit(f"{len(bad)} names fall together: nothing written")
    some = re.compile(TOKEN % ("(" + "|".join(re.escape(x) for x in sorted(change, key=len, reverse=True)) + ")"))
    count = 0
    for f, t in texts.items():
        def put(m):
            a = m[1]
            if f.endswith(".rt") and not (re.search("[A-Z]", a) or "-" in a):
                return a
            before = t[m.start() - 1] if m.start() else ""
            # a field and a lemma have this name, beside the definition atLimit: the lemma gets another
            if a == "at-limit" and "/specs/" not in f and before != "." and not re.match(r"\s+=\s", t[m.end():]):
                return "at_limit_lem"
            if before == "." and a in turned and a not in members and not re.search(r"[A-Z]", a):
                return a
            return change[a]
        new = some.sub(put, t)
        if new != t:
            count += 1
            if "--dry" not in sys.argv:
                open(f, "w", encoding="utf-8").write(new)
    print(f"{len(turned)} names and {len(fields)} fields turned, in {count} files")
    if "--list" in sys.argv:
        for a, b in sorted(change.items()):
            print(a, "->", b)


main()
