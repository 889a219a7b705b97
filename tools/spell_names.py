#!/usr/bin/env python3
"""Brings the repository's own names in specs/, proofs/ and clauses to today's spelling.

usage: python3 tools/spell_names.py [--list]     at the top of the repository, once, right after the kit's port.py

A type or a fact is written in upper camel case (`Sound-job` is `SoundJob`), everything else in snake case (`add-job` is `add_job`).
Names of the library and names that the check makes from the source (`loop-i`, `then-x-lt5`) keep their dashes. Nothing else is touched.
"""

import os
import re
import sys

NAME = r"[^\s(){}\[\];,.:|\"⌜⌝]+"
TOKEN = re.compile(NAME)
MADE = re.compile(r"(invariant-(loop|of)|invariant_of|decreases-|(returns|overflow_\w+|bounds|index|slice_bounds)(-|$)).*|.*-via-.*|(if|in|then|else|loop)-.*")
OWN = "|".join(sorted(os.listdir("crates")))


def files(kind):
    for folder, dirs, names in os.walk("crates"):
        dirs[:] = sorted(d for d in dirs if d != "out")
        for n in sorted(names):
            if n.endswith(kind):
                yield os.path.join(folder, n)


def lines(path):
    with open(path, encoding="utf-8") as f:
        return f.read().splitlines(keepends=True)


def is_made_file(path):
    return os.path.basename(path) in ("Answers.antt", "Invariants.antt")


def head(line):
    """The name that a line gives a signature, if it gives one."""
    m = re.match(r"^\s*(?:\| )?(?:(?:abbrev|unfoldable|pub|record|data) )*(%s)(?: [^:]*)? : " % NAME, line)
    if m and not line.lstrip().startswith(("use ", "--", "elim ", "let ")) and ": goal." not in line:
        return m.group(1)
    return None


def foreign():
    found = set()
    for p in files(".antt"):
        for line in lines(p):
            if line.startswith("use ") and not re.match(r"use Rattle\.(%s)\." % OWN, line):
                found |= {t for t in TOKEN.findall(line) if "-" in t}
    return found


def own_names(theirs):
    """Every dashed name that the repository defines, binds or takes apart, but for those that the check makes."""
    defined, used = set(), set()
    for p in files(".antt"):
        made = is_made_file(p)
        for line in lines(p):
            if line.lstrip().startswith("--"):
                continue
            n = head(line)
            if n and "-" in n and not (made and MADE.fullmatch(n)) and n not in ("-", "◌-◌"):
                defined.add(n)
            if made:
                continue
            for t in TOKEN.findall(line):
                if re.fullmatch(r"[A-Za-z0-9_']+(-[A-Za-z0-9_']+)+", t) and t not in theirs:
                    used.add(t)
    return {n for n in defined | used if n not in theirs and re.fullmatch(r"[^\W]['\w]*(-['\w]+)+", n)}


# Lemmas on a function of the library, whose names would fall together with the function's.
BESIDE = {"bit-and": "bit-bit_and", "bit-or": "bit-bit_or"}


def spelled(name):
    if name in BESIDE:
        return BESIDE[name]
    if name[0].isupper():
        return "".join(part[0].upper() + part[1:] for part in re.split(r"[-_]", name))
    return name.replace("-", "_")


def turn(path, names, kept):
    made = is_made_file(path)
    text = lines(path)
    brought = set()
    for line in text:
        if re.match(r"use Rattle\.(%s)\." % OWN, line) and ".Goals" not in line.split("{")[0] and ".Given" not in line.split("{")[0]:
            brought |= set(TOKEN.findall(line))
        n = head(line)
        if n and not line.lstrip().startswith("use "):
            brought.add(n)
    out = []
    for line in text:
        if line.lstrip().startswith(("--", "//")):
            out.append(line)
            continue

        quoted = re.split(r'("[^"]*")', line)
        done, at = "", 0
        for part in quoted:
            if part.startswith('"'):
                done += part
            else:
                whole = line

                def put_at(m, base=at):
                    t = m.group(0)
                    if t not in names:
                        return t
                    if made and MADE.fullmatch(t):
                        after_dot = whole[: base + m.start()].endswith(".")
                        if after_dot or t not in brought:
                            kept.add((path, t))
                            return t
                    return spelled(t)

                done += TOKEN.sub(put_at, part)
            at += len(part)
        out.append(done)
    return text, out


def main(argv):
    theirs = foreign()
    names = own_names(theirs)
    new = {}
    for n in names:
        new.setdefault(spelled(n), []).append(n)
    for n, olds in sorted(new.items()):
        if len(olds) > 1:
            print("two names fall together:", n, olds)
    kept, changed = set(), 0
    for p in list(files(".antt")) + list(files(".rt")):
        old, out = turn(p, names, kept)
        if old != out:
            before = {t for line in old if not line.lstrip().startswith(("--", "//")) for t in TOKEN.findall(line)}
            here = {t for t in before if t in names}
            for t in sorted(here):
                if spelled(t) in before:
                    print("look:", p, t, "beside", spelled(t))
            changed += 1
            if "--list" not in argv:
                with open(p, "w", encoding="utf-8") as f:
                    f.writelines(out)
    for p, t in sorted(kept):
        print("kept:", p, t)
    print(len(names), "names,", changed, "files")


if __name__ == "__main__":
    main(sys.argv[1:])
