#!/usr/bin/env python3
"""Lists the places in src/ that an older Rattle made necessary, point by point.

usage: python3 tools/places.py [--count] [POINT..]     at the top of the repository

It goes by the text, so it finds candidates; docs/DESIGN-PASS.md says what each is and what became of it.
"""
import re
import sys
from collections import defaultdict
from pathlib import Path

TOKEN = re.compile(r"[A-Za-z_]\w*|'[a-z]+|\d\w*|b?\"(?:\\.|[^\"])*\"|b?'(?:\\.|[^'])'|->|=>|::|&&|\|\||[-+*/%&|^!<>=]=|<<|>>|\.\.=?|\S")
KEYWORDS = set("""fn let mut match if else for in while loop return break continue self Self as ref move impl trait struct enum
pub crate use mod const static where true false Some None Ok Err unsafe type""".split())


def closing(text, start):
    """Where the brace at `start` is closed."""
    depth = 0
    for m in re.finditer(r"b?'(?:\\.|[^'\\])'|\"(?:\\.|[^\"])*\"|//[^\n]*|[{}]", text[start:]):
        if m.group() == "{":
            depth += 1
        elif m.group() == "}":
            depth -= 1
            if depth == 0:
                return start + m.start()
    return len(text)


class Function:
    def __init__(self, path, name, line, params, result, clauses, body):
        self.path, self.name, self.line = path, name, line
        self.params, self.result, self.clauses, self.body = params, result, clauses, body

    def where(self):
        return f"{self.path}:{self.line} {self.name}"


def functions(path, text):
    for m in re.finditer(r"\bfn (\w+)", text):
        at = text.find("(", m.end())
        depth, end = 0, at
        while end < len(text):
            depth += {"(": 1, ")": -1}.get(text[end], 0)
            if depth == 0:
                break
            end += 1
        params = [p.strip() for p in re.split(r",(?![^<(\[]*[>)\]])", text[at + 1:end]) if p.strip()]
        rest, clauses, place = text[end + 1:], [], end + 1
        head = re.match(r"\s*(?:->\s*(?P<r>[^{;]*?))?\s*(?=requires|ensures|\{|;|where)", rest)
        result = (head.group("r") or "").strip() if head else ""
        place += head.end() if head else 0
        while True:
            c = re.match(r"\s*(?://[^\n]*\n\s*)*(requires|ensures\*?|where)\b[^{;]*", text[place:])
            if not c:
                break
            if c.group(1) == "where":
                place += c.end()
                continue
            open_at = text.find("{", place)
            close_at = closing(text, open_at)
            clauses.append((c.group(1), " ".join(text[open_at + 1:close_at].split())))
            place = close_at + 1
        b = re.match(r"\s*\{", text[place:])
        body = ""
        if b:
            open_at = place + b.end() - 1
            body = text[open_at:closing(text, open_at) + 1]
        yield Function(path, m.group(1), text.count("\n", 0, m.start()) + 1, params, result, clauses, body)


def shape(body):
    names, out = {}, []
    for t in TOKEN.findall(re.sub(r"//[^\n]*", "", body)):
        if t[0].isdigit() or t[0] in "\"'" or t.startswith(("b\"", "b'")):
            out.append("lit")
        elif re.match(r"[A-Za-z_]", t) and t not in KEYWORDS:
            out.append(names.setdefault(t, f"n{len(names)}"))
        else:
            out.append(t)
    return tuple(out)


def places():
    found = defaultdict(list)
    texts = {p: p.read_text() for p in sorted(Path("crates").glob("*/src/**/*.rt"))}
    all_functions = [f for p, t in texts.items() for f in functions(p, t)]
    for path, text in texts.items():
        def line(m):
            return f"{path}:{text.count(chr(10), 0, m.start()) + 1}"
        for m in re.finditer(r"\benum (\w+)[^{]*\{", text):
            body = re.sub(r"//[^\n]*", "", text[m.end():closing(text, m.end() - 1)])
            variants = [v.strip() for v in re.split(r",(?![^({]*[)}])", body) if v.strip()]
            if len(variants) == 2 and any(re.search(r"[({]", v) for v in variants):
                found[1].append(f"{line(m)} enum {m.group(1)}: two cases, one of them with a value")
            if any(v.startswith("Refused") for v in variants):
                found[1].append(f"{line(m)} enum {m.group(1)}: a refusal among the answers")
        for m in re.finditer(r"\bstruct (\w+)[^{;(]*\{", text):
            body = re.sub(r"//[^\n]*", "", text[m.end():closing(text, m.end() - 1)])
            fields = re.findall(r"^\s*(?:pub(?:\([^)]*\))? )?(\w+): ([^,\n]+),", body, re.M)
            fields = [(n, t) for n, t in fields if not t.startswith("{")]
            if len(fields) > 1 and any(t == "bool" for _, t in fields) and any(t != "bool" for _, t in fields):
                found[1].append(f"{line(m)} struct {m.group(1)}: a flag beside a value")
            arrays = [n for n, t in fields if re.match(r"\[.*; *\w+\]$", t)]
            if arrays and any(n in ("count", "len", "length", "used") for n, _ in fields):
                found[6].append(f"{line(m)} struct {m.group(1)}: {', '.join(arrays)} with a length beside")
        for m in re.finditer(r"\b(dyn |Box<dyn|fn\()", text):
            found[7].append(f"{line(m)} {m.group(1)}")
    for f in all_functions:
        b = re.sub(r"//[^\n]*", "", f.body)
        if re.match(r"Option<(\w*Refusal|\w*Fault)>", f.result):
            found[1].append(f"{f.where()}: an error as an Option")
        if re.search(r"\b(None|_)\s*(?:\([^)]*\))?\s*=>\s*0\b", b) or (f.result in ("usize", "u8") and re.search(r"\n    +(\w+)\.len\(\)\n\s*\}$", b) and "return" in b):
            found[1].append(f"{f.where()}: a number for none")
        if re.search(r"\[0\w*; *320\]", b) and re.search(r"\[\w+\] == 0", b):
            found[1].append(f"{f.where()}: 0 for none in an array")
        for w in re.finditer(r"\b(while|loop)\b[^{]*\{", b):
            inner = b[w.end():closing(b, w.end() - 1)]
            if re.search(r"\b(\w+) \+= 1\b|\b(\w+) = \2 \+ 1\b|\b(\w+) = \w+ \+ 1\b|\+= n\b|\+ 1;", inner):
                found[3].append(f"{f.where()}: {w.group(1)} that counts")
        for w in re.finditer(r"\bfor (\w+) in ([^{]*)\{", b):
            inner = b[w.end():closing(b, w.end() - 1)]
            i = w.group(1)
            if ".." in w.group(2) and re.search(rf"\[[^\]]*\b{i}\b[^\]]*\]", inner):
                found[3].append(f"{f.where()}: for over a range that indexes by {i}")
            for c in re.findall(r"\b(\w+) \+= 1\b", inner):
                found[3].append(f"{f.where()}: for that counts in {c}")
            if re.search(r"if [^{]*\{\s*return (true|false|Some\(\w+\)|\w+);\s*\}\s*$", inner.strip()) or re.search(r"if [^{]*\{\s*return (true|false|Some\(\w+\)|\w+);\s*\}\s*\}?$", inner.strip()):
                found[3].append(f"{f.where()}: for that looks for one item")
        flat = " ".join(b.split())
        if re.match(r"\{ match \*?\w+(\.\w+)? \{( \w+(::\w+)?(\(\w*\))? => (\d+|b?\"[^\"]*\"),)+ \} \}$", flat):
            found[4].append(f"{f.where()}: a table of cases")
        if re.search(r"Some\((\w+)\) => Some\(", flat) or re.search(r"None => None\b", flat):
            found[4].append(f"{f.where()}: map of an Option by hand")
        if re.search(r"Some\((\w+)\) => (\1 ==|[^,]*\b\1\b[^,]*),? None => (false|0)|None => (false|0), Some", flat):
            found[4].append(f"{f.where()}: an Option told by hand")
        if re.search(r"Ok\((\w+)\) => \w+::\w+(\(\1\))?, Err\((\w+)\) => \w+::\w+\(\3\)", flat) or re.search(r"Ok\((\w+)\) => match \1|Err\((\w+)\) => match \2", flat):
            found[4].append(f"{f.where()}: a Result told by hand")
        if re.match(r"\{ if \w+ == [^{]*\{ [^}]*\} else if \w+ == ", flat) or re.match(r"\{ if \w+\([^{]*\{ [^}]*\} else if ", flat):
            found[4].append(f"{f.where()}: a conversion by tests")
        if re.match(r"\{ \w+ == \w+ \}$", flat) or (f.result == "bool" and re.match(r"\{ match ", flat) and "=> false" in flat):
            found[4].append(f"{f.where()}: equality by hand")
        if len(re.findall(r"\w+\.(\w+) == (\w+)", flat)) >= 2 and f.result == "bool":
            found[4].append(f"{f.where()}: equality field by field")
        if f.name.endswith(("_line", "_said", "_word", "_words", "put_fault", "put_reason")) and f.result != "bool":
            found[4].append(f"{f.where()}: printing by hand")
        if f.name in ("copy_from", "refill"):
            found[4].append(f"{f.where()}: copying by hand")
        lets = re.findall(r"let mut (\w+) = \[[^;\]]*; *(\d+)\]", b)
        lengths = defaultdict(list)
        for n, size in lets:
            lengths[size].append(n)
        for size, names in lengths.items():
            if len(names) > 1:
                found[6].append(f"{f.where()}: {', '.join(names)} side by side, {size} long")
        if re.search(r"let mut (\w+) = \[0u8; *\d+\]", b) and re.search(r"\blen\b", b):
            found[6].append(f"{f.where()}: a buffer with a length beside")
        if re.search(r"match \(?self\.(section|state|kind|mode)\b", b):
            found[7].append(f"{f.where()}: a switch on the section")
    shapes = defaultdict(list)
    for f in all_functions:
        s = shape(f.body)
        if len(s) >= 14:
            shapes[s].append(f)
    for s, fs in shapes.items():
        if len(fs) > 1:
            found[2].append(f"{len(fs)} alike: " + ", ".join(f.where() for f in fs))
    asked = defaultdict(set)
    for f in all_functions:
        for kind, words in f.clauses:
            if kind == "requires":
                asked[re.sub(r"\.(now|old|new)\b", "", words)].add(f.where())
    for words, fs in asked.items():
        if len(fs) > 2:
            found[5].append(f"in {len(fs)}: {words}: " + ", ".join(sorted(fs)))
    together = defaultdict(set)
    for f in all_functions:
        kept = [re.sub(r"'\w+ ", "", re.sub(r"\bmut ", "", p)) for p in f.params]
        for i in range(len(kept)):
            for j in range(i + 1, len(kept)):
                together[(f.path.parts[1], kept[i], kept[j])].add(f.where())
    for (crate, a, b), fs in together.items():
        if len(fs) > 2 and "self" not in a:
            found[5].append(f"{crate}: {a} with {b} in {len(fs)}")
    return found


NAMES = {
    1: "own enums shaped like Option or Result, flags with values, numbers for kinds",
    2: "twins",
    3: "loops that count an index by hand",
    4: "equality, order, copying, conversion and printing by hand",
    5: "facts in three or more contracts, parameters that travel together",
    6: "buffers with a length beside, parallel arrays",
    7: "switches on a step, tables of functions",
}


def main():
    count = "--count" in sys.argv
    points = [int(a) for a in sys.argv[1:] if a.isdigit()] or sorted(NAMES)
    found = places()
    for point in points:
        print(f"{point}. {NAMES[point]}: {len(found[point])}")
        if not count:
            for place in found[point]:
                print(f"   {place}")


main()
