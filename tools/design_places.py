#!/usr/bin/env python3
"""Counts the places of docs/DESIGN-PASS.md: `python3 tools/design_places.py [-l] [COMMIT]`.

Without COMMIT it reads the checkout, with one what stood there. -l lists the places, a line each.
Points 1 to 7 are read off crates/*/src/*.rt, point 8 off crates/*/proofs. Places that are kept are counted
too, and so are the lines that begin `// kept: `."""
import collections
import os
import re
import subprocess
import sys
import tempfile

ARGS = [a for a in sys.argv[1:] if a != "-l"]
LIST = "-l" in sys.argv
TOP = os.path.dirname(os.path.dirname(os.path.abspath(__file__)))


def tree(commit):
    if commit is None:
        return TOP
    at = tempfile.mkdtemp()
    tar = subprocess.run(["git", "-C", TOP, "archive", commit, "crates"], check=True, capture_output=True).stdout
    subprocess.run(["tar", "-x", "-C", at], input=tar, check=True)
    return at


ROOT = tree(ARGS[0] if ARGS else None)
SOURCES = sorted(
    os.path.join(d, f)
    for d, _, fs in os.walk(os.path.join(ROOT, "crates"))
    if "/src" in d and "/out/" not in d
    for f in fs
    if f.endswith(".rt")
)
TEXT = {p: open(p, encoding="utf-8").read() for p in SOURCES}


def short(path):
    return os.path.relpath(path, ROOT).replace("crates/", "").replace("src/", "")


def line_of(text, at):
    return text.count("\n", 0, at) + 1


class Fn:
    """A function: its name, its signature with clauses, its body, where it stands."""

    def __init__(self, path, name, head, body, line):
        self.path, self.name, self.head, self.body, self.line = path, name, head, body, line

    def place(self):
        return f"{short(self.path)}:{self.line} {self.name}"


def functions():
    for path, text in TEXT.items():
        for m in re.finditer(r"^( *)(?:pub(?:\(crate\))? )?(?:extern \"C\" )?fn (\w+)", text, re.M):
            indent = m.group(1)
            end = text.find("\n" + indent + "}\n", m.start())
            item = text[m.start() : end]
            if "\n" + indent + "{\n" in item:
                head, body = item.split("\n" + indent + "{\n", 1)
            else:
                head, _, body = item.partition("{\n")
            yield Fn(path, m.group(2), head, body, line_of(text, m.start()))


FNS = list(functions())


def grep(pattern, where=None):
    for path, text in TEXT.items():
        for m in re.finditer(pattern, text, re.M):
            yield f"{short(path)}:{line_of(text, m.start())} {m.group(0).strip()[:60]}"


def types():
    """Structs and enums with their bodies."""
    for path, text in TEXT.items():
        for m in re.finditer(r"^(?:pub(?:\(crate\))? )?(struct|enum) (\w+)[^;{\n]*\{\n(.*?)^\}", text, re.M | re.S):
            yield path, line_of(text, m.start()), m.group(1), m.group(2), m.group(3)


# 1. A struct with a flag that says whether its values mean something; an enum with a case for a fault
# or for nothing beside one that holds a value; a number that says which refusal, or 0 that says none.
FLAGS = r"^\s+(?:pub )?(?:ok|found|fits|audits|clean): bool"
FAULTS = r"^\s+(?:Broken|Foreign|Bad|Absent|End|Misshapen|Ownerless|Unread|Sound|Whole)\b"


def point1():
    for path, line, kind, name, body in types():
        at = f"{short(path)}:{line} {kind} {name}"
        if kind == "struct" and re.search(FLAGS, body, re.M):
            yield at + ": a flag beside values"
        if kind == "struct" and re.search(r"status: u32", body):
            yield at + ": a number for a refusal"
        if kind == "enum" and re.search(FAULTS, body, re.M) and not re.search(r"\berror|Fault|Refusal", name):
            if re.search(r"\(", body) or len(re.findall(FAULTS, body, re.M)) > 1:
                yield at + ": an enum like Option or Result"
    for f in FNS:
        if re.search(r"^\s+return 0;$", f.body, re.M) and re.search(r"-> (usize|u64)$", f.head.split("\n    re")[0].split("\n    en")[0], re.M):
            yield f.place() + ": 0 for none"
        if re.search(r"return (NO\w*|BAD|NOWHERE|LOST|REFUSED|UNFILLED|MISSHAPEN|BROKEN|no_\w+\(\)|none\w*\(\)|nowhere\(\)|nobody\(\)|other_\w+\(0\));", f.body):
            yield f.place() + ": a value for none"
        if re.search(r"\b(next|e|to|status|place|first)\b (==|!=) 0 \{|\.(next|status) (==|!=) 0|!\w+\.(ok|found|fits) ?", f.body):
            yield f.place() + ": asks a flag or a number"


# 2. Functions whose text differs in names, types, sizes or constants alone: of the pairs of words that stand
# side by side in the one, four in five stand in the other.
WORD = re.compile(r"\w+|[^\w\s]")
NUMBERS = {"u8", "u16", "u32", "u64", "usize"}


def shape(f):
    code = "\n".join(l for l in (f.head + "\n{\n" + f.body).split("\n") if not l.strip().startswith("//"))
    code = re.sub(r"(requires|ensures)( \w+)? \{.*?\}\n(?=    (requires|ensures)|\{)", "", code, flags=re.S)
    words = []
    for w in WORD.findall(code):
        if w[0].isdigit():
            words.append("0")
        elif w in NUMBERS:
            words.append("T")
        else:
            words.append(w)
    return words


def point2():
    big = [(f, shape(f)) for f in FNS]
    big = [(f, collections.Counter(zip(s, s[1:]))) for f, s in big if 34 <= len(s) and not short(f.path).startswith("pirasteh_c/")]
    sizes = [sum(c.values()) for _, c in big]
    for i, (f, c) in enumerate(big):
        for j in range(i + 1, len(big)):
            if min(sizes[i], sizes[j]) < 0.8 * max(sizes[i], sizes[j]):
                continue
            g, d = big[j]
            if sum(min(n, d[w]) for w, n in c.items()) >= 0.78 * max(sizes[i], sizes[j]):
                yield f"{f.place()} ~ {g.place()}"


# 3. A loop that steps a variable by hand.
def point3():
    for f in FNS:
        for m in re.finditer(r"^( *)('\w+: )?(while [^{]*|loop )\{\n(.*?)^\1\}", f.body, re.M | re.S):
            if re.search(r"^\s+\w+ [+-]= \d+;$|^\s+(k|i) = \w+( \+ 1)?;$", m.group(4), re.M):
                yield f"{f.place()}: {m.group(3).strip()[:40]}"


# 4. Equality, copying, filling, conversion and printing by hand.
def point4():
    for f in FNS:
        if re.match(r"(alike|copy|clear|either|both|wide|number|\w+_number|digit_of|flag_word|is_broken|is_foreign|is_bad|is_absent|is_alien|facing|print_\w+|shape_of|when|to_number)$", f.name):
            yield f.place()
        elif re.search(r"(out|to|d)\[(i|o|to|k)\] = (from|part)?\[?(i|k)?\]?", f.body) and re.search(r"for|while", f.body) and re.search(r"= (from|part)\[i\];|= 0;$", f.body, re.M):
            yield f.place() + ": copies by hand"
    yield from grep(r"\bas (u64|u32|usize)\b")


# 5. A fact in three clauses or more, and three parameters or more that travel together.
def point5():
    facts = collections.defaultdict(list)
    for f in FNS:
        for m in re.finditer(r"(?:requires|ensures)(?: \w+)? \{ (.*?) \}\n", f.head + "\n", re.S):
            fact = re.sub(r"\s+", " ", m.group(1))
            if "result ≡" in fact or "sets out.old" in fact:
                continue
            facts[fact].append(f)
    for fact, fs in sorted(facts.items()):
        if len(fs) >= 3:
            yield f"{len(fs)} clauses: {fact[:70]}"
    groups = collections.defaultdict(list)
    for f in FNS:
        if short(f.path).startswith(("pirasteh/", "pirasteh_c/")):
            continue
        inside = f.head[f.head.find("(") + 1 : f.head.find(")")]
        ps = tuple(re.sub(r"\s+", " ", p.strip()) for p in inside.split(",") if ":" in p)
        groups[ps].append(f)
    spread = collections.Counter()
    for ps, fs in groups.items():
        for size in range(3, len(ps) + 1):
            for i in range(len(ps) - size + 1):
                spread[ps[i : i + size]] += len(fs)
    often = [(ps, n) for ps, n in spread.items() if n >= 3]
    for ps, n in sorted(often):
        if not any(len(o) > len(ps) and m >= n and any(o[i : i + len(ps)] == ps for i in range(len(o))) for o, m in often):
            yield f"{n} functions: {', '.join(ps)[:90]}"


# 6. A buffer of a fixed size of which a part is used, or a buffer with a place beside it.
def point6():
    yield from grep(r"= \[\d+u(8|16|64); \w+\];")
    for f in FNS:
        inside = f.head[f.head.find("(") + 1 : f.head.find(")")]
        if re.search(r"out: &mut \[u8\],\s*(o|at): usize", inside):
            yield f.place() + ": a buffer and a place in it"


# 7. A parameter that says which of two steps to take.
def point7():
    for f in FNS:
        inside = f.head[f.head.find("(") + 1 : f.head.find(")")]
        for m in re.finditer(r"(write|lent|deep|every|allow|attrs): bool", inside):
            yield f"{f.place()}: {m.group(0)}"
        if len(re.findall(r"if \w+ == 0x", f.body)) > 2:
            yield f.place() + ": a chain of tests"


# 8. Files and lines of proofs, and answers that are a bare `refl` or `search rules`.
def point8():
    files = lines = bare = 0
    for d, _, fs in os.walk(os.path.join(ROOT, "crates")):
        if "/proofs" not in d or "/out/" in d:
            continue
        for f in fs:
            if f in ("Answers.antt", "Invariants.antt"):
                text = open(os.path.join(d, f), encoding="utf-8").read()
                files += 1
                lines += text.count("\n")
                bare += len(re.findall(r" c = (refl|search rules)$", text, re.M))
    return files, lines, bare


for number, point in enumerate([point1, point2, point3, point4, point5, point6, point7], 1):
    places = sorted(set(point()))
    print(f"{number}: {len(places)}")
    if LIST:
        for p in places:
            print("   ", p)
files, lines, bare = point8()
print(f"8: {files} files of answers and invariants, {lines} lines, {bare} bare answers")
kept = sum(len(re.findall(r"// kept: ", t)) for t in TEXT.values())
print(f"lines that say why a place is kept: {kept}")
