#!/usr/bin/env python3
"""Turns the repository's own definitions and lemmas to snake case, by the table beside this script.

usage: python3 tools/spelling.py        at the top of the repository, once, after port.py

A lemma that would get the name of a definition gets `_lem` behind it. Functions of src/, exported C
names, strings, inputs and outputs keep their names. A name behind a dot in a Proof.antt is a step of
the code and stays. In pages only code spans turn; in must-fail edits only clauses and antt.
"""
import glob
import os
import re

HERE = os.path.dirname(os.path.abspath(__file__))
ROWS = dict(r.rstrip("\n").split("\t") for r in open(os.path.join(HERE, "spelling.tsv"), encoding="utf-8"))
CAMEL = {k: v for k, v in ROWS.items() if "-" not in k}
WORD = re.compile(r"[^\s(){}.;,@\"«»\[\]]+")

# lemmas that port.py gave the name that a definition now gets: (name, the file that declares it)
FELL_TOGETHER = [
    ("room_after", "crates/base/proofs/WriteLaws.antt"),
    ("listed_in", "crates/tokens/proofs/ConvertLaws.antt"),
    ("found_in", "crates/demands/proofs/OwnerEntriesLaws.antt"),
    ("told_of", "crates/pirasteh/proofs/ToldLaws.antt"),
]


def word(text, rows, dots):
    def one(m):
        w = m.group(0)
        if w not in rows or (not dots and m.start() and text[m.start() - 1] == "." and "-" in w):
            return w
        return rows[w]

    return WORD.sub(one, text)


def antt(text, dots):
    out = []
    for line in text.split("\n"):
        m = re.search(r"(?:^|(?<=\s))--.*$", line)
        code, note = (line[: m.start()], line[m.start():]) if m else (line, "")
        out.append(word(code, ROWS, dots) + word(note, CAMEL, True))
    return "\n".join(out)


STRING = re.compile(r'b?"(?:\\.|[^"\\])*"', re.S)


def rt(text):
    parts, at = [], 0
    for m in STRING.finditer(text):
        parts += [word(text[at:m.start()], CAMEL, True), m.group(0)]
        at = m.end()
    return "".join(parts + [word(text[at:], CAMEL, True)])


def page(text):
    return re.sub(r"`[^`\n]+`", lambda m: word(m.group(0).strip("`"), ROWS, True).join("``"), text)


def edit(text):
    kind = re.search(r"^file: *(\S+)", text, re.M)
    turn = (lambda t: antt(t, True)) if kind and kind.group(1).endswith(".antt") else rt
    return re.sub(r"(?m)^((?:old|new): ?)(.*)$", lambda m: m.group(1) + turn(m.group(2)), text)


def lemma(name, file):
    module = "Rattle." + file.split("/")[1] + ".proofs." + os.path.basename(file)[:-5]
    for f in glob.glob("crates/*/proofs/**/*.antt", recursive=True):
        t = open(f, encoding="utf-8").read()
        if f == file or re.search(r"use " + re.escape(module) + r"\.\{[^}]*(?<![\w-])" + name + r"(?![\w'-])", t):
            new = re.sub(r"(?<![\w.'-])" + name + r"(?![\w'-])", name + "_lem", t)
            open(f, "w", encoding="utf-8").write(new)


def main():
    for name, file in FELL_TOGETHER:
        lemma(name, file)
    ways = [
        ("crates/*/specs/**/*.antt", lambda f, t: antt(t, True)),
        ("crates/*/proofs/**/*.antt", lambda f, t: antt(t, not f.endswith("/Proof.antt"))),
        ("crates/*/src/**/*.rt", lambda f, t: rt(t)),
        ("crates/*/must-fail/*.edit", lambda f, t: edit(t)),
        ("*.md", lambda f, t: page(t)),
        ("docs/*.md", lambda f, t: page(t)),
        ("tests/**/*.md", lambda f, t: page(t)),
    ]
    for pattern, turn in ways:
        for f in sorted(glob.glob(pattern, recursive=True)):
            t = open(f, encoding="utf-8").read()
            new = turn(f, t)
            if new != t:
                open(f, "w", encoding="utf-8").write(new)


if __name__ == "__main__":
    main()
