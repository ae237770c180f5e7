#!/usr/bin/env python3
"""Compares contracts, definitions and theorems with those of the commit that docs/PORT.md begins with.

usage: python3 tools/same_words.py        at the top of the repository

Both sides are brought to one spelling: names by spelling.tsv, the library's words by LIBRARY, a
`now (x .entry)` as it is written today; parentheses, `use` lines and comments are left away. What is
printed differs by more than that.
"""
import difflib
import os
import re
import subprocess

HERE = os.path.dirname(os.path.abspath(__file__))
ROWS = dict(r.rstrip("\n").split("\t") for r in open(os.path.join(HERE, "spelling.tsv"), encoding="utf-8"))
LIBRARY = {
    "bitAnd": "bit_and", "bitOr": "bit_or", "bitXor": "bit_xor", "getD": "get_or", "reverseAux": "reverse_aux",
    "each-fits": "each-Fits", "getD-set-other": "get_or-set_other", "getD-set-same": "get_or-set_same",
    "getD-take": "get_or-take", "getD-drop": "get_or-drop", "ext-getD": "ext-get_or", "the-variants": "TheVariants",
    "areBytes": "are_bytes",
}
WORD = r"[^\s(){}.;,@\"«»\[\]]+|[(){}.;,@\"\[\]]"
OLD = open("docs/PORT.md", encoding="utf-8").readline().strip()


def git(*words):
    return subprocess.run(["git", *words], capture_output=True, text=True, check=True).stdout


def name(word):
    return ROWS.get(word, LIBRARY.get(word, word))


def plain(words):
    """No parentheses, since a projection of a call is written with others today; one spelling of dashes and primes."""
    return " ".join(w for w in words if w not in "()").replace("″", "''").replace("′", "'").replace("-", "_")


def definitions(text, old):
    text = re.sub(r"(?m)(^|\s)--.*$", "", text)
    text = re.sub(r"(?m)^ *(pub )?(use|open) .*$", "", text)
    words = [name(w) if old else w.replace("_lem", "") for w in re.findall(WORD, text.replace("«", "").replace("»", ""))]
    return [w.replace("_lem", "") for w in plain([re.sub(r"^_(.+)_$", r"◌\1◌", w) for w in words]).split()]


def clause(text, old):
    text = text.replace("«", "").replace("»", "").replace("⌜", "").replace("⌝", "")
    bound = re.match(r"\s*λ (\w+)\.\s*", text)
    if bound:
        text = re.sub(r"(?<![\w.'])" + bound.group(1) + r"(?![\w'])", "result", text[bound.end():])
    if old:
        text = re.sub(r"\s+\.", ".", text)
        text = re.sub(r"now \((\w+)\.exit\)", r"\1.NEW", text)
        text = re.sub(r"now \((\w+)\.entry\)", r"\1.NOW", text)
        text = re.sub(r"now \((\w+(?:\.\w+)+)\)", r"\1.NOW", text)
        text = re.sub(r"\bnow (\w+)", r"\1.NOW", text)
    text = re.sub(r"\.(now|old)\b", ".NOW", re.sub(r"\.new\b", ".NEW", text))
    words = plain([name(w) if old and w != "result" else w for w in re.findall(WORD, text)])
    return words


def functions(text):
    """name -> its parameters and result, and its clauses, each with its kind"""
    text = re.sub(r"(?m)//.*$", "", text)
    found = {}
    for m in re.finditer(r"\bfn (\w+)", text):
        end = text.index("(", m.end())
        depth = 0
        while True:
            depth += {"(": 1, ")": -1}.get(text[end], 0)
            end += 1
            if depth == 0:
                break
        rest = re.compile(r"\s*(->[^{]*?)?\s*(?=requires|ensures|\{)", re.S).match(text, end)
        head = re.sub(r"\s+", " ", text[m.end():end] + (rest.group(1) or ""))
        clauses, at = [], rest.end()
        while True:
            one = re.compile(r"\s*(requires|ensures)\*?(?:\s+\w+)?\s*\{", re.S).match(text, at)
            if not one:
                break
            at, depth = one.end(), 1
            while depth:
                depth += {"{": 1, "}": -1}.get(text[at], 0)
                at += 1
            clauses.append((one.group(1), text[one.end():at - 1]))
        found.setdefault(m.group(1), []).append((head.replace("( ", "(").replace(", )", ")"), clauses))
    return found


def contracts(file, before, today):
    old, new = functions(before), functions(today)
    for f in old:
        for (head, was), (now_head, now) in zip(old[f], new.get(f, [("gone", [])] * len(old[f]))):
            if head != now_head:
                print(f"{file}: {f}\n  - {head}\n  + {now_head}")
            was, now = [(k, clause(c, True)) for k, c in was], [(k, clause(c, False)) for k, c in now]
            for a, b in zip(was + [("", "")] * len(now), now + [("", "")] * len(was)):
                if a != b:
                    print(f"{file}: {f}\n  - {a[0]} {a[1]}\n  + {b[0]} {b[1]}")


def main():
    for file in git("ls-tree", "-r", "--name-only", OLD).split("\n"):
        law = re.match(r"crates/\w+/(specs|proofs)/[^/]*\.antt$", file) and not file.endswith("/Lib.antt")
        if not law and not re.match(r"crates/\w+/src/.*\.rt$", file):
            continue
        if not os.path.exists(file):
            print(f"{file}: gone")
            continue
        before, today = git("show", f"{OLD}:{file}"), open(file, encoding="utf-8").read()
        if not law:
            contracts(file, before, today)
            continue
        a, b = definitions(before, True), definitions(today, False)
        for op, i, j, k, m in difflib.SequenceMatcher(None, a, b, autojunk=False).get_opcodes():
            if op != "equal":
                print(f"{file}: .. {' '.join(a[max(0, i - 4):i])}\n  - {' '.join(a[i:j])}\n  + {' '.join(b[k:m])}")


if __name__ == "__main__":
    main()
