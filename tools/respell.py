#!/usr/bin/env python3
"""Respells the repository's own definitions and lemmas: words in snake case, types in camel case.

usage: tools/respell.py [--dry | --looked]      at the top of the repository, once, right after the kit's port.py

A name is own if a file of specs/ or proofs/ gives it a signature, a record or data type, a field, a constructor, a parameter or a
let. Answers to goals (`NAME : goal.NAME`) keep the names that the check made. A name with a dash becomes `two_words`, or `TwoWords`
if it begins with a capital letter; `Two_words` becomes `TwoWords`. Two names that would fall together in one file stop it, but for
`--looked`: the ones that it named here were looked at, and stand in different modules, or one is a function or file of src/.
"""

import collections
import os
import re
import sys

WORD = r"[A-Za-z][A-Za-z0-9_'\u2032\u2080-\u2089-]*"
TOKEN = re.compile(r"(?<![\w'\u2032\u2080-\u2089-])" + WORD)
SIGNATURE = re.compile(r"^\s*(?:(?:pub|abbrev|unfoldable) )*((?:" + WORD + r" )+): (?!goal\.)")
TYPE = re.compile(r"^\s*(?:(?:pub|abbrev|unfoldable) )*(?:record|data) (?:pub )?(" + WORD + r")")
BINDER = re.compile(r"[({]((?:" + WORD + r" )+): ")
LET = re.compile(r"\blet (" + WORD + r")\b(?= [:=])")
LETS = re.compile(r"\blet \(((?:" + WORD + r"|[(), ])+)\) =")

LIBRARY = r"\s*(?:ghost )?use (?:Rattle\.std|mathlib|borrow|native|lib|Prim)\b"


def files(root, endings):
    for folder, dirs, names in os.walk(os.path.join(root, "crates")):
        dirs[:] = sorted(d for d in dirs if d not in ("out", "target"))
        for name in sorted(names):
            if name.endswith(endings):
                yield os.path.join(folder, name)


def read(path):
    with open(path, encoding="utf-8") as f:
        return f.read()


def respelled(name):
    if name[0].isupper():
        return "".join(p[:1].upper() + p[1:] for p in re.split("[-_]", name))
    return name.replace("-", "_")


def own_names(root):
    own = set()
    for path in files(root, ".antt"):
        for line in read(path).split("\n"):
            if line.lstrip().startswith("--") or line.startswith("use "):
                continue
            for form in (SIGNATURE, TYPE):
                m = form.match(line)
                if m:
                    own.update(m.group(1).split())
            for m in BINDER.finditer(line):
                own.update(m.group(1).split())
            own.update(m.group(1) for m in LET.finditer(line))
            for m in LETS.finditer(line):
                own.update(TOKEN.findall(m.group(1)))
    return {n: respelled(n) for n in own if ("-" in n or (n[0].isupper() and "_" in n)) and respelled(n) != n}


def parts(path, text):
    """The stretches of a file in which names are respelled: all but comments, and in Rust's text all but strings too."""
    skip = r"--[^\n]*" if path.endswith(".antt") else r"//[^\n]*|\"(?:[^\"\\]|\\.)*\""
    last = 0
    for m in re.finditer(skip, text):
        yield text[last : m.start()], True
        yield m.group(), False
        last = m.end()
    yield text[last:], True


def borrowed(text, names):
    """Own names that this file has from a library too: there only a field's label is respelled."""
    return {n for line in text.split("\n") if re.match(LIBRARY, line) for n in TOKEN.findall(line) if n in names}


def turned(path, text, names):
    kept = borrowed(text, names)
    text = re.sub(r"(?m)^(\s+)(" + WORD + r")(?= = )", lambda m: m.group(1) + names[m.group(2)] if m.group(2) in kept else m.group(), text)
    names = {n: new for n, new in names.items() if n not in kept}
    return "".join(TOKEN.sub(lambda m: names.get(m.group(), m.group()), p) if live else p for p, live in parts(path, text))


def fallen(path, text, names):
    """Pairs of names of one file that would be one name."""
    met = collections.defaultdict(set)
    for p, live in parts(path, text):
        if live:
            for m in TOKEN.finditer(p):
                met[names.get(m.group(), m.group())].add(m.group())
    return [sorted(old) for old in met.values() if len(old) > 1]


def main(argv):
    root = "."
    names = own_names(root)
    bad = 0
    for path in files(root, (".antt", ".rt", ".edit")):
        for pair in fallen(path, read(path), names):
            print(f"{path}: {', '.join(pair)} fall together")
            bad += 1
    print(f"{len(names)} names, {bad} fall together")
    if "--dry" in argv:
        for n in sorted(names):
            print(n, "->", names[n])
        return 0
    if bad and "--looked" not in argv:
        return 1
    for path in files(root, (".antt", ".rt", ".edit")):
        old = read(path)
        new = turned(path, old, names)
        if new != old:
            with open(path, "w", encoding="utf-8") as f:
                f.write(new)
    return 0


if __name__ == "__main__":
    raise SystemExit(main(sys.argv[1:]))
