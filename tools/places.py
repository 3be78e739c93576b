#!/usr/bin/env python3
"""Lists the places in crates/*/src that a newer form may serve.

usage: tools/places.py [POINT ..]        at the top of the repository; POINT is a number from 1 to 7, none for all

A row is a place to look at, not a verdict: file:line and what stands there.
"""
import difflib
import itertools
import pathlib
import re
import sys
from collections import defaultdict

WORD = re.compile(r"[A-Za-z_][A-Za-z_0-9]*|'[^']*'|\"[^\"]*\"|\d\w*|[^\s\w]")
KEYWORDS = set("fn pub crate let mut for in if else match return self Self while impl struct enum true false as use const trait ref move".split())
PLAIN = {"u8", "u16", "u32", "u64", "usize", "i8", "bool"}


class Source:
    def __init__(self, path):
        self.path = path
        self.lines = path.read_text().split("\n")
        self.code = [re.sub(r"//.*", "", line) for line in self.lines]

    def rows(self, pattern):
        for number, line in enumerate(self.code, 1):
            if re.search(pattern, line):
                yield f"{self.path}:{number}: {line.strip()}"

    def blocks(self, head):
        """Items that begin with a line like `head`: the line's number and all lines to the closing brace."""
        for number, line in enumerate(self.code):
            if not re.match(head, line):
                continue
            depth, end, opened = 0, number, False
            while end < len(self.code):
                depth += self.code[end].count("{") - self.code[end].count("}")
                opened = opened or "{" in self.code[end]
                if opened and depth == 0 and re.search(r"[};]\s*$", self.code[end]):
                    following = self.code[end + 1].strip() if end + 1 < len(self.code) else ""
                    if not re.match(r"(ensures|requires|\{)", following):
                        break
                if not opened and line.rstrip().endswith(";"):
                    break
                end += 1
            yield number + 1, self.code[number:end + 1]


def sources():
    return [Source(path) for path in sorted(pathlib.Path("crates").glob("*/src/**/*.rt"))]


FUNCTION = r"\s*(pub(\(crate\))? )?(unsafe )?fn "


class Function:
    def __init__(self, source, number, lines):
        text = "\n".join(lines)
        self.where = f"{source.path}:{number}"
        self.name = re.search(r"fn (\w+)", text).group(1)
        head = text[text.index("(", text.index(self.name)):]
        depth, end = 0, 0
        for end, letter in enumerate(head):
            depth += (letter == "(") - (letter == ")")
            if depth == 0:
                break
        self.parameters = re.findall(r"(\w+): ([^,()]+(?:\([^)]*\))?)", head[1:end])
        self.clauses = re.findall(r"(?:ensures|requires)\*? ?\w* \{ (.*) \}$", text, re.M)
        body = [line for line in lines[1:] if not re.match(r"\s*(ensures|requires)", line)]
        self.body = WORD.findall("\n".join(body))
        self.lines = lines
        self.number = number


def functions():
    for source in sources():
        for number, lines in source.blocks(FUNCTION):
            yield Function(source, number, lines)


def shape(tokens):
    """Tokens with names and literals in the order of their first use, so that twins look alike."""
    return [t if t in KEYWORDS or not re.match(r"[\w'\"]", t) else "x" for t in tokens]


def point_1():
    enum, flag = r"^\s*(pub(\(crate\))? )?enum ", r"^\s*(pub(\(crate\))? )?\w+: bool,$"
    by_hand = r"None => None|None => return|Some\((\w+)\) => Some\(|Ok\(\w*\) => Ok\(|Err\(\w+\) => (Err|return|0|None|\w+::Refused)|Err\(_\) => |None => (0|false|unreachable)|None => Err\("
    number = r"fn (number|code|kind|tag)\b.*-> (u8|u16|usize)"
    for source in sources():
        yield from source.rows(f"{enum}|{flag}|{by_hand}|{number}")


def point_2():
    found = [f for f in functions() if len(f.body) >= 18]
    shapes = {f: shape(f.body) for f in found}
    for a, b in itertools.combinations(found, 2):
        if min(len(a.body), len(b.body)) / max(len(a.body), len(b.body)) < 0.8:
            continue
        if difflib.SequenceMatcher(None, shapes[a], shapes[b], autojunk=False).ratio() >= 0.9:
            yield f"{a.where} {a.name} ~ {b.where} {b.name}"
    fields = defaultdict(list)
    for source in sources():
        for number, lines in source.blocks(r"\s*(pub(\(crate\))? )?(struct|enum) \w+"):
            names = tuple(re.findall(r"^\s*(?:pub(?:\(crate\))? )?(\w+)(?:: [^{]|,$|\()", "\n".join(lines[1:]), re.M))
            if len(names) > 1:
                fields[names].append(f"{source.path}:{number} {lines[0].strip()}")
    for names, places in fields.items():
        if len(places) > 1:
            yield " ~ ".join(places)


def point_3():
    for source in sources():
        for number, line in enumerate(source.code, 1):
            loop = re.match(r"\s*(for .* in .*\.\..*|for \(\w+, .*enumerate\(\).*|while .*|loop) \{", line)
            if loop:
                yield f"{source.path}:{number}: {line.strip()}"


def point_4():
    made = r"fn (is_same|number|from_\w+|told_as_\w+|copy|clear|clone|compare|to_\w+|write_\w+|put_\w+|show_\w+|word|drawing|places)\b"
    equal = r"(\w+)\.(\w+) == (\w+)(\.(\w+))? && "
    for source in sources():
        yield from source.rows(f"{made}|{equal}")


def point_5():
    typed = {f: {(name, kind.strip()) for name, kind in f.parameters} for f in functions()}
    together, repeated = defaultdict(set), defaultdict(set)
    for f, names in typed.items():
        for pair in itertools.combinations(sorted(names), 2):
            together[pair].add(f)
        for clause in re.findall(r"requires\*? ?\w* \{ (.*) \}$", "\n".join(f.lines), re.M):
            for part in re.split(r" × ", clause.replace("(", "").replace(")", "")):
                repeated[re.sub(r"\b\w+\.(old|now)", "v", part)].add(f)
    groups = {}
    for places in together.values():
        if len(places) >= 3:
            group = tuple(sorted(set.intersection(*(typed[f] for f in places))))
            groups.setdefault(group, set()).update(places)
    for group, places in sorted(groups.items()):
        words = ", ".join(f"{name}: {kind}" for name, kind in group)
        yield f"({words}) in {len(places)}: " + "; ".join(sorted(f"{f.where} {f.name}" for f in places))
    for part, places in sorted(repeated.items()):
        if len(places) >= 3:
            yield f"{{ {part} }} in {len(places)}: " + "; ".join(sorted(f"{f.where} {f.name}" for f in places))


def point_6():
    for source in sources():
        for number, lines in source.blocks(r"\s*(pub(\(crate\))? )?struct \w+"):
            text = "\n".join(lines)
            arrays = re.findall(r"(\w+): \[[^\n]*; \w+\],", text)
            counts = re.findall(r"(count|len|sleds|last|cost|parent): (?:u8|u16|usize),", text)
            if arrays and counts or len(arrays) > 1 or "parent" in counts:
                yield f"{source.path}:{number}: {lines[0].strip()} arrays {arrays} counts {counts}"
    for f in functions():
        lent = [name for name, kind in f.parameters if re.match(r"&(mut )?\[", kind.strip())]
        beside = [name for name, kind in f.parameters if name in ("at", "from", "count", "last", "len", "spare", "start")]
        if lent and beside:
            yield f"{f.where} {f.name}: {', '.join(lent)} beside {', '.join(beside)}"


def point_7():
    for source in sources():
        for number, lines in source.blocks(r"\s*(pub(\(crate\))? )?trait \w+"):
            if sum(bool(re.match(r"\s*fn ", line)) for line in lines) == 1:
                yield f"{source.path}:{number}: {lines[0].strip()}"
        yield from source.rows(r"^impl.* (OffsetTest|PartTest|PairTest|Steps<\w+>) for ")
        yield from source.rows(r"\bfn\(|\[fn|dyn |match (moment|step|which|kind) \{")


POINTS = {1: point_1, 2: point_2, 3: point_3, 4: point_4, 5: point_5, 6: point_6, 7: point_7}


def main(asked):
    for point in asked or sorted(POINTS):
        rows = list(POINTS[point]())
        print(f"point {point}: {len(rows)} rows")
        for row in rows:
            print("  " + row)


if __name__ == "__main__":
    main([int(word) for word in sys.argv[1:]])
