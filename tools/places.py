#!/usr/bin/env python3
"""Lists the places of the code that an older form of the language may have left, point by point (docs/DESIGN-PASS.md says what became of each).

Usage: tools/places.py [ROOT] [--count]
    ROOT     a checkout, this one where none is named
    --count  prints the counts alone
A line `// Stays ..` beside a place, up to eight lines above it, says why it stays; such a place is listed with a star.
"""
import re
import sys
from collections import defaultdict
from itertools import combinations
from pathlib import Path

ARGS = [a for a in sys.argv[1:] if not a.startswith("--")]
ROOT = Path(ARGS[0] if ARGS else Path(__file__).resolve().parent.parent)
FILES = sorted(ROOT.glob("crates/*/src/**/*.rt"))
TOKEN = re.compile(r'b?"(?:[^"\\]|\\.)*"|b\'(?:[^\'\\]|\\.)\'|\w+|[^\w\s]')
CONTRACT = re.compile(r"\b(requires|ensures)\b(?:\s+\w+)?\s*\{")


def closing(text, at):
    depth = 0
    for i in range(at, len(text)):
        depth += (text[i] in "({[") - (text[i] in ")}]")
        if depth == 0:
            return i
    return len(text)


class Function:
    def __init__(self, path, text, m):
        self.path, self.name, self.line = path, m.group(1), text.count("\n", 0, m.start()) + 1
        at = text.index("(", m.end() - 1)
        end = closing(text, at)
        self.params = [" ".join(p.split()) for p in re.split(r",(?![^<(\[]*[>)\]])", text[at + 1 : end]) if p.strip()]
        self.result = re.compile(r"[^{;]*?(?=\brequires\b|\bensures\b|\{|;(?!\s*(?:\w+|\d+)\]))").match(text, end + 1)
        self.result = self.result.group() if self.result else ""
        self.requires = []
        while True:
            c = re.compile(r"(?:[^{};\[]|\[[^\]]*\])*?" + CONTRACT.pattern).match(text, end + 1)
            if not c:
                break
            close = closing(text, c.end() - 1)
            if c.group(1) == "requires":
                self.requires += [" ".join(f.split()) for f in re.split(r"×", text[c.end() : close])]
            end = close
        brace = text.find("{", end + 1)
        close = closing(text, brace)
        self.body = text[brace + 1 : close]

    def where(self):
        return f"{self.path.relative_to(ROOT)}:{self.line} {self.name}"

    def shape(self):
        """The body with its names and numbers told apart by their order alone."""
        seen, out = {}, []
        for t in TOKEN.findall(self.body):
            if re.match(r"\d|b?[\"']", t):
                t = "0"
            elif re.match(r"[A-Za-z_]", t) and t not in {"if", "else", "while", "for", "in", "let", "mut", "match", "return", "as"}:
                t = seen.setdefault(t, f"n{len(seen)}")
            out.append(t)
        return tuple(out)


def bare(text):
    return re.sub(r"//[^\n]*", "", text)


TEXTS = {p: p.read_text() for p in FILES}
BARE = {p: bare(t) for p, t in TEXTS.items()}
FUNCTIONS = [Function(p, t, m) for p, t in BARE.items() for m in re.finditer(r"\bfn (\w+)[^({]*\(", t)]


def stays(where):
    """Whether a line beside the place says that it stays."""
    path, line = where.split(" ")[0].rsplit(":", 1)
    lines = TEXTS[ROOT / path].split("\n")
    return any(re.match(r"\s*// Stays", x) for x in lines[max(0, int(line) - 9) : int(line)])


def lines(pattern, flags=0):
    for p, t in BARE.items():
        for m in re.finditer(pattern, t, flags | re.M):
            at = m.start() + len(m.group()) - len(m.group().lstrip())
            line = t.count("\n", 0, at) + 1
            yield f"{p.relative_to(ROOT)}:{line} {t.split(chr(10))[line - 1].strip()}"


def fact_key(fact):
    fact = re.sub(r"[()]", " ", fact)
    fact = re.sub(r"\b\w+\.(now|old)\b", "it", fact)
    return " ".join(fact.split())


def point1():
    """an answer or a number beside a value, and numbers that stand for refusals"""
    yield from lines(r"^    pub (?:number: u8|answer: Answer),")
    yield from lines(r"\banswer::(?!OPEN\b|ACCEPTED\b)[A-Z_]{4,}")
    yield from lines(r"[!=]= answer::OPEN|== OPEN")
    for f in FUNCTIONS:
        if re.search(r"number|refus|admission|tested", f.name) and re.match(r"\s*-> u8\b", f.result):
            yield f.where()
        elif any(re.match(r"number: u8|admission: u8", p) for p in f.params):
            yield f.where()


def point2():
    """functions whose bodies differ in names, types and numbers alone (12 words at least)"""
    alike = defaultdict(list)
    for f in FUNCTIONS:
        if len(f.shape()) >= 12:
            alike[f.shape()].append(f)
    for group in sorted(alike.values(), key=lambda g: g[0].where()):
        if len(group) > 1:
            yield group[0].where() + " = " + ", ".join(f"{f.path.relative_to(ROOT).parts[1]}::{f.name}" for f in group[1:])


def point3():
    """loops that count or walk by hand"""
    yield from lines(r"^\s*while\b")


def point4():
    """conversions, equality, copies and printing by hand"""
    yield from lines(r"^\s*(?:[A-Z]\w*::)?\w+ => (?:\d+|true|false),$")
    yield from lines(r"% 256\)? as u8|256 \* |\* 16777216|\* 65536|65536 \* |4294967296 \* ")
    yield from lines(r"\w+ >> \d+ \| \w+ << \d+")
    yield from lines(r"if \w+\[[^\]]*\] != ")
    yield from lines(r"std::num::wrapping_")
    yield from lines(r"^\s*\w+\[[^\]]*\] = \w+\[[^\]]*\];$")


def point5():
    """facts in the contracts of three functions, and three parameters that travel together in three functions"""
    facts = defaultdict(list)
    for f in FUNCTIONS:
        for fact in {fact_key(x) for x in f.requires}:
            facts[fact].append(f)
    for fact, fs in sorted(facts.items()):
        if len(fs) >= 3:
            yield f"{fs[0].where()} and {len(fs) - 1} more: {fact}"
    groups = defaultdict(list)
    for f in FUNCTIONS:
        for three in combinations(sorted(p for p in f.params if p != "self"), 3):
            groups[three].append(f)
    sets = defaultdict(set)
    for three, fs in groups.items():
        if len(fs) >= 3:
            sets[tuple(f.where() for f in fs)] |= set(three)
    for fs, names in sorted(sets.items()):
        yield f"{fs[0]} and {len(fs) - 1} more: " + "; ".join(sorted(names))


def point6():
    """an array or a slice with a count beside it"""
    for f in FUNCTIONS:
        if any(re.search(r": &?(?:mut )?\[", p) for p in f.params) and any(re.match(r"(?:count|len|length|n): usize", p) for p in f.params):
            yield f.where()
    yield from lines(r"^    pub (?:length|fill|got): usize,")


def point7():
    """a match that chooses which step to run"""
    yield from lines(r"^\s*match [\w.]*stage \{")


for point in (point1, point2, point3, point4, point5, point6, point7):
    found = list(dict.fromkeys(point()))
    kept = sum(map(stays, found))
    print(f"{point.__name__[-1]}. {point.__doc__}: {len(found)}, {kept} of them with a line that says why they stay")
    if "--count" not in sys.argv:
        for where in found:
            print("  " + ("* " if stays(where) else "  ") + where)
