#!/usr/bin/env python3
"""Respells the repository's own definitions and lemmas as today's Rattle spells them: words in snake case, and a dash only between two names.

It was run once, at the top of the repository, right after the toolchain's port.py. Names of the library, of code and of what Rattle generates stay.
With --list it prints the table of the names, old and new, and writes nothing."""

import pathlib
import re
import sys

ROOT = pathlib.Path(__file__).resolve().parent.parent
TOKEN = re.compile(r"[^\s(){}\[\]:;,.`\"λ→≡×¬⌜⌝|&!?=<>+*/%^◌∷∙⊎≤]+")
DECLARED = re.compile(r"^\s*(?:(?:abbrev|unfoldable)\s+)?(?:pub\s+)?(?:(?:data|record|ruleset)\s+)?([^\s:(){}]+)((?:\s*(?:\{[^}]*\}|\([^)]*\)))*)\s*:\s(.*)$")
LIBRARY_WORDS = {"length", "take", "drop", "set", "sets", "map", "append", "replicate", "cond", "get_or", "foldl"}
GENERATED = re.compile(r"^(tie\.|goal\.|\{M : Type 1\} → statement M)")


def antt_files():
    return sorted(p for p in ROOT.glob("crates/*/*/**/*.antt") if p.parts[len(ROOT.parts) + 2] in ("specs", "proofs"))


def snake(word):
    return re.sub(r"(?<=[a-z0-9])([A-Z])", lambda m: "_" + m[1].lower(), word) if word[:1].islower() else word


def declared():
    """name → (the files that declare it, whether specs/ does)"""
    names = {}
    for path in antt_files():
        for line in path.read_text(encoding="utf-8").splitlines():
            m = DECLARED.match(line)
            if m and m[1] not in ("use", "mod", "where", "let", "in", "module") and not GENERATED.match(m[3]) and "\u2080" not in m[1]:
                files, specs = names.setdefault(m[1], (set(), []))
                files.add(path)
                specs.append("/specs/" in str(path))
    return names


def table():
    names = declared()
    spelled = {n: snake(n) for n in names if "-" not in n}
    words = LIBRARY_WORDS | {spelled[n] for n in spelled if any(names[n][1])}
    new = {}
    for n in names:
        if "-" not in n:
            new[n] = spelled[n]
            continue
        parts = [snake(p) for p in n.split("-")]
        # the longest runs of parts that are one name, as add_mod in add-mod, count as a word
        out = parts[0]
        for left, right in zip(parts, parts[1:]):
            joint = "-" if ((left in words and right in words) or left[:1].isupper()) and not any(names[n][1]) else "_"
            out += joint + right
        new[n] = out
    # two names that would fall together
    back = {}
    for n, m in new.items():
        back.setdefault(m, []).append(n)
    for m, olds in back.items():
        if len(olds) > 1:
            for n in olds:
                if "-" in n:
                    new[n] = m + "_lem"
    return {n: m for n, m in new.items() if n != m}, names


def imported(text):
    """The names that a file imports from elsewhere than the repository."""
    found = set()
    for m in re.finditer(r"^(?:ghost )?use (?!Rattle\.(?!std\.))[\w.·+-]*\.\{([^}]*)\}", text, re.M):
        for item in m[1].split(","):
            found.add(item.strip().split(" as ")[-1].strip())
            found.add(item.strip().split(" as ")[0].strip())
    return found


def turn(text, new, skip):
    return TOKEN.sub(lambda m: new[m[0]] if m[0] in new and m[0] not in skip else m[0], text)


def main(argv):
    new, names = table()
    if argv == ["--list"]:
        for n in sorted(new):
            print(n, "→", new[n])
        return
    for path in antt_files() + sorted(ROOT.glob("crates/*/src/**/*.rt")):
        text = path.read_text(encoding="utf-8")
        skip = imported(text)
        turned = turn(text, new, skip)
        if turned != text:
            path.write_text(turned, encoding="utf-8")


if __name__ == "__main__":
    main(sys.argv[1:])
