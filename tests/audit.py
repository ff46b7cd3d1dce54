#!/usr/bin/env python3
"""Reads every contract of the repository as an auditor would, and fails on the first kind of thing that would make one worthless.

For each public call (a `pub fn` that another crate can name, and every exported function; not in a crate that only one other part may name) it
prints signature and contract, and checks:
  total     it has no `requires`, and none by the type of an argument: no argument is a struct with a fact, whose caller would have to prove it;
  tight     it has an `ensures` whose facts are equations. On the left stands the result, a field of it, or what is left in something lent by
            `&mut`; or a record assembled of these alone. On the right stands a term in which neither the result nor anything left behind
            occurs, and no sign of logic. Together they pin the whole result and everything lent; of a reference in the result, what it points
            at and where; of a `Result` with a refusal, the number (`number_in result`) and, by `IfOk`, the value;
  meaning   every symbol of the contract comes from the library, every other name from a `specs` file or the call's own parameters. No name of
            the library's is taken for anything else, neither by a definition of a specs file, public or private, nor by a renaming import, and
            specs files import from the library and from specs files alone.
What it cannot read it does not pass over: every `fn`, `mod`, `use` and `pub` of the code, every import of a specs file and every line of an edit
has to have the form that it knows.
It checks that the code of the field and of what evaluates with it, with every crate called from there, divides by powers of two alone.
Then it checks the edits and the papers: each must-fail edit fits its file at exactly one place and, if it is a wrong program, names its public
call, or the function of a program, in a line `# of CALL`; each public call has two of them; docs/WRONG-PROGRAMS.md, which counts and lists them all, is what the edits say;
and every file, link and theorem that the papers name is there. No axiom is declared and no proof cites `lem` or `ac`.

Usage: tests/audit.py [--list | --theorems | --page]
    --list       prints the contracts too
    --theorems   prints the statement of every theorem that docs/PROMISES.md names, with its file and line
    --page       writes docs/WRONG-PROGRAMS.md from the edits
"""
import re
import sys
from functools import cache
from pathlib import Path

ROOT = Path(__file__).resolve().parent.parent
LIBRARY = {"mathlib", "Prim", "native", "lib", "borrow", "Rattle.std", "Rattle.core", "Rattle.hex"}  # of Rattle's own, by crate
PRELUDE = set("IsProp IsSet ⊥ absurd ¬◌ Dec yes no Discrete Unit tt Id J Path".split())  # the library's, with no import
LANGUAGE = set("λ . , ( ) { } × → :".split())  # the contract language's own signs
WORDS = {"result", "tt"}  # its own words
LEFT = {"new", "exit"}  # behind a parameter: what the call leaves in it
TERMS = set("+ - * / % ^ ∷ [] ++".split())  # the signs that a term may have; any other sign is no term's
EQUALITY = ("Rattle.std.specs.Prelude", "◌≡◌")
# records made of their arguments, with the files that define them: an equation of one pins every argument
ASSEMBLES = {"replied": "Rattle.reader_model.specs.Model", "outcome": "Rattle.lent_reader.specs.Held"}
NUMBER = ("Rattle.answer.specs.Refusals", "number_in")  # what tells of a `Result` whether it is refused, and by which refusal
IF_OK = ("Rattle.std.specs.Prelude", "IfOk")
BLOCK = re.compile(r"^(?:pub )?(trait|impl) (\w+)[^{}\n]*\{\n(.*?)^\}", re.M | re.S)  # a trait or an impl, with what stands in it
GHOST_MEMBER = re.compile(r"^    ghost (\w+)(:| =) \{ ([^{}\n]*) \};$", re.M)  # of a trait, what each impl says of its type; of an impl, what it says
GHOST_FIELD = re.compile(r"^    (?:pub )?ghost (\w+): \{ ([^{}\n]*) \},$", re.M)  # a fact that holds of every value of a struct
GHOST_MODEL = re.compile(r"^    ghost (?:Value|view|invariant) = \{ [^{}\n]* \};$", re.M)  # what contracts see of a struct, of which no public call speaks
OUTSIDE = set()  # public calls whose result no contract can pin: none
BY_POWERS_OF_TWO = ["field", "felt", "fold"]  # their code, and what it calls, divides and takes remainders by nothing else (request 2026-03)
WRAPPING = re.compile(r"wrapping_(add|sub)_u(8|16|32|64)")  # what that code may call of std::num
METHODS = set("len min map and_then wrapping_add wrapping_sub".split())  # and of the library's methods: none of these divides
# crates of one part: what may name them. Their functions are no interface for others, and may require what their callers have tested.
WITHIN = {
    "reader_items": {"reader_queries", "reader_pieces", "reader"},
    "reader_queries": {"reader_pieces"},
    "reader_pieces": {"reader"},
    "writer_layers": {"writer"},
    "streams": {"verify", "vectors", "corpus", "call_lists"},
}
OF_PROGRAMS = {"streams"}  # what programs share, over any reader and writer: its functions count as theirs
TESTS_ONLY = {"test_exports"}  # passes calls on to the comparisons; no interface for users

faults = []


def fault(where, what):
    if f"{where}: {what}" not in faults:
        faults.append(f"{where}: {what}")


def crates():
    for line in (ROOT / "crates.txt").read_text().splitlines():
        if line and not line.startswith("#"):
            yield line.split(":")[0].split()[0]


TOKEN = re.compile(r'b"(?:[^"\\]|\\.)*"|"(?:[^"\\]|\\.)*"|b\'(?:[^\'\\]|\\.)[^\']*\'|//[^\n]*|/\*|\w+|\s+|->|=>|[<>=!]=|.', re.S)
COMMENT = re.compile(r'b?"(?:[^"\\]|\\.)*"|b\'(?:[^\'\\]|\\.)[^\']*\'|//[^\n]*')


@cache
def bare(text):
    """The text without comments: each becomes as many spaces."""
    return COMMENT.sub(lambda m: " " * len(m.group()) if m.group().startswith("//") else m.group(), text)


@cache
def tokens(text):
    """(token, start) for each token of a code, strings as one token."""
    return [(m.group(), m.start()) for m in TOKEN.finditer(text) if not m.group().isspace()]


def balanced(text, at, opening, closing):
    """The index after the bracket that closes the one at `at`."""
    depth = 0
    for i in range(at, len(text)):
        depth += (text[i] == opening) - (text[i] == closing)
        if depth == 0:
            return i + 1
    raise ValueError("brackets")


class Call:
    """A function with its contract. `bounds` are the ghost members that its type parameters have from traits of its file, as `T.ZERO`; `generics` is
    what stands between its name and its arguments."""

    def __init__(self, name, public, params, result, requires, ensures, imports, bounds=(), generics=""):
        self.name, self.public, self.generics, self.params, self.result = name, public, generics, params, result
        self.requires, self.ensures, self.imports, self.bounds = requires, ensures, imports, set(bounds)


def root_of(path):
    """Where a path begins: the crate's name is part of it."""
    return ".".join(path.split(".")[: 2 if path.startswith("Rattle.") else 1])


def imports_of(text, keyword, where=None):
    """name → (root, whole path, name there) for every `use` of the file; a module's alias ends in a dot."""
    found = {}
    for m in re.finditer(rf"^{keyword}use\b([^\n]*)", text, re.M):
        line = re.fullmatch(r" ([^\s{};]+?)(?:\.\{([^{}]*)\}| as (\w+))?(?<!\*);? *", m.group(1))
        if not line or ("." not in line.group(1)):
            if where:
                fault(where, f"an import that the audit cannot read: use{m.group(1)}")
            continue
        path, names, alias = line.groups()
        root = root_of(path)
        if names:
            entries = [((n.strip().split(" as ") * 2)[1].strip(), n.strip().split(" as ")[0].strip()) for n in names.split(",")]
        else:
            entries = [((alias or path.split(".")[-1]) + ".", alias or "")]
        for name, there in entries:
            if name in found and where:
                fault(where, f"'{name}' is imported twice")
            if where and names and name != there and root in LIBRARY:
                fault(where, f"'{there}' of the library is imported under another name, '{name}'")
            found[name] = (root, path, there)
    return found


def owner_of(head):
    """The type whose `impl` begins so."""
    while (less := re.sub(r"<[^<>]*>", "", head)) != head:
        head = less
    names = re.findall(r"\b[A-Z]\w*", head.partition(" where ")[0])
    return names[-1] if names else None


def functions(text, crate, module, public_module, where=None):
    """Every function of a source file. What has another form than it knows is a fault of `where`."""
    text = bare(text)
    imports = imports_of(text, "ghost ", where)
    traits = {name: GHOST_MEMBER.findall(body) for kind, name, body in BLOCK.findall(text) if kind == "trait"}
    stream = tokens(text)
    words = [t for t, _ in stream]
    owners, owner, depth = [], None, 0  # the `impl` that each token stands in
    for i, t in enumerate(words):
        if t == "impl" and depth == 0:
            owner = owner_of(" ".join(words[i + 1 : words.index("{", i)]))
        depth += (t == "{") - (t == "}")
        owners.append(owner if depth else None)
        if depth == 0 and t == "}":
            owner = None
    for i, t in enumerate(words):
        if t != "fn":
            continue
        j = i - 1
        exported = j >= 1 and words[j] == '"C"' and words[j - 1] == "extern"
        j -= 2 if exported else 0
        public = j >= 0 and words[j] == "pub"
        name = words[i + 1]
        head = text[stream[j][1] if public else stream[i][1] : stream[i + 1][1]]
        if where and head != ("pub " if public else "") + ('extern "C" ' if exported else "") + "fn ":
            fault(where, f"a function that the audit cannot read: {' '.join(head.split())} {name}")
        at = text.index("(", stream[i + 1][1])
        end = balanced(text, at, "(", ")")
        params = text[at + 1 : end - 1]
        generics = re.findall(r"(\w+): (\w+)(?=[,>])", text[stream[i + 1][1] : at])
        bounds = [f"{kind}.{member}" for kind, bound in generics for member, _, _ in traits.get(bound, [])]
        clauses = {"requires": [], "ensures": []}
        m = re.compile(r"\s*(?:->\s*([^{}]*?))?\s*(?=\b(?:requires|ensures)\b|\{)").match(text, end)
        result, end = (m.group(1) or "").strip(), m.end()
        while not text.startswith(("{", ";"), end):
            m = re.compile(r"(requires|ensures)(\*?)(?:\s+\w+)?\s*\{").match(text, end)
            if not m:
                if where:
                    fault(where, f"a contract that the audit cannot read: {name}")
                break
            close = balanced(text, m.end() - 1, "{", "}")
            clauses[m.group(1)].append(m.group(2) + " ".join(text[m.end() : close - 1].split()))
            end = close + len(text[close:]) - len(text[close:].lstrip())
        whole = "::".join([crate] + ([module] if module else []) + ([owners[i]] if owners[i] else []) + [name])
        yield Call(whole, exported or (public and public_module), params, result, clauses["requires"], clauses["ensures"], imports, bounds, text[stream[i + 1][1] + len(name) : at])


def source(crate):
    """(file, module, public) for each source file of a crate that something names."""
    src = ROOT / "crates" / crate / "src"
    lib = src / "lib.rt"
    if not lib.exists():
        return [(src / "main.rt", "", False)]
    text = bare(lib.read_text())
    found = [(lib, "", True)]
    for public, name in re.findall(r"^(pub )?mod (\w+);", text, re.M):
        if (src / f"{name}.rt").exists():
            found.append((src / f"{name}.rt", name, bool(public)))
        else:
            fault((src / f"{name}.rt").relative_to(ROOT), "not there")
    return found


def check_forms():
    """Modules, imports and what is public have the forms that the audit knows, in files that it reads."""
    for crate in crates():
        read = source(crate)
        for path in (ROOT / "crates" / crate / "src").rglob("*"):
            if path.is_file() and path not in [p for p, _, _ in read]:
                fault(path.relative_to(ROOT), "a source file that the audit does not read")
        for path, module, public in read:
            where = path.relative_to(ROOT)
            text = bare(path.read_text())
            words = [t for t, _ in tokens(text)]
            if "/*" in words:
                fault(where, "a comment between /* and */")
            lines = len(re.findall(r"^(?:pub )?mod \w+;$", text, re.M))
            if words.count("mod") != (0 if module else lines):
                fault(where, "a module that the audit does not read")
            if words.count("ghost") != len(re.findall(r"^ghost use [^\n]*;$", text, re.M)) + len(GHOST_FIELD.findall(text)) + sum(len(GHOST_MEMBER.findall(body)) for _, _, body in BLOCK.findall(text)):
                fault(where, "an import that the audit cannot read, or a ghost member")
            if public and GHOST_MODEL.search(text):
                fault(where, "a model of a struct where public contracts may speak of it")
            traits = re.findall(r"^pub trait (\w+)[^{}\n]*\{\n(.*?)^\}", text, re.M | re.S)
            if sum(a == "pub" and b == "trait" for a, b in zip(words, words[1:])) != len(traits):
                fault(where, "a public trait that the audit cannot read")
            for name, body in traits:
                if "fn" in [t for t, _ in tokens(body)]:
                    fault(where, f"a public trait with a function: {name}")
                if any(said != "Self" for _, _, said in GHOST_MEMBER.findall(body)):
                    fault(where, f"a public trait that asks for a fact: {name}")
            for m in re.finditer(r"^(?!ghost )[^\n]*\buse\b[^;]*?\bas\b[^;]*;", text, re.M):
                fault(where, f"an import under another name: {' '.join(m.group().split())}")
            for a, b in zip(words, words[1:]):
                if a == "pub" and not (b in {"fn", "extern", "mod", "struct", "enum", "const"} or b.isidentifier() and b not in {"use", "type"}):
                    fault(where, f"'pub {b}'")
            for a, b, c in zip(words, words[1:], words[2:]):
                if a == "extern" and (b != '"C"' or c != "fn"):
                    fault(where, f"'extern {b} {c}'")


def check_within():
    """A crate of one part is named by that part alone."""
    for line in (ROOT / "crates.txt").read_text().splitlines():
        crate, _, named = line.partition(":")
        crate = " ".join(crate.split()[:1])  # without what kind of crate it is
        for inner in set(named.split()) & set(WITHIN):
            if not line.startswith("#") and crate not in WITHIN[inner]:
                fault("crates.txt", f"{crate} names {inner}, which is for {', '.join(sorted(WITHIN[inner]))} alone")


def structs():
    found = {}
    for crate in crates():
        for path, _, _ in source(crate):
            for name, fields in re.findall(r"pub struct (\w+)(?:<[^>]*>)?\s*\{([^}]*)\}", GHOST_FIELD.sub("", bare(path.read_text()))):
                if name in found:
                    fault(path.relative_to(ROOT), f"a second public struct {name}")
                held = [f.replace("pub", "").partition(":") for f in fields.split(",") if f.strip()]
                found[name] = {f.strip() for f, _, _ in held} | {f"{f.strip()}.ref_ptr" for f, _, kind in held if kind.strip().startswith("&")}
    return found


def item(text, at):
    """What belongs to the struct, enum or type that begins at `at`."""
    depth = 0
    for i in range(at, len(text)):
        depth += (text[i] in "([{") - (text[i] in ")]}")
        if depth == 0 and text[i] in ";}":
            return text[at : i + 1]
    raise ValueError("brackets")


def kinds_with(held, bodies):
    """The names of `held`, and of every type that has one of them within."""
    while True:
        more = {name for name, body in bodies.items() if name not in held and held & set(re.findall(r"\w+", body))}
        if not more:
            return held
        held = held | more


def guarded():
    """The types of whose values a fact holds, and those that contracts see through a model; each with the types that have one within."""
    bodies, modelled = {}, set()
    for crate in crates():
        for path, _, _ in source(crate):
            text = bare(path.read_text())
            for m in re.finditer(r"\b(?:struct|enum|union|type)\s+(?:r#)?(\w+)", text):
                bodies[m.group(1)] = bodies.get(m.group(1), "") + item(text, m.end())
            modelled |= {owner_of(head) for head in re.findall(r"\bimpl\b([^{};]*?\bModel\s+for\s[^{};]*)", text)}
    return kinds_with({name for name, body in bodies.items() if re.search(r"\bghost\b", body)}, bodies), kinds_with(modelled, bodies)


def check_total(call, facts, modelled):
    """It asks nothing of its callers: neither by a clause, nor by a type whose values they would have to prove something of. And nothing is told of it
    through a model, whose equations may pin less than the value."""
    if call.requires:
        fault(call.name, "has a requires")
    taken = parameters(call)
    given, _, bounds = call.result.partition("where")
    kinds = set(re.findall(r"\w+", " ".join([*taken.values(), call.generics, bounds])))
    owner = set(call.name.split("::")[-2:-1])
    if {"impl", "dyn"} & (kinds | set(re.findall(r"\w+", given))):
        fault(call.name, "a type that the audit cannot read: impl or dyn")
    for name in sorted((kinds | (owner if "self" in taken or "Self" in kinds else set())) & facts):
        fault(call.name, f"asks of its callers by a type: {name}")
    for name in sorted((kinds | owner | set(re.findall(r"\w+", call.result))) & modelled):
        fault(call.name, f"speaks of {name}, which contracts see through a model")


def parameters(call):
    """name → type, `self` included."""
    parts, depth, last = [], 0, ""
    for c in call.params:
        depth += (c in "([<{") - (c in ")]>}")
        if c == "," and depth == 0:
            parts.append(last)
            last = ""
        else:
            last += c
    parts.append(last)
    found = {}
    for part in (p.strip() for p in parts):
        if part:
            name, _, kind = part.partition(":")
            words = re.findall(r"\w+", re.sub(r"'\w+", "", name))
            found[words[-1]] = kind.strip() or part
    return found


def is_lent(kind):
    return bool(re.match(r"&\s*(?:'\w+\s*)?mut\b", kind))


def tree(text):
    """A fact as a list of its words, each bracket a list of its own."""
    stack = [[]]
    for t in re.findall(r"[()]|[^\s()]+", text):
        if t == "(":
            stack.append([])
        elif t == ")":
            if len(stack) == 1:
                raise ValueError("brackets")
            last = stack.pop()
            stack[-1].append(last)
        else:
            stack[-1].append(t)
    if len(stack) != 1:
        raise ValueError("brackets")
    return stack[0]


def split_at(items, sign):
    parts = [[]]
    for x in items:
        if x == sign:
            parts.append([])
        else:
            parts[-1].append(x)
    return parts


def conjuncts(items):
    """The facts that a fact joins by ×."""
    while len(items) == 1 and isinstance(items[0], list):
        items = items[0]
    parts = split_at(items, "×")
    return [items] if len(parts) == 1 else [f for part in parts for f in conjuncts(part)]


def leaves(items):
    for x in items:
        if isinstance(x, list):
            yield from leaves(x)
        else:
            yield x


def show(items):
    return " ".join(f"({show(x)})" if isinstance(x, list) else x for x in items)


def pinned_by(left, call, fields):
    """What a left side pins: "result", ".field" of it, ".field.ref_ptr" for where a reference in it points, or a lent name with or without a field; None
    if it is of no such form. `fields` are those of the result."""
    while len(left) == 1 and isinstance(left[0], list):
        left = left[0]
    if len(left) == 1:
        name, *path = left[0].split(".")
        if name == "result":
            # `now` is what a reference points at, and of anything else a field that has this name
            if len(path) == 2 and path[1] == "now" and f"{path[0]}.ref_ptr" in fields:
                return ["." + path[0]]
            if len(path) < 2 or len(path) == 2 and path[1] == "ref_ptr":
                return ["".join("." + field for field in path) or "result"]
        if is_lent(parameters(call).get(name, "")) and path[:1] == ["new"] and len(path) < 3:
            return [".".join([name, *path[1:]])]
        return None
    if len(left) == 2 and left[1] == "result" and call.imports.get(left[0], ("", "", ""))[1:] == NUMBER:
        return ["number"]
    if left and isinstance(left[0], str) and call.imports.get(left[0], ("", ""))[1] == ASSEMBLES.get(left[0], "none"):
        inner = [pinned_by([x], call, fields) for x in left[1:]]
        return None if None in inner else [p for found in inner for p in found]
    return None


def value_of(items, call):
    """The fact that `IfOk result (λ v. fact)` states of the value, with v named as it is; None if it is of no such form."""
    if len(items) == 3 and items[:2] == ["IfOk", "result"] and call.imports.get("IfOk", ("", "", ""))[1:] == IF_OK and isinstance(items[2], list):
        sign, name, *fact = items[2] + [""] * 2
        if sign == "λ" and re.fullmatch(r"[a-z]\w*\.", name) and name[:-1] not in parameters(call):
            return name[:-1], items[2][2:]
    return None


def check_tight(call, fields_of):
    pinned = set()
    refusable = re.fullmatch(r"Result<(.*), Refusal>", call.result or "")
    kind = (refusable.group(1) if refusable else call.result or "").split("::")[-1].split("<")[0]
    for clause in call.ensures:
        if clause.startswith("*"):
            fault(call.name, f"a contract that is no fact about the result: {clause}")
            return
        if "result" in parameters(call):
            fault(call.name, f"the result has a parameter's name: {clause}")
        of_value = value_of(tree(clause), call) if refusable else None
        for items in conjuncts(of_value[1] if of_value else tree(clause)):
            fact = show(items)
            sides = split_at(items, "≡")
            if len(sides) != 2:
                fault(call.name, f"not an equation: {fact}")
                continue
            left, right = sides
            inside = list(leaves(right))
            if of_value:
                name, *path = left[0].split(".") if len(left) == 1 and isinstance(left[0], str) else [""]
                if name != of_value[0] or len(path) > 1 or any(x.split(".")[0] == name for x in inside):
                    fault(call.name, f"not what the value is: {fact}")
                    continue
                left = [".".join(["result", *path])]
            elif refusable and left and isinstance(left[0], str) and left[0].split(".")[0] == "result":
                fault(call.name, f"a result that may be refused is told by its number and its value: {fact}")
                continue
            if any(x.split(".")[0] == "result" or LEFT & set(x.split(".")[1:]) for x in inside):
                fault(call.name, f"the right side speaks of the result: {fact}")
            signs = [x for x in inside if not re.match(r"[\w.]", x) and x not in TERMS] + [x for x in inside if x.startswith("λ")]
            if signs:
                fault(call.name, f"not an equation of a term: {signs[0]} in {fact}")
            got = pinned_by(left, call, fields_of.get(kind, set()))
            if got is None:
                fault(call.name, f"the left side is not the result, nor what is left: {fact}")
            else:
                pinned |= set(got)
    if refusable and "number" not in pinned:
        fault(call.name, "the contract does not pin the number of what may be refused")
    if call.result and "result" not in pinned and not (refusable and kind == "()"):
        missing = fields_of.get(kind, {"result"}) - {f[1:] for f in pinned if f.startswith(".")}
        if missing:
            fault(call.name, f"the contract does not pin {', '.join(sorted(missing))} of {call.result}")
    for name, kind in parameters(call).items():
        if not is_lent(kind) or name in pinned:
            continue
        fields = fields_of.get(kind.split()[-1].split("::")[-1], {None})
        if not all(f"{name}.{field}" in pinned for field in fields):
            fault(call.name, f"the contract does not pin what is left in {name}")


def is_specs(path):
    """Whether a path leads to a specs file of this repository."""
    return bool(re.match(r"Rattle\.\w+\.specs\.", path + ".")) and path.split(".")[1] in set(crates())


def check_meaning(call):
    known = set(parameters(call)) | WORDS
    for clause in call.requires + call.ensures:
        bound = set(re.findall(r"λ (\w+)\.", clause))
        text = re.sub(r"λ \w+\.", " ", clause)
        text = re.sub(r"(?<=\))(?:\.[\w-]+)+", " ", text)  # fields of what stands in brackets
        for token in re.findall(r"[^\s(){},]+", text):
            head = token.split(".")[0]  # what follows is a field, or a name of a module
            if (head in WORDS or head in bound) and (head in call.imports or head + "." in call.imports):
                fault(call.name, f"'{head}' is a word of contracts, and imported")
            if head in parameters(call) and head + "." in call.imports and token.split(".")[1:2] not in (["now"], ["old"], ["new"]):
                fault(call.name, f"'{head}' is a parameter, and a module")
            if token in LANGUAGE or head in known or head in bound or token in call.bounds or re.fullmatch(r"0x[0-9a-f]+|\d+", token):
                continue
            symbol = not re.match(r"[A-Za-z]", token)
            got = call.imports.get(f"◌{token}◌") or call.imports.get(token) or (call.imports.get(head + ".") or call.imports.get(head) if head else None)
            if not got and token.startswith("Rattle."):
                got = (root_of(token), token, token)
            if not got:
                fault(call.name, f"'{token}' comes from nowhere")
            elif symbol and got[0] not in LIBRARY:
                fault(call.name, f"the symbol '{token}' is not the library's: {got[1]}")
            elif token == "≡" and (got[1], got[2]) != EQUALITY:
                fault(call.name, f"'≡' is not equality: {got[1]}.{got[2]}")
            elif got[0] not in LIBRARY and not is_specs(got[1]):
                fault(call.name, f"'{token}' is not from a specs file: {got[1]}")


def check_ghost_fields(listed):
    """A fact that holds of every value of a struct, and what a trait or an impl says for contracts, mean what their words say, as a contract does. What
    an impl says that a function of the library's traits gives (`from_gives`) pins it, as a contract does."""
    for crate in crates():
        for path, _, _ in source(crate):
            text = bare(path.read_text())
            imports = imports_of(text, "ghost ")
            for name, body in re.findall(r"struct (\w+)(?:<[^>]*>)?\s*\{\n(.*?)^\}", text, re.M | re.S):
                fields = ", ".join(f.strip() for f in GHOST_FIELD.sub("", body).replace("pub ", "").split(",") if f.strip())
                for field, fact in GHOST_FIELD.findall(body):
                    if listed:
                        print(f"{crate}::{name}\n    {field}: {' '.join(fact.split())}")
                    check_meaning(Call(f"{crate}::{name}.{field}", False, fields, "", [], [" ".join(fact.split())], imports))
            for _, name, body in BLOCK.findall(text):
                for member, _, said in GHOST_MEMBER.findall(body):
                    if listed:
                        print(f"{crate}::{name}\n    {member}: {said}")
                    given = re.fullmatch(r"λ \w+\. λ (\w+)\. (\w+) ≡ (.*)", said)
                    if member.endswith("_gives") and not (given and given[1] == given[2] and given[1] not in re.findall(r"\w+", given[3])):
                        fault(f"{crate}::{name}.{member}", f"does not pin what is given: {said}")
                    said = re.sub(r"λ ([\w ]+)\.", lambda m: " ".join(f"λ {x}." for x in m.group(1).split()), said)
                    check_meaning(Call(f"{crate}::{name}.{member}", False, "", "", [], [said], imports, ["Self"]))


def check_names():
    """A name of the library's means that one thing in every specs file and contract, and specs files rest on specs files alone."""
    files = [p for c in crates() for p in sorted((ROOT / "crates" / c / "specs").rglob("*.antt"))]
    texts = {p: re.sub(r"--[^\n]*", "", p.read_text()) for p in files}
    sources = {p: bare(p.read_text()) for c in crates() for p, _, _ in source(c)}
    uses = {p: imports_of(t, "", p.relative_to(ROOT)) for p, t in texts.items()} | {p: imports_of(t, "ghost ") for p, t in sources.items()}
    library = {}
    for path, found in uses.items():
        for name, (root, place, there) in found.items():
            if root in LIBRARY and not name.endswith("."):
                if library.setdefault(name, place) != place:
                    fault(path.relative_to(ROOT), f"'{name}' is {place}'s here and {library[name]}'s elsewhere")
    taken = {n.strip("◌") for n in library} | PRELUDE
    for path, found in uses.items():
        for name, (root, place, _) in found.items():
            if root not in LIBRARY and (name in library or name in PRELUDE or name.rstrip(".") in LIBRARY):
                fault(path.relative_to(ROOT), f"'{name}' of {place} is also a name of the library")
            if path in texts and root not in LIBRARY and not is_specs(place):
                fault(path.relative_to(ROOT), f"a definition rests on {place}, which is no specs file")
    for path, text in texts.items():
        where = path.relative_to(ROOT)
        code = "\n".join(line for line in text.splitlines() if not re.match(r"use\b", line))
        code = re.sub(r'(?<!\')"(?:[^"\\\n]|\\.)*"(?!\')', "string", code)
        if '"' in code:
            fault(where, "a string that the audit cannot read")
        for line in re.findall(r"^.*(?<![\w-])(?:use|open|package)(?![\w-]).*$|^.*\{-.*$", code, re.M):
            fault(where, f"a line that the audit cannot read: {line.strip()}")
        here = {n.strip("◌") for n, (root, _, _) in uses[path].items() if root in LIBRARY} | (PRELUDE & {"⊥", "absurd", "Unit", "tt", "Path"})
        fieldless = re.sub(r"(?<=[\w')])\.[\w-]+", " ", re.sub(r"(λ [^.()]*)\.", r"\1 . ", code))  # a binder's point begins no field
        for token in set(re.findall(r"[^\s(){};,|.]+", fieldless)):
            if token in taken and token not in here:
                fault(where, f"defines '{token}', a name of the library")
        bound = set(re.findall(r"λ ([\w-]+)\.|\blet ([\w-]+)\b", code)) | set(re.findall(r"[({]([\w -]+) : ()", code))
        declared = [line.partition(" : ")[0] for line in code.splitlines() if " : " in line and "=" not in line.partition(" : ")[0]]
        names = {n for pair in bound for words in pair for n in words.split()}
        names |= {n for d in declared if not re.search("[({→]", d) for n in d.split()[-1:]}
        for name in names:
            if name.strip("◌") in taken:
                fault(where, f"defines '{name}', a name of the library")
        if re.search(r"^\s*axiom\b", text, re.M):
            fault(where, "declares an axiom")
    for path in ROOT.glob("crates/*/proofs/**/*.antt"):
        text = re.sub(r"--[^\n]*", "", path.read_text())
        if re.search(r"^\s*axiom\b|\bPrim\.Axiom\b|(?<![\w-])(?:lem|ac)(?![\w-])", text, re.M):
            fault(path.relative_to(ROOT), "an axiom")
    for path in list(ROOT.glob("crates/**/*.wip")):
        fault(path.relative_to(ROOT), "unfinished")


GHOST_LINE = re.compile(r"^ +(?:pub )?ghost (?!use\b)[^\n]*$", re.M)  # a fact of a struct, or what a trait or an impl says


@cache
def without_contracts(text):
    """The code alone: no comments, no imports of definitions, no contracts, no facts of types."""
    text = GHOST_LINE.sub("", re.sub(r"^ *ghost use [^;]*;", "", bare(text), flags=re.M))
    while m := re.search(r"\b(?:requires|ensures)\*?(?:\s+\w+)?\s*\{", text):
        text = text[: m.start()] + text[balanced(text, m.end() - 1, "{", "}") :]
    return text.split()


def check_divisions():
    """Every divisor in these crates, and in those that they call, is a numeral, or a constant of the file, that is a power of two; a divisor in
    brackets is none. Of the library they call only what is known not to divide."""
    every, reached = set(crates()), list(BY_POWERS_OF_TWO)
    own, methods = set(), []
    for crate in reached:
        for path, _, _ in source(crate):
            where = path.relative_to(ROOT)
            code = " ".join(without_contracts(path.read_text()))
            for called in re.findall(r"(?<!:)\b([a-z]\w*)::", code):
                if called in every and called not in reached:
                    reached.append(called)
                elif called not in every and called not in {"std", "crate", "self", *(m for _, m, _ in source(crate))}:
                    fault(where, f"calls {called}, which the audit does not read")
            own.update(re.findall(r"\bfn (\w+)", code))
            methods += [(where, name) for name in re.findall(r"\. *(\w+) *(?:\(|::)", code)]
            for module, name in re.findall(r"\bstd::(\w+)(?:::(\w+))?", code):
                if module != "num" or not WRAPPING.fullmatch(name):
                    fault(where, f"calls std::{module}::{name}")
            constants = {}
            for name, kind, value in re.findall(r"const (\w+) *: *(\w+) *= *([^;]*);", code):
                constants[name] = value if name not in constants else "two constants"
            for divisor in re.findall(r"[/%]=? *([\w:]+|\S)", code):
                number = constants.get(divisor, divisor)
                bound = re.search(rf"\blet (?:mut )?{divisor}\b|\b{divisor} *: *(?!\w+ *=)\w+ *[,)]", code) if divisor in constants else None
                if not number.isdecimal() or int(number).bit_count() != 1 or bound:
                    fault(where, f"divides by {divisor}, not by a power of two")
    for where, name in methods:
        if name not in own | METHODS:
            fault(where, f"calls the method {name}, which the audit does not read")


@cache
def contracts(text):
    return {f.name: (f.requires, f.ensures) for f in functions(text, "", "", True)}


def kinds_of(before, after):
    """What an edit changes: code, the contract of a function or the fact of a type that is there, definitions or proofs. `before` and `after` are
    path → text."""
    kinds = set()
    for path in before:
        part = path.parts[0]
        if part != "src":
            kinds.add("definition" if part == "specs" else "proof")
            continue
        if without_contracts(before[path]) != without_contracts(after[path]):
            kinds.add("code")
        stated = [contracts(text) for text in (before[path], after[path])]
        facts = [GHOST_LINE.findall(bare(text)) for text in (before[path], after[path])]
        if any(stated[1].get(name) != contract for name, contract in stated[0].items()) or facts[0] != facts[1]:
            kinds.add("contract")
    return kinds


def is_program(kinds):
    """Whether an edit is a wrong program: it changes code and no statement."""
    return "code" in kinds and not kinds & {"contract", "definition"}


class Edit:
    """A must-fail edit: what it changes, the public calls that it makes wrong, and the definition files that it changes."""

    def __init__(self, kinds, calls, files):
        self.kinds, self.calls, self.files = kinds, calls, files


def check_edits(names):
    """crate → edit name → Edit. `names` are the public calls, and the functions of programs."""
    edits = {}
    for path in sorted(ROOT.glob("crates/*/must-fail/*")):
        crate = path.parts[-3]
        where = path.relative_to(ROOT)
        if path.suffix != ".edit":
            fault(where, "not an edit")
            continue
        before, after, calls = {}, {}, []
        target = old = None
        for line in path.read_text().splitlines():
            word, _, rest = line.partition(":")
            rest = rest.removeprefix(" ")
            if line.startswith("file: "):
                target = Path(rest)
                whole = ROOT / "crates" / crate / target
                before.setdefault(target, whole.read_text() if whole.exists() else "")
                after.setdefault(target, before[target])
            elif line.startswith("old: ") and target and old is None:
                old = rest
                if after[target].count(old) != 1:
                    fault(where, f"its text stands {after[target].count(old)} times in {target}: {old}")
            elif line.startswith("new:") and old is not None:
                after[target] = after[target].replace(old, rest)  # a later change of the same edit is made in what this one left
                old = None
            elif re.fullmatch(r"# of [\w:]*::[\w:]*(?:, [\w:]*::[\w:]*)*", line) and target is None:
                calls += line.removeprefix("# of ").split(", ")
                for call in set(calls) - names:
                    fault(where, f"is of {call}, which is no public call")
            elif not re.fullmatch(r"(#.*)?", line):
                fault(where, f"a line of no known kind: {line}")
        try:
            kinds = kinds_of(before, after)
        except (ValueError, AttributeError, IndexError):
            fault(where, "leaves code that the audit cannot read")
            kinds = set()
        if not kinds & {"code", "contract", "definition"}:
            fault(where, "changes neither code nor a statement")
        if is_program(kinds) and not calls and crate not in TESTS_ONLY:
            fault(where, "a wrong program, and of no call")
        edits.setdefault(crate, {})[path.stem] = Edit(kinds, calls, [f for f in before if f.parts[0] == "specs"])
    return edits


def page(calls, edits):
    """docs/WRONG-PROGRAMS.md: how many edits there are, and each under the call, or the file of definitions, that it makes wrong."""
    every = [(crate, name, e) for crate, of_crate in edits.items() for name, e in of_crate.items()]
    both = sum("code" in e.kinds and "definition" in e.kinds for _, _, e in every)
    definitions = sum("definition" in e.kinds for _, _, e in every) - both
    contracts = sum("contract" in e.kinds for _, _, e in every)
    title = lambda crate, name, own: f"`{name}`" if crate == own else f"`{crate}/{name}`"
    lines = [
        "# Wrong programs and wrong definitions",
        "",
        "Each name is an edit, `crates/NAME/must-fail/EDIT.edit`. The gate makes it in a copy of its crate, and the prover must refuse the crate, because a fact no longer holds (`tests/edits.py` reads what was said of each).",
        "",
        f"There are {len(every)} edits. {sum(is_program(e.kinds) for _, _, e in every)} are wrong programs: they change code and leave every contract and definition as it is. {definitions} change a definition, {both} both, {contracts} a contract.",
        "",
        "This page is written by `tests/audit.py --page`, and the audit fails where it is not what the edits say.",
        "",
        "## Wrong programs",
        "Every public call has two at least. An edit of another crate is named with it. Behind the calls come the functions of programs.",
        "",
        "| call | wrong programs |",
        "|---|---|",
    ]
    for call in calls:
        own = call.name.split("::")[0]
        of_call = [title(crate, name, own) for crate, name, e in every if call.name in e.calls]
        if of_call:
            lines.append(f"| `{call.name}` | {', '.join(of_call)} |")
    lines += ["", "## Wrong definitions", "Each makes a theorem false, or a contract of the code below it.", "", "| file | edits |", "|---|---|"]
    files = {}
    for crate, name, e in every:
        for file in e.files:
            files.setdefault(f"crates/{crate}/{file}", []).append(f"`{name}`")
    lines += [f"| `{file}` | {', '.join(names)} |" for file, names in sorted(files.items())]
    return "\n".join(lines) + "\n"


def check_wrong_programs(calls, of_programs, edits):
    """Two edits of the code at least for each public call, which leave contracts and definitions as they are. An edit may carry a proof
    along to the code that it changes."""
    for call in calls:
        if call.name.split("::")[0] in TESTS_ONLY:
            continue
        programs = sum(call.name in e.calls and is_program(e.kinds) for of_crate in edits.values() for e in of_crate.values())
        if programs < 2:
            fault(call.name, f"has {programs} wrong programs")
    paper = ROOT / "docs" / "WRONG-PROGRAMS.md"
    if not paper.exists() or paper.read_text() != page(calls + of_programs, edits):
        fault(paper.relative_to(ROOT), "is not what the edits say: tests/audit.py --page writes it")


def theorems():
    """(name, file, line, statement) of every theorem, in a proofs file, that docs/PROMISES.md names."""
    text = re.sub(r"`NAME[^`]*`", "", (ROOT / "docs" / "PROMISES.md").read_text())  # how a row is to be read
    seen = []
    for crate, file, name in re.findall(r"`(\w+)/(\w+): ([\w-]+)`", text):
        if (crate, file, name) in seen:
            continue
        seen.append((crate, file, name))
        path = ROOT / "crates" / crate / "proofs" / f"{file}.antt"
        lines = path.read_text().splitlines() if path.exists() else []
        for i, line in enumerate(lines):
            if re.match(rf"\s*(?:unfoldable |abbrev )?(?:pub )?{re.escape(name)} :", line):
                end = i + 1
                while end < len(lines) and not re.match(rf"\s*{re.escape(name)}(?![\w-])|\s*unfolding\b|\s*$", lines[end]):
                    end += 1
                around = [m for m in lines[:i] if re.match(r"module _ ", m)][-1:] if line.startswith(" ") else []
                yield name, path.relative_to(ROOT), i + 1, "\n".join(around + lines[i:end])
                break
        else:
            fault("docs/PROMISES.md", f"{crate}/{file}: {name} is not stated there")


def theorem_page(stated):
    """The page of the promised theorems, with their statements."""
    lines = [
        "# The promised theorems",
        "",
        "Every theorem that [PROMISES](PROMISES.md) names, with its statement as the prover checks it. The words in it are defined in `crates/*/specs`; [TRUST](TRUST.md) lists what has to be read of them. `tests/audit.py --theorems` prints the same with line numbers.",
        "",
        "This page is written by `tests/audit.py --page`, and the audit fails where it is not what the proofs say.",
    ]
    for name, path, _, statement in stated:
        lines += ["", f"## `{path.parts[1]}/{path.stem}: {name}`", "```", statement, "```"]
    return "\n".join(lines) + "\n"


def check_theorems(stated):
    paper = ROOT / "docs" / "THEOREMS.md"
    if not paper.exists() or paper.read_text() != theorem_page(stated):
        fault(paper.relative_to(ROOT), "is not what the proofs say: tests/audit.py --page writes it")


def check_papers():
    """Files that the papers name are there; `crate/File: name` has that name in that file."""
    for paper in [ROOT / "README.md", *sorted((ROOT / "docs").glob("**/*.md"))]:
        text = paper.read_text()
        for name in re.findall(r"\]\(([^)#:]+)\)", text):
            if not (paper.parent / name).exists():
                fault(paper.relative_to(ROOT), f"links to {name}, which is not there")
        text = re.sub(r"`[^`]*(?:NAME|FILE)[^`]*`", "", text)  # how a row is to be read
        for name in re.findall(r"`((?:crates|tests|bench|docs|bindings)/[\w./-]+|examples/[\w.-]+)`", text):
            if not (ROOT / re.sub(r"/out/.*", "", name)).exists():  # of what a check makes, its crate
                fault(paper.relative_to(ROOT), f"names {name}, which is not there")
        for crate, file, rest in re.findall(r"`(\w+)/((?:specs/)?\w+): ([^`]+)`", text):
            place = ROOT / "crates" / crate / (file if file.startswith("specs/") else f"proofs/{file}")
            place = place.with_suffix(".antt")
            if not place.exists():
                fault(paper.relative_to(ROOT), f"names {crate}/{file}, which is not there")
            elif not re.search(rf"(?<![\w-]){re.escape(rest)}(?![\w-])", place.read_text()):
                fault(paper.relative_to(ROOT), f"{crate}/{file} has no {rest}")


def check_trust():
    """docs/TRUST.md counts the lines of the definitions that a reader has to believe."""
    text = (ROOT / "docs" / "TRUST.md").read_text()
    rows = re.findall(r"^\| `(crates/[^`]+)` \| (\d+) \|", text, re.M)
    total = sum(int(lines) for _, lines in rows)
    if f"{total:,} lines" not in text:
        fault("docs/TRUST.md", f"the files have {total:,} lines together")
    for name, lines in rows:
        path = ROOT / name
        count = len(path.read_text().splitlines()) if path.exists() else None
        if count != int(lines):
            fault("docs/TRUST.md", f"{name} has {count} lines, not {lines}")


def read_all():
    """Every function of the repository."""
    every = []
    for crate in crates():
        for path, module, public in source(crate):
            try:
                every += functions(path.read_text(), crate, module, public, path.relative_to(ROOT))
            except (ValueError, AttributeError, IndexError):
                fault(path.relative_to(ROOT), "a file that the audit cannot read")
    return every


def audit(listed=False, write=False):
    """One line that tells what was read; what is wrong is in `faults`."""
    faults.clear()
    check_forms()
    check_within()
    fields_of = structs()
    asking = guarded()
    every = read_all()
    calls = [f for f in every if f.public and f.name.split("::")[0] not in WITHIN]
    for call in calls:
        if listed:
            print(f"{call.name}({' '.join(call.params.split())})" + (f" -> {call.result}" if call.result else ""))
            for clause in call.requires:
                print(f"    requires {clause}")
            for clause in call.ensures:
                print(f"    ensures {clause}")
        check_total(call, *asking)
        if not call.ensures:
            fault(call.name, "has no ensures")
        if call.name not in OUTSIDE:
            check_tight(call, fields_of)
        check_meaning(call)
    check_ghost_fields(listed)
    check_names()
    check_divisions()
    of_programs = [f for f in every if f.ensures and (f.name.split("::")[0] in OF_PROGRAMS or (ROOT / "crates" / f.name.split("::")[0] / "src" / "main.rt").exists())]
    edits = check_edits({c.name for c in calls + of_programs})
    if write:
        (ROOT / "docs" / "WRONG-PROGRAMS.md").write_text(page(calls + of_programs, edits))
    check_wrong_programs(calls, of_programs, edits)
    stated = list(theorems())
    if write:
        (ROOT / "docs" / "THEOREMS.md").write_text(theorem_page(stated))
    check_theorems(stated)
    check_papers()
    check_trust()
    kinds = [e.kinds for of_crate in edits.values() for e in of_crate.values()]
    programs = sum(map(is_program, kinds))
    return f"{len(calls)} public calls of {len(every)} functions, {len(kinds)} must-fail edits ({programs} wrong programs), {len(stated)} theorems promised, {len(faults)} faults"


def main():
    counts = audit("--list" in sys.argv[1:], "--page" in sys.argv[1:])
    if "--theorems" in sys.argv[1:]:
        for name, path, line, statement in theorems():
            print(f"{path}:{line}\n{statement}\n")
    for f in faults:
        print(f"audit: {f}", file=sys.stderr)
    print(f"audit: {counts}")
    sys.exit(1 if faults else 0)


if __name__ == "__main__":
    main()
