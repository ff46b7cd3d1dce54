#!/usr/bin/env python3
"""The audit itself is tried: each change below, made in a copy of the repository, must be found, and in the words given."""
import importlib.util
import shutil
import sys
import tempfile
from pathlib import Path

ROOT = Path(__file__).resolve().parent.parent

FIELD = "crates/field/src/lib.rt"
BUFFER = "crates/buffer/src/lib.rt"
PARAMS = "crates/params/src/lib.rt"
HEAD = "// A product and a number, reduced together.\n"
SUM = "result ≡ add_mod a b"
EQUAL = "◌≡◌, "  # among the names that a file imports of the library
BEFORE = "ghost use Rattle."  # the first import of a file
PUT = "    ensures { buffer.new ≡ spec.put buffer.old at part.now }"
# a function that is public and asks for something, behind the words that make it public
ASKS = "(a: u32) -> u32\n    requires { a < 5 }\n{\n    a + 1\n}\n\n"
SOURCE = "ghost use Rattle.std.specs.Prelude.{◌<◌};\npub fn evil" + ASKS
LENGTH = "pub fn file_length(p: Params) -> usize\n"
EDIT = "crates/fold/must-fail/scale_adds_one.edit"
CLOSES = "crates/params/must-fail/admission_refuses_as_closed.edit"
TWICE = "old: field::add(x, x)\nnew: field::add(x, 1)"

# what the audit must say; then the changes: file, old text, new text (a file that is not there is made of the new text)
CASES = [
    # total
    ("params::file_length: asks of its callers by a type: ValidParams", (PARAMS, LENGTH, LENGTH.replace("p: Params", "p: ValidParams"))),
    ("params::file_length: asks of its callers by a type: Wrapped", (PARAMS, LENGTH, "pub struct Wrapped {\n    pub inside: ValidParams,\n}\n\n" + LENGTH.replace("p: Params", "p: &Wrapped"))),
    ("params::file_length: asks of its callers by a type: Alias", (PARAMS, LENGTH, "type Alias = ValidParams;\n\n" + LENGTH.replace("p: Params", "p: Alias"))),
    ("params::ValidParams::file_length: asks of its callers by a type: ValidParams", (PARAMS, "    fn file_length(self)", "    pub fn file_length(self)")),
    ("params::file_length: asks of its callers by a type: ValidParams", (PARAMS, LENGTH, LENGTH.replace("(p: Params)", "<T: Into<ValidParams>>(p: T)"))),
    ("params::file_length: asks of its callers by a type: Wrapped", (PARAMS, LENGTH, "pub struct\nWrapped {\n    pub inside: ValidParams,\n}\n\n" + LENGTH.replace("p: Params", "p: Wrapped"))),
    ("params::file_length: asks of its callers by a type: Alias", (PARAMS, LENGTH, "type Alias = ([u8; 2], ValidParams);\n\n" + LENGTH.replace("p: Params", "p: Alias"))),
    ("params::ValidParams::file_length: asks of its callers by a type: ValidParams", (PARAMS, "    fn file_length(self)", "    pub fn file_length(other: Self)")),
    ("params::Held::seen: asks of its callers by a type: Held", (PARAMS, LENGTH, "pub struct Held<T> {\n    pub inside: T,\n    pub ghost fine: { spec.Valid inside },\n}\n\nimpl<T: Copy> Held<T> {\n    pub fn seen(self) -> usize\n        ensures { result ≡ spec.file_length self }\n    {\n        0\n    }\n}\n\n" + LENGTH)),
    ("an import under another name: use params::ValidParams as Plain;", ("crates/look_up/src/lib.rt", "use params::Params;", "use params::Params;\nuse params::ValidParams as Plain;")),
    ("verdict::opened: speaks of Kept, which contracts see through a model", ("crates/verdict/src/lib.rt", "// The proof in one piece.\n", "pub fn opened(a: Terms) -> Kept\n    ensures { result ≡ judge.opened a }\n{\n    Kept::default()\n}\n\n// The proof in one piece.\n")),
    ("a public trait that asks for a fact: Zero", (BUFFER, "    ghost ZERO: { Self };\n", "    ghost ZERO: { Self };\n\n    ghost small: { ZERO ≡ ZERO };\n")),
    ("params::height: has no ensures", ("crates/params/src/lib.rt", "    ensures { result ≡ spec.height p layer }\n", "")),
    ("field::add: has a requires", (FIELD, f"    ensures {{ {SUM} }}", f"    requires {{ a < p }}\n    ensures {{ {SUM} }}")),
    ("field::add: has a requires", (FIELD, f"    ensures {{ {SUM} }}", f"    requires small {{ a < p }}\n    ensures {{ {SUM} }}")),
    ("a function that the audit cannot read: pub fn evil", (FIELD, HEAD, "pub  fn evil" + ASKS + HEAD)),
    ("a function that the audit cannot read: pub fn evil", (FIELD, HEAD, "pub fn\nevil" + ASKS + HEAD)),
    ("a function that the audit cannot read: pub fn evil", (FIELD, HEAD, "pub\nfn evil" + ASKS + HEAD)),
    ("field::evil: has a requires", (FIELD, HEAD, "const HERE: u32 = 0; pub fn evil" + ASKS + HEAD)),
    ('a function that the audit cannot read: pub extern "C" fn evil', ("crates/exports/src/lib.rt", "#[unsafe(no_mangle)]\n", '#[unsafe(no_mangle)]\npub extern "C"  fn evil' + ASKS + "#[unsafe(no_mangle)]\n")),
    ("'pub ('", (FIELD, HEAD, "pub(crate) fn evil" + ASKS + HEAD)),
    ("'pub use'", (FIELD, HEAD, "mod hidden;\npub use hidden::evil;\n\n" + HEAD), ("crates/field/src/hidden.rt", None, SOURCE)),
    ("a module that the audit does not read", (FIELD, HEAD, "pub mod outer;\n\n" + HEAD), ("crates/field/src/outer.rt", None, "pub mod deeper;\n"), ("crates/field/src/outer/deeper.rt", None, SOURCE)),
    ("a source file that the audit does not read", ("crates/field/src/outer/deeper.rt", None, SOURCE)),
    ("a module that the audit does not read", (FIELD, HEAD, "pub mod inner {\n    pub fn evil" + ASKS + "}\n" + HEAD)),
    ("a comment between /* and */", (FIELD, HEAD, "/* \" */ pub fn evil" + ASKS + "/* \" */\n" + HEAD)),
    ("crates.txt: verdict names reader_items, which is for reader, reader_pieces, reader_queries alone", ("crates.txt", "\nverdict: ", "\nverdict: reader_items ")),
    # tight
    ("field::add: not an equation", (FIELD, SUM, "result < p")),
    ("field::add: the right side speaks of the result", (FIELD, SUM, "result ≡ result % p")),
    ("field::add: the left side is not the result, nor what is left", (FIELD, SUM, "result % p ≡ add_mod a b")),
    ("field::add: the left side is not the result, nor what is left", (FIELD, SUM, "(result ≡ add_mod a b) × (a ≡ a)")),
    ("field::add: not an equation", (FIELD, SUM, "(result ≡ add_mod a b) ⊎ (a ≡ a)"), (FIELD, EQUAL, EQUAL + "◌⊎◌, ")),
    ("field::add: not an equation", (FIELD, SUM, "((result ≡ add_mod a b) → (a ≡ a))")),
    ("field::add: not an equation of a term: →", (FIELD, SUM, "result ≡ add_mod a b → b")),
    ("field::add: a contract that is no fact", (FIELD, "ensures { " + SUM, "ensures* { fact " + SUM)),
    ("field::add: not an equation", (FIELD, SUM, "∃ (λ y. result ≡ y)"), (FIELD, BEFORE, "ghost use mathlib.Core.Logic.{∃};\n" + BEFORE)),
    ("does not pin what is left in out", ("crates/test_exports/src/leaves.rt", "    ensures out_after { out.new ≡ (hashed message.now).digest }\n", "")),
    ("buffer::put: the right side speaks of the result", (BUFFER, PUT, "    ensures { buffer.new ≡ buffer.new }")),
    ("buffer::put: the left side is not the result", (BUFFER, PUT, "    ensures { length buffer.new ≡ length buffer.old }")),
    ("buffer::put: the contract does not pin what is left in buffer", (BUFFER, "pub fn put<T: Copy>(buffer: &mut [T], at: usize, part: &[T])", "pub fn put<'a, T: Copy>(buffer: &'a mut [T], at: usize, part: &[T]) -> usize"), (BUFFER, PUT, "    ensures { result ≡ at }")),
    ("look_up::look_up: the contract does not pin part.ref_ptr of Found", ("crates/look_up/src/lib.rt", " × (result.part.ref_ptr ≡ spec.look_up_place p proof.entry.ref_ptr proof.now query layer)", "")),
    ("look_up::look_up: the contract does not pin part of Found", ("crates/look_up/src/lib.rt", " × (result.part.now ≡ spec.look_up_part p proof.now query layer)", "")),
    ("does not pin count of Transcript", ("crates/transcript/src/lib.rt", "    pub state: [u8; 32],\n", "    pub state: [u8; 32],\n    pub count: u32,\n")),
    ("params::admitted: the contract does not pin the number", (PARAMS, "    ensures number { number_in result ≡ admission.admission p }\n", "")),
    ("params::admitted: the contract does not pin params of Result", (PARAMS, "    ensures ok { IfOk result (λ v. v.params ≡ p) }\n", "")),
    ("params::admitted: not what the value is", (PARAMS, "λ v. v.params ≡ p", "λ v. v.params ≡ v.params")),
    ("params::admitted: not an equation", (PARAMS, "λ v. v.params ≡ p", "λ v. Valid v.params"), (PARAMS, BEFORE, "ghost use Rattle.params.specs.Parameters.{Valid};\n" + BEFORE)),
    ("params::admitted: a result that may be refused", (PARAMS, "λ v. v.params ≡ p", "λ v. v.params ≡ p) × (result ≡ result")),
    ("felt::From.from_gives: does not pin what is given", ("crates/felt/src/lib.rt", "answer ≡ told outcome", "answer ≡ answer")),
    ("a public trait that the audit cannot read", (BUFFER, "pub trait Zero: Copy {", "pub trait Zero: Copy\nwhere\n    Self: Copy,\n{")),
    ("params::ValidParams.valid: 'Valid' comes from nowhere", (PARAMS, "spec.Valid params", "Valid params")),
    ("crates/verdict/src/kept.rt: a model of a struct where public contracts may speak of it", ("crates/verdict/src/lib.rt", "mod kept;", "pub mod kept;")),
    ("an import that the audit cannot read, or a ghost member", (PARAMS, "    pub ghost valid: { spec.Valid params },", "    pub ghost valid: {\n        spec.Valid params\n    },")),
    ("a second public struct Transcript", (FIELD, HEAD, "pub struct Transcript {}\n\n" + HEAD)),
    ("reader::piece_in_place: the contract does not pin what is left in roots", ("crates/reader/src/lib.rt", "replied result.answer result.core roots.new", "replied result.answer result.core challenges.new")),
    ("reader::piece_in_place: the left side is not the result", ("crates/reader/src/lib.rt", "replied result.answer result.core", "replied result.answer core")),
    ("look_up::look_up: the left side is not the result", ("crates/look_up/src/lib.rt", "(result.answer ≡", "(result.answer.now ≡")),
    ("buffer::put: the left side is not the result", (BUFFER, PUT, "    ensures { part.new ≡ spec.put buffer.old at part.now }")),
    ("buffer::put: the right side speaks of the result", (BUFFER, PUT, "    ensures { buffer.new ≡ buffer.exit.now }")),
    # meaning
    ("'T.ZERO' comes from nowhere", (BUFFER, "pub fn clear<T: Zero>", "pub fn clear<T: Copy>")),
    ("buffer::Zero.ZERO: 'five' comes from nowhere", (BUFFER, "    ghost ZERO = { 0 };\n\n    const ZERO: u8 = 0;", "    ghost ZERO = { five };\n\n    const ZERO: u8 = 0;")),
    ("a public trait with a function: Zero", (BUFFER, "    const ZERO: Self;\n", "    const ZERO: Self;\n\n    fn evil(self) -> u8\n        requires { ZERO ≡ ZERO };\n")),
    ("'spec' is a parameter, and a module", (BUFFER, "pub fn put<T: Copy>(buffer: &mut [T], at: usize,", "pub fn put<T: Copy>(buffer: &mut [T], spec: usize,")),
    ("'length' is lib.ListN's here and Rattle.std.specs.Prelude's elsewhere", ("crates/calls/specs/Judged.antt", ", length}", "}"), ("crates/calls/specs/Judged.antt", "\nuse ", "\nuse lib.ListN.{length}\nuse ")),
    ("felt::From.from_gives: 'tolds' comes from nowhere", ("crates/felt/src/lib.rt", "answer ≡ told outcome", "answer ≡ tolds outcome")),
    ("the symbol '≡' is not the library's", ("crates/fold/src/lib.rt", EQUAL, ""), ("crates/fold/src/lib.rt", BEFORE, "ghost use Rattle.fold.specs.Fold.{◌≡◌};\n" + BEFORE)),
    ("'≡' comes from nowhere", ("crates/fold/src/lib.rt", EQUAL, "")),
    ("'◌≤◌' of the library is imported under another name, '◌≡◌'", (FIELD, EQUAL, "◌≤◌ as ◌≡◌, ")),
    ("'≡' is not equality", (FIELD, EQUAL, ""), (FIELD, BEFORE, "ghost use Prim.Native.Nat.{◌≡◌};\n" + BEFORE)),
    ("'◌*◌' of the library is imported under another name, '◌+◌'", (FIELD, "◌+◌, ", "◌*◌ as ◌+◌, ")),
    ("'◌*◌' of the library is imported under another name, '◌+◌'", ("crates/params/specs/Parameters.antt", "◌+◌", "◌*◌ as ◌+◌")),
    ("an import that the audit cannot read", (FIELD, HEAD, "fn inner() {\n    ghost use Rattle.std.specs.Prelude.{◌≡◌};\n}\n" + HEAD)),
    ("'◌≡◌' is imported twice", (FIELD, BEFORE, "ghost use Rattle.field.specs.Modular.{◌≡◌};\n" + BEFORE)),
    ("'result' is a word of contracts, and imported", (FIELD, BEFORE, "ghost use Rattle.field.specs.Modular.{result};\n" + BEFORE)),
    ("defines 'length', a name of the library", ("crates/fold/specs/Fold.antt", "-- 2·x\n", "abbrev pub length : ℕ → ℕ\nlength x = x\n\n-- 2·x\n")),
    ("defines 'length', a name of the library", ("crates/fold/specs/Fold.antt", "-- 2·x\n", "length : ℕ → ℕ\nlength x = x\n\n-- 2·x\n")),
    ("defines 'take', a name of the library", ("crates/message/specs/Bytes.antt", "part i n xs = take n (drop i xs)", "part i n xs = (λ take. take n xs) (λ i xs. xs)")),
    ("also a name of the library", ("crates/fold/specs/Fold.antt", "use Rattle.field.specs.Modular.{", "use Rattle.field.specs.Modular.{neg_mod as length, ")),
    ("a line that the audit cannot read", ("crates/fold/specs/Fold.antt", "-- 2·x\n", "open Felt x using (value as ◌+◌)\n\n-- 2·x\n")),
    ("a definition rests on Rattle.message.proofs.Bytes, which is no specs file", ("crates/demands/specs/Demands.antt", "use Rattle.message.specs.Bytes.", "use Rattle.message.proofs.Bytes.")),
    ("an axiom", ("crates/field/proofs/Laws.antt", "\npub mul_mod_lt", "\naxiom pub mul_mod_none : Unit\n\npub mul_mod_lt")),
    # divisions
    ("field/src/lib.rt: divides by 3221225473, not by a power of two", (FIELD, "    correct(reduce_lazily(a))\n", "    (a % 3221225473) as u32\n")),
    ("fold/src/lib.rt: divides by Felt::MODULUS, not by a power of two", ("crates/fold/src/lib.rt", "    field::add(x, x)\n", "    2 * x % Felt::MODULUS\n")),
    ("field/src/lib.rt: divides by (, not by a power of two", (FIELD, "    correct(reduce_lazily(a))\n", "    (a % (WORD)) as u32\n")),
    ("answer/src/lib.rt: divides by 3221225473, not by a power of two", (FIELD, "    correct(reduce_lazily(a))\n", "    answer::rest(a)\n"), ("crates/answer/src/lib.rt", "pub struct Answer {", "fn rest(a: u64) -> u32 {\n    (a % 3221225473) as u32\n}\n\npub struct Answer {")),
    ("field/src/lib.rt: divides by WORD, not by a power of two", (FIELD, "    correct(reduce_lazily(a))\n", "    let WORD: u64 = 3221225473;\n    (a % WORD) as u32\n")),
    ("field/src/lib.rt: calls the method rem_euclid, which the audit does not read", (FIELD, "    correct(reduce_lazily(a))\n", "    a.rem_euclid(3221225473) as u32\n")),
    ("field/src/lib.rt: calls libc, which the audit does not read", (FIELD, "    correct(reduce_lazily(a))\n", "    libc::rest(a)\n")),
    # edits and papers
    ("docs/THEOREMS.md: is not what the proofs say", ("crates/demands/proofs/Meets.antt", "pub meets : Readers a", "pub meets : (b : Terms) → Readers b")),
    ("its text stands 0 times", (EDIT, "old: ", "old: not there ")),
    ("a line of no known kind", (EDIT, "old: field::add(x, x)\n", "old: field::add(x, x)\n}\n")),
    ("a line of no known kind: old: ", (EDIT, "old: field::add(x, x)\n", "old: field::add(x, x)\nold: field::add(x, x)\n")),
    ("a wrong program, and of no call", (EDIT, "# of fold::scale\n", "")),
    ("is of fold::scales, which is no public call", (EDIT, "# of fold::scale\n", "# of fold::scales\n")),
    ("fold::scale: has 1 wrong programs", (EDIT, "# of fold::scale\n", "# of fold::folded\n")),
    ("fold::scale: has 1 wrong programs", (EDIT, TWICE, "old: { result ≡ spec.scale x }\nnew: { result ≡ x }")),
    ("fold::scale: has 1 wrong programs", (EDIT, "file: ", "file: specs/Fold.antt\nold: -- 2·x\nnew: -- x·2\nfile: ")),
    ("params::admission: has 1 wrong programs", (CLOSES, "old: Err(refusal) => refusal.number(),", "old:     pub ghost valid: { spec.Valid params },"), (CLOSES, "new: Err(_) => Refusal::Closed.number(),", "new:     pub ghost valid: { spec.Valid params × spec.Valid params },")),
    ("changes neither code nor a statement", (EDIT, TWICE, "old: // What the scale times\nnew: // What the scale")),
    ("docs/WRONG-PROGRAMS.md: is not what the edits say", ("docs/WRONG-PROGRAMS.md", "There are ", "There are 9")),
    ("docs/WRONG-PROGRAMS.md: is not what the edits say", ("crates/fold/must-fail/one_more.edit", None, "# of fold::scale\nfile: src/lib.rt\n" + TWICE + "\n")),
    ("fold/FoldLaws has no fold_low", ("docs/PROMISES.md", "FoldLaws: fold_law`", "FoldLaws: fold_low`")),
]


def main():
    missed = 0
    with tempfile.TemporaryDirectory() as folder:
        copy = Path(folder) / "copy"
        shutil.copytree(ROOT, copy, ignore=shutil.ignore_patterns("target", "out", ".git"))
        spec = importlib.util.spec_from_file_location("audit", copy / "tests" / "audit.py")
        audit = importlib.util.module_from_spec(spec)
        spec.loader.exec_module(audit)
        audit.audit()
        if audit.faults:
            sys.exit("the audit fails as things are:\n" + "\n".join(audit.faults))
        for words, *changes in CASES:
            before = {}
            for file, old, new in changes:
                path = copy / file
                text = path.read_text() if path.exists() else None
                before.setdefault(path, text)
                if (old or "") not in (text or ""):
                    print(f"audit: the change of {file} does not fit: {old!r}", file=sys.stderr)
                    missed += 1
                path.parent.mkdir(exist_ok=True)
                path.write_text(new if text is None else text.replace(old, new, 1))
            audit.audit()
            for path, text in before.items():
                path.unlink() if text is None else path.write_text(text)
            if not any(words in f for f in audit.faults):
                print(f"audit: not found: {words}\n" + "\n".join(audit.faults), file=sys.stderr)
                missed += 1
    print(f"audit: {len(CASES)} changes tried, {missed} missed")
    sys.exit(1 if missed else 0)


main()
