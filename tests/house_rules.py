#!/usr/bin/env python3
"""Rules of the repository that the prover does not see. Each rule is tried at each place that it speaks of.

A test file that tests/parts.txt does not list, a dependency in crates.txt that is not direct, a call of a user with a
`requires`, a public function without a comment, without two wrong answers or with a promise that holds under a premise,
a function without an `ensures`, a long function or proof file, a return or a `?` before a large array, a kind of a
schema row as a bare number, a definition or a contract that rests on a proof, a wrong answer with the label of another
or for no public function, a hole or an axiom in a proof, a name of the library with another meaning, a name that two
definitions have, a line wider than 120 columns, a contract wider than 160.
"""
import glob
import os
import re
import subprocess
import sys

sys.dont_write_bytecode = True
sys.path.insert(0, os.path.join(os.path.dirname(os.path.abspath(__file__)), "support"))
from tally import end, hold, read
import functions

LISTED = re.compile(r"^(\w+)(?: staticlib)?:(.*)$", re.M)
lists = {crate: below.split() for crate, below in LISTED.findall(read("crates.txt"))}
crates = list(lists)
hold(crates and crates == functions.crates(), "tools/functions.py reads the crates of crates.txt")

listed = read("tests/parts.txt").split()
present = {os.path.basename(p) for end in ["c", "py", "rs"] for p in glob.glob(f"tests/*.{end}")}
for name in sorted(present | set(listed)):
    hold(name in present and listed.count(name) == 1, f"tests/parts.txt and the file tests/{name}")


def definitions_and_proofs(crate="*"):
    """The files of specs/ and proofs/; what rt keeps in out/ is none of them."""
    found = [glob.glob(f"crates/{crate}/{part}/**/*.antt", recursive=True) for part in ["specs", "proofs"]]
    return sorted(path for paths in found for path in paths)


def named_by(crate):
    """The crates of the repository that the files of a crate name, and those of its line that the kit has."""
    files = definitions_and_proofs(crate) + glob.glob(f"crates/{crate}/src/*.rt")
    text = "\n".join(re.sub(r"(--|//).*", "", read(path)) for path in files)
    others = set(crates + lists[crate]) - {crate}
    return {c for c in others if re.search(rf"(?<![\w.])Rattle\.{c}\.|(?<![\w:.]){c}::", text)}


for crate in crates:
    named = named_by(crate)
    hold(set(lists[crate]) == named, f"crates.txt: {crate} depends on {' '.join(sorted(named))} and no other")

# What a user calls: its promise holds for every input.
CALLS = {
    "relaxng::schema_verdict",
    "relaxng::verdict",
    "relaxng::name_in_class",
    "relaxng::least_common_name",
    "relaxng::match_list",
    "strings::string_text",
    "job_reader::read_job",
    "job_writer::write_job",
    "report::report",
}
called = set()

# Names of the library, which no definition and no parameter gives another meaning.
OPERATORS = "◌≡◌ ◌<◌ ◌≤◌ ◌≢◌ ◌==◌ ◌++◌ ◌&&◌ ◌||◌"
FUNCTIONS = "length take drop get_or slice_index slice_index_or set replicate not cond map"
CONSTRUCTORS = set("true false none some None Some".split())
LIBRARY = CONSTRUCTORS | set(f"{OPERATORS} {FUNCTIONS} List Bool Option ℕ".split())

# A kind of a schema row by its number: in an arm of a `match`, in a `matches!`, or in a comparison.
KIND = r"(?:schema::kind\([^{}]*?\)|kind)"
KIND_MATCH = re.compile(r"^( *)[^\n]*\bmatch %s \{$(.*?)^\1\}" % KIND, re.M | re.S)
KIND_ARM = re.compile(r"^ *\d[\d_]*(?:u32)?(?: *(?:\.\.=?|\|) *[\w:]+)* *=>", re.M)
KIND_TEST = re.compile(
    r"\b%s *(?:[=!<>]=|[<>]) *\d|\b\d+(?:u32)? *(?:[=!<>]=|[<>]) *%s\b" % (KIND, KIND)
    + r"|matches!\(\s*(?:schema::kind\([^(){}]*\)|kind),(?:(?!\bif\b)[^()])*?\b\d\w*"
)


def numbered_kinds(code):
    """The places where a kind is a bare number."""
    arms = [a for m in KIND_MATCH.finditer(code) for a in KIND_ARM.findall(m.group(2))]
    return [found.strip() for found in arms + KIND_TEST.findall(code)]


for wrong in ["match kind {\n    8 => a,\n}", "kind == 8", "matches!(kind, schema::REF | 7)", "matches!(kind, 7..=9)"]:
    hold(numbered_kinds(wrong), f"a kind as a bare number is seen in {wrong!r}")
for right in ["f(matches!(schema::kind(s, p), schema::REF), 5)", "matches!(kind, schema::DATA if b == 0)"]:
    hold(not numbered_kinds(right), f"no kind is a bare number in {right!r}")

# An array of a function over 4 KiB stands before each `return` and each `?` of it: the compiler may otherwise put the
# return before the prologue and lose a value. tests/stack_probes.py looks whether it did, in what it has put together
# too.
CONSTANT = re.compile(r"^(?:pub )?const (\w+): \w+ = (\d+);", re.M)
SOURCES = sorted(glob.glob("crates/*/src/*.rt"))
CONSTANTS = {(path.split("/")[1], name): value for path in SOURCES for name, value in CONSTANT.findall(read(path))}
ARRAY = re.compile(r"= \[\w*?(u8|u16|u32)?; *([^\]]*)\]")
WIDTHS = {"u8": 1, "u16": 2, "u32": 4}


def size(crate, array):
    """The bytes of an array, or more: a length that is no product of numbers and constants counts as very large."""
    total = WIDTHS.get(array.group(1), 8)
    for factor in array.group(2).split("*"):
        *path, name = factor.strip().split("::")
        number = name if name.isdigit() else CONSTANTS.get((path[0] if path else crate, name), "65536")
        total *= int(number)
    return total


def late_arrays(crate, body):
    """The arrays over 4 KiB that stand behind a `return` or a `?`."""
    code = re.sub(r"//.*", "", body)
    first = re.search(r"\breturn\b|\?", code)
    arrays = [] if first is None else ARRAY.finditer(code, first.end())
    return [a.group(0) for a in arrays if size(crate, a) > 4096]


for early in ["if n == 0 {\n    return;\n}", "let n = check(x)?;"]:
    hold(late_arrays("tables", f"{early}\nlet mut wide = [0u64; 513];"), f"an array behind {early!r} is seen")
    hold(not late_arrays("tables", f"let mut wide = [0u64; 513];\n{early}"), f"an array before {early!r} is right")

# From `fn` to the `{` of the body stands the contract; a function ends at the first `}` in column 0 or of an impl.
BEFORE = r"((?:[\w()\"]+ )*)"
FUNCTION = re.compile(r"^( *)%sfn (\w+)((?:(?!^\1\}$).)*?)^\1\{$(.*?)^\1\}$" % BEFORE, re.M | re.S)
# A trait's function without a body, which is held to what a public one is.
DECLARED = re.compile(r"^ +fn (\w+)[^{\n]*(?:\n +(?:requires|ensures)\b[^\n]*)*;$", re.M)
# A path into proofs/, by an import or, as a tactic takes it, in Rust's form. What a tactic looks at is part of a proof.
OF_PROOFS = re.compile(r"(?<![\w.])Rattle\.(?:%s)\.proofs\b|\bproofs::" % "|".join(crates))
TACTIC = re.compile(r"^ *#!?\[tactic\(.*?\)\]$", re.M | re.S)
for path in SOURCES:
    text = read(path)
    crate = path.split("/")[1]
    found = [m.group(3, 2, 4, 5) for m in FUNCTION.finditer(text) if m.group(3) != "main"]
    found += [(m.group(1), "pub ", m.group(0), "") for m in DECLARED.finditer(text)]
    names = [n for _, n in re.findall(rf"^ *{BEFORE}fn (\w+)", text, re.M) if n != "main"]
    hold(len(found) == len(names), f"{path}: every function is recognized")
    for name, before, contract, body in found:
        place = f"{crate}::{name}"
        hold("ensures" in contract, f"{place} has an ensures")
        hold(body.count("\n") <= 40, f"{place} has at most 40 lines")
        hold(not late_arrays(crate, body), f"{place} returns after its large arrays: {late_arrays(crate, body)}")
        parameters = set(re.findall(r"(\w+): ", re.split("requires|ensures", contract)[0]))
        hold(not parameters & LIBRARY, f"{place} gives no name of the library another meaning: {parameters & LIBRARY}")
        if place in CALLS or "extern" in before:
            called.add(place)
            hold("requires" not in contract, f"{place} is called by users and has no requires")
        if before.startswith("pub"):
            promise = contract[contract.find("ensures") :]
            hold("→" not in promise, f"{place} is public and promises without a premise")
    code = re.sub(r"//.*", "", text)
    hold(not OF_PROOFS.search(TACTIC.sub("", code)), f"{path} cites no proof")
    if crate != "schema":
        hold(not numbered_kinds(code), f"{path} has kinds by their names: {numbered_kinds(code)}")
for place in sorted(CALLS):
    hold(place in called, f"{place} is there")

# What is defined, with constructors and fields; what is bound before a `:`, after λ or `let`, and by a clause.
MARKS = r"^ *(?:unfoldable )?(?:abbrev )?(?:pub )?"
DEFINED = re.compile(rf"{MARKS}(?:(?:record|data) (\S+)|(\S+)(?: \{{[^}}]*\}})? :(?= |$))", re.M)
TOP = re.compile(r"^ *(?:(?:unfoldable|abbrev) pub|pub (?:record|data)) ([A-Z]\w*)", re.M)
TYPED = re.compile(r"[({]([^(){}:=]+) : ")
BOUND = re.compile(r"λ ([^.]*)\.|\blet (\S+) ")
NAME = re.compile(r"[^\s(){},]+")
CLAUSE = re.compile(r"^ *\S+ ([^=:\n]*)=(?: |$)", re.M)


def renamed(text):
    """The names of the library that a file of definitions gives another meaning."""
    names = {n for pair in DEFINED.findall(text) for n in pair}
    names |= {n for part in TYPED.findall(text) for n in part.split()}
    names |= {n for pair in BOUND.findall(text) for part in pair for n in NAME.findall(re.sub(r":[^)]*", "", part))}
    names |= {n for part in CLAUSE.findall(text) for n in NAME.findall(part)} - CONSTRUCTORS
    return sorted(names & LIBRARY)


# What a capital letter begins is a relation or a type, and stands for one thing in all definitions.
homes = {}
for path in definitions_and_proofs():
    text = re.sub(r"--.*", "", read(path))
    hold(text.count("\n") <= 400, f"{path} has at most 400 lines")
    hold(not re.search(r"(?<![\w'-])\?|\{!", text), f"{path} has no hole")
    hold(not re.search(r"^\s*axiom\b|Prim\.Axiom", text, re.M), f"{path} has no axiom")
    if "/specs/" in path:
        hold(not OF_PROOFS.search(text), f"{path} cites no proof")
        hold(not renamed(text), f"{path} gives no name of the library another meaning: {renamed(text)}")
        for name in TOP.findall(text):
            hold(homes.setdefault(name, path) == path, f"{name} stands for one thing: {homes[name]}, {path}")


def wide_lines(path, text):
    """The lines wider than 120 columns, or than 160 in a contract.

    In crates.txt, where the kit asks for a crate in one line, the comments alone are held to it.
    """
    comment = "#" if path == "crates.txt" else ""
    contract, wide = False, []
    for number, line in enumerate(text.splitlines(), 1):
        if path.endswith(".rt"):
            contract = bool(re.match(r" *(requires|ensures)\b", line)) or contract and line.strip() != "{"
        if len(line) > (160 if contract else 120) and line.strip().startswith(comment):
            wide.append(number)
    return wide


def is_script(path):
    with open(path, "rb") as f:
        return f.read(9) == b"#!/bin/sh"


for path in subprocess.run(["git", "ls-files"], capture_output=True, text=True, check=True).stdout.split():
    if re.search(r"\.(md|c|h|rs|toml|py|rt|antt)$|^crates\.txt$", path) or is_script(path):
        wide = wide_lines(path, read(path))
        hold(not wide, f"{path} has at most 120 columns, and 160 in a contract: lines {wide}")

labels = []
for crate in crates:
    answers = functions.wrong_answers(crate)
    public = functions.public(crate)
    for one in public:
        place = f"{crate}::{one['name']}"
        hold(len(answers.get(one["name"], [])) >= 2, f"{place} has two wrong answers")
        hold(one["promise"], f"{place} has a comment")
    for name, found in answers.items():
        for answer in found:
            labels.append(answer["label"])
            hold(answer["wrong"], f"{crate}: {answer['label']} says what is wrong")
            hold(name is None or name in [one["name"] for one in public], f"{crate}: {answer['label']} tries {name}")
for label in sorted(set(labels)):
    hold(labels.count(label) == 1, f"wrong answer {label} is one")
end()
