#!/usr/bin/env python3
"""Writes docs/FUNCTIONS.md: each public function with its promise, the definitions that it cites, its wrong answers.

The promise is the comment at the function (crates/*/src), the definitions are those that its contract names, the wrong
answers are the edits of crates/*/must-fail. A method has the name of its type in front, or of its trait, one of a
module the file's.
With `--check` nothing is written, and the exit status is 1 where the file is another than would be written.
"""
import glob
import os
import re
import sys
import textwrap

sys.dont_write_bytecode = True
sys.path.insert(0, os.path.dirname(os.path.abspath(__file__)))
import edits
import sources

TOP = os.path.join(os.path.dirname(os.path.abspath(__file__)), "..")
FILE = os.path.join(TOP, "docs", "FUNCTIONS.md")
INTRODUCTION = """\
Made by `tools/functions.py` from the comments and contracts of the public functions and from the edits in `must-fail/`;
not changed by hand. [PROMISES](PROMISES.md) says how to read it, and has the public calls at length.
The crates stand in the order of `crates.txt`. A definition is named with its file under `crates/`; a wrong answer, with
the label of the edit that the prover refuses."""

COMMENT = r"((?:^ *//[^\n]*\n)*)"
ATTRIBUTES = r"(?:^ *#\[(?:(?!\]$).)*\]\n)*"
FUNCTION = re.compile(COMMENT + ATTRIBUTES + r'^pub (?:extern "C" )?fn (\w+)(.*?)^\{$', re.M | re.S)
METHOD = re.compile(COMMENT + ATTRIBUTES + r"^    pub fn (\w+)(.*?)^    \{$", re.M | re.S)
# The functions of a public trait are public as it is, with a body or without.
OF_TRAIT = re.compile(COMMENT + ATTRIBUTES + r"^    fn (\w+)(.*?)(?:;$|^    \{$)", re.M | re.S)
# The definitions that a file names: those of its own crate and of others. What std defines is not among them.
USE = re.compile(r"^ *ghost use Rattle\.(?!std\b)(\w+)\.specs\.(\w+)(?: as (\w+)|\.\{(.*?)\});", re.M | re.S)
# How a clause of a contract begins: its kind, and its name where it has one.
CLAUSE = re.compile(r"^ *(?:requires|ensures)(?: \w+)? \{", re.M)


def read(*path):
    with open(os.path.join(TOP, *path), encoding="utf8") as f:
        return f.read()


def crates():
    """The crates of crates.txt in their order, the static library too."""
    return re.findall(r"^(\w+)(?: staticlib)?:", read("crates.txt"), re.M)


def words(comment):
    return " ".join(line.strip().lstrip("/").strip() for line in comment.splitlines())


def cited(text, signature):
    """The definitions that a contract names, by the files that they stand in; a parameter's name is the parameter."""
    parameters, contract = re.match(r"(.*?)(^ +(?:requires|ensures).*)", signature, re.M | re.S).groups()
    contract = CLAUSE.sub("{", contract)
    names = set(re.findall(r"[^\s(){},.]+", contract)) - set(re.findall(r"(\w+): ", parameters))
    found = {}
    for crate, file, short, listed in USE.findall(text):
        here = re.findall(rf"\b{short}\.([\w'-]+)", contract) if short else re.split(r"[\s,]+", listed)
        here = [n for n in here if short or n in names]
        if here:
            found.setdefault(f"{crate}/specs/{file}", []).extend(here)
    return found


def public(crate):
    """The public functions of a crate: name, promise and the definitions it cites."""
    found = []
    for path in sources.files(crate):
        text, module = read(path), sources.module(path)
        here = [(module + name, comment, signature) for comment, name, signature in FUNCTION.findall(text)]
        for block in sources.BLOCK.finditer(text):
            owner = module + sources.owner(block.group(2))
            methods = METHOD.findall(block.group(3))
            if block.group(0).startswith("pub trait"):
                methods += OF_TRAIT.findall(block.group(3))
            here += [(f"{owner}::{name}", comment, signature) for comment, name, signature in methods]
        found += [{"name": n, "promise": words(comment), "cites": cited(text, s)} for n, comment, s in here]
    return found


def wrong_answers(crate):
    """The wrong answers of a crate, by the public function that they try; under None those that try a definition."""
    found = {}
    for path in sorted(glob.glob(os.path.join(TOP, "crates", crate, "must-fail", "*.edit"))):
        for answer in edits.answers(path):
            name = answer["tries"] or (None if answer["at"].endswith(".antt") else answer["at"])
            found.setdefault(name, []).append(answer)
    return found


def filled(text, indent=""):
    return textwrap.fill(text, 120, subsequent_indent=indent, break_long_words=False, break_on_hyphens=False)


def listed(what, answers):
    answers = "; ".join(f"{a['wrong']} (`{a['label']}`)" for a in answers)
    return [filled(f"- {what}: {answers}.", "  ")] if answers else []


def function(crate, one, answers):
    cites = "; ".join(f"{', '.join(f'`{n}`' for n in names)} of `{file}`" for file, names in one["cites"].items())
    items = ([filled(f"- Definitions: {cites}.", "  ")] if cites else []) + listed("Wrong answers", answers)
    return [f"### `{crate}::{one['name']}`", filled(one["promise"]), "\n".join(items)]


def section(crate):
    functions, answers = public(crate), wrong_answers(crate)
    names = [one["name"] for one in functions]
    parts = [part for one in functions for part in function(crate, one, answers.get(one["name"], []))]
    inside = [a for name, some in answers.items() if name and name not in names for a in some]
    if inside:
        parts += ["### Private functions"] + listed("Wrong answers", inside)
    if None in answers:
        parts += ["### Wrong definitions"] + listed("Refused by a proof", answers[None])
    if not parts:
        return []
    head = words(re.match(r"(?://[^\n]*\n)*", read("crates", crate, "src", "lib.rt")).group(0))
    return [f"## `{crate}`", filled(head)] + [part for part in parts if part]


def document():
    parts = ["# Functions", INTRODUCTION] + [part for crate in crates() for part in section(crate)]
    return "\n\n".join(parts) + "\n"


def main(words):
    if words == ["--check"]:
        same = os.path.exists(FILE) and read(FILE) == document()
        print("docs/FUNCTIONS.md is as it would be written" if same else "docs/FUNCTIONS.md: run tools/functions.py")
        return 0 if same else 1
    if words:
        print("usage: tools/functions.py [--check]", file=sys.stderr)
        return 2
    with open(FILE, "w", encoding="utf8") as f:
        f.write(document())
    return 0


if __name__ == "__main__":
    sys.exit(main(sys.argv[1:]))
