#!/usr/bin/env python3
"""Brings the repository's own definitions and laws to snake case: `rowsOf` to `rows_of`, `holds-none` to `holds_none`.

usage: tools/respell.py KIT     at the top of the repository, once, after the kit's port.py

KIT is the folder of the Rattle kit, whose names are left as they are. What the files of specs/ and proofs/ declare
(laws, definitions, fields, constructors) is renamed in them, in the clauses of src/ and in the edits. Types and modules
keep their capitals, and a part of a name beside a type keeps its dash. Where a definition and a law would have one name
and meet in a file, the law's name ends in `_lem`; a law that would have the name of a word of std keeps its dash.
"""
import glob
import os
import re
import sys

WORD = r"[^\s(){}.;,@\"«»\[\]\\`|]+"
DECLARED = re.compile(
    r"(?m)^ *(?:mutual +)?(?:abbrev |unfoldable )?(?:pub )?(?:abbrev )?((?:%s )*%s) :(?= |$)" % (WORD, WORD)
)
# Constructors and fields that would meet a definition of their new name.
CHOSEN = {"empty-type": "type_of_empty", "is-wildcard": "of_wildcard", "no-row": "without_row"}
KEYWORDS = set("record data module pub abbrev unfoldable where use let open mutual in λ → = : _ as mod".split())
TOKEN = re.compile(r"--[^\n]*|//[^\n]*|\"(?:[^\"\\]|\\.)*\"|(?<=«)%s(?=»)|\.?%s" % (WORD, WORD))
USES = re.compile(r"(?s)\buse ([\w.·+-]+)\.\{([^}]*)\}")


def read(path):
    with open(path, encoding="utf-8") as file:
        return file.read()


def write(path, text):
    with open(path, "w", encoding="utf-8") as file:
        file.write(text)


def names_in(text):
    text = re.sub(r"--.*", "", text)
    found = {n for m in DECLARED.finditer(text) for n in m.group(1).split()}
    return {n for n in found if n not in KEYWORDS and re.match(r"[a-zμ]", n)}


def snake(name):
    """`rowsOf` is `rows_of`; a dash before or after a type stays."""
    parts = [re.sub(r"(?<=[a-z0-9'])([A-Z])", lambda m: "_" + m.group(1).lower(), p) if re.match("[a-z]", p) else p
             for p in name.split("-")]
    out = parts[0]
    for before, part in zip(parts, parts[1:]):
        plain = re.match(r"[a-z0-9_]+$", part) and re.search(r"[a-z0-9_']$", before) and before[0].islower()
        out += ("_" if plain else "-") + part
    return out


def bare_words(text):
    return {w for w in TOKEN.findall(re.sub(r"(--|//).*", "", text)) if not w.startswith(".")}


def main(kit):
    files = sorted(glob.glob("crates/*/specs/**/*.antt", recursive=True)
                   + glob.glob("crates/*/proofs/**/*.antt", recursive=True))
    sources = sorted(glob.glob("crates/*/src/**/*.rt", recursive=True))
    crates = "|".join(sorted(os.listdir("crates"), key=len, reverse=True))
    prelude = set(re.findall(WORD, read(f"{kit}/rattle/std/specs/Prelude.antt")))

    def imported(text):
        """What a file takes from the kit."""
        return {w for path, items in USES.findall(text) if not re.match(rf"Rattle\.(?:{crates})\.|Claims$", path)
                for w in re.findall(WORD, items)}

    laws = [f for f in files if os.path.basename(f) not in ("Proof.antt", "Claims.antt")]
    own = {n for f in laws for n in names_in(read(f))}
    words = {f: bare_words(read(f)) for f in files + sources}
    of_kit = prelude | {w for f in files + sources for w in imported(read(f))}
    turn = {}
    for name in own:
        new = snake(name)
        if new != name:
            turn[name] = CHOSEN.get(name) or (name if new in of_kit else new)
    # a definition in camel case has its name; what else would have it and meets it is a law
    by_new = {}
    for name in own:
        by_new.setdefault(turn.get(name, name), set()).add(name)
    for new, olds in sorted(by_new.items()):
        if len(olds) < 2:
            continue
        camel = [n for n in olds if re.search("[A-Z]", n)]
        first = camel[0] if camel else new if new in olds else sorted(olds)[0]
        for law in sorted(olds - {first}):
            meets = [f for f in words if law in words[f] and first in words[f]]
            if meets:
                turn[law] = new + "_lem"
            print(f"{first}, {law}: {turn.get(law, law)}" + (f" ({len(meets)} files have both)" if meets else ""))
    turn = {old: new for old, new in turn.items() if old != new}

    def turned(text, also=""):
        """The text with the names turned, but for those that the file takes from the kit."""
        of_the_kit = imported(text + also)

        def one(m):
            word = m.group(0)
            if word.startswith(("--", "//")):
                return re.sub(r"`(%s)`" % WORD, lambda w: f"`{turn.get(w.group(1), w.group(1))}`", word)
            dot, name = ("." if word.startswith(".") else ""), word.lstrip(".")
            return word if name in of_the_kit else dot + turn.get(name, name)

        return TOKEN.sub(one, text)

    def in_source(text):
        """Only clauses and ghost lines speak of definitions."""
        out, depth = [], 0
        for line in text.split("\n"):
            if re.match(r" *(ghost use|requires\b|ensures\b|#!?\[tactic|ghost )", line) or depth > 0:
                depth += line.count("{") - line.count("}")
                line = turned(line)
            out.append(line)
        return "\n".join(out)

    def in_edit(text):
        out, ghost = [], False
        for line in text.split("\n"):
            if line.startswith("file: "):
                ghost = line.strip().endswith(".antt")
            if re.match("(old|new):", line) and (ghost or re.search(r"ensures|requires|ghost use|⌜", line)):
                line = turned(line)
            out.append(line)
        return "\n".join(out)

    for f in files:
        write(f, turned(read(f)))
    for f in sources:
        write(f, in_source(read(f)))
    for f in sorted(glob.glob("crates/*/must-fail/*.edit")):
        write(f, in_edit(read(f)))
    print(f"{len(turn)} names")


if __name__ == "__main__":
    main(sys.argv[1])
