"""Tries of wrong answers: what `rt check` says of a crate with edits in it, in a copy of the repository.

A copy has the crate and those below it, and begins with what the repository's own checks have kept, which stays as it
is. What was proved gets a second name there and no copy: rt puts another file in its place, and writes into none.
"""
import os
import re
import shutil
import subprocess
import tempfile

from tally import read

LINES = {line.split()[0].rstrip(":"): line for line in re.findall(r"^\w[^#\n]*", read("crates.txt"), re.M)}


def below(crate):
    """The crates that a crate stands on, and it as the last."""
    found = []
    for name in LINES[crate].partition(":")[2].split():
        found += [it for it in (below(name) if name in LINES else []) if it not in found]
    return found + [crate]


def link(one, other):
    try:
        os.link(one, other)
    except OSError:
        shutil.copy2(one, other)


def keep(one, other):
    (link if one.endswith(".oantt") else shutil.copy2)(one, other)


def copy(crate, room):
    """Copies a crate and those below it to a folder."""
    names = below(crate)
    with open(f"{room}/crates.txt", "w", encoding="utf8") as f:
        f.writelines(LINES[name] + "\n" for name in names)
    if os.path.exists("HANDLES"):
        shutil.copy2("HANDLES", room)
    for name in names:
        for part in ["src", "specs", "proofs"]:
            if os.path.exists(f"crates/{name}/{part}"):
                shutil.copytree(f"crates/{name}/{part}", f"{room}/crates/{name}/{part}")
        kept, copier = ("out/incremental", keep) if name == crate else ("out/rlib", link)
        shutil.copytree(f"crates/{name}/{kept}", f"{room}/crates/{name}/{kept}", copy_function=copier)


def edit(folder, edits):
    """Makes the replacements in a crate, and tells which cannot be made: an old text has to be there once."""
    for file, old, new in edits:
        text = read(f"{folder}/{file}")
        if text.count(old) != 1 or old == new:
            return f"not applied, {text.count(old)} times in {file}: {old}"
        with open(f"{folder}/{file}", "w", encoding="utf8") as f:
            f.write(text.replace(old, new))
    return None


def tried(crate, edits):
    """What a check of a crate with these edits says, or why they could not be made."""
    with tempfile.TemporaryDirectory(prefix="farshavan-try-") as room:
        copy(crate, room)
        folder = f"{room}/crates/{crate}"
        return edit(folder, edits) or subprocess.run(
            ["rt", "check", "--jobs", "1"], cwd=folder, stdin=subprocess.DEVNULL, stdout=subprocess.PIPE,
            stderr=subprocess.STDOUT, text=True, errors="replace",
        ).stdout
