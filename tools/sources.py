"""The functions of a crate's sources, by the names that the prover gives them.

A function of src/lib.rt has its own name, one of src/MODULE.rt has `MODULE::` in front, a method the name of its type,
and one of an impl of a trait those of the type and the trait, as `U8Entry::zero`.
"""
import glob
import os
import re

ATTRIBUTES = r"(?:^ *#\[(?:(?!\]$).)*\]\n)*"
FUNCTION = re.compile(ATTRIBUTES + r"^(?:pub )?(?:extern \"C\" )?fn (\w+).*?^\}$", re.M | re.S)
# The body begins with the first brace that ends a line; a method of a trait that has none ends before.
METHOD = re.compile(ATTRIBUTES + r"^    (?:pub )?fn (\w+)(?:(?!;\n|\{\n).)*\{\n.*?^    \}$", re.M | re.S)
BLOCK = re.compile(r"^(?:pub )?(impl|trait)\b([^{\n]*)\{\n(.*?)^\}$", re.M | re.S)


TOP = os.path.join(os.path.dirname(os.path.abspath(__file__)), "..")


def files(crate):
    """The files of a crate's sources from the top of the repository, the root first."""
    found = sorted(glob.glob(f"crates/{crate}/src/*.rt", root_dir=TOP))
    return sorted(found, key=lambda path: os.path.basename(path) not in ("lib.rt", "main.rt"))


def module(path):
    """What stands in front of the names of a file's functions."""
    stem = os.path.basename(path).removesuffix(".rt")
    return "" if stem in ("lib", "main") else f"{stem}::"


def owner(header):
    """The name that the methods of an impl or a trait stand under."""
    plain = re.sub(r"<[^<>]*>", "", re.sub(r"<[^<>]*>", "", header)).strip()
    one, _, other = plain.partition(" for ")
    if other:
        return other.strip()[0].upper() + other.strip()[1:] + one.strip()
    return re.match(r"\w+", one).group(0)


def functions(crate):
    """The functions of a crate, each with its file and the place of its text."""
    found = {}
    for path in files(crate):
        with open(os.path.join(TOP, path), encoding="utf8") as f:
            text = f.read()
        for m in FUNCTION.finditer(text):
            found[module(path) + m.group(1)] = (path, m.start(), m.end())
        for block in BLOCK.finditer(text):
            for m in METHOD.finditer(text, block.start(3), block.end(3)):
                found[f"{module(path)}{owner(block.group(2))}::{m.group(1)}"] = (path, m.start(), m.end())
    return found
