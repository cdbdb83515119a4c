"""What the tests in Python share: counting what holds, reading files, the sum at the end.

It makes the top of the repository the working folder, and lets tools/ be imported.
"""
import os
import sys

TOP = os.path.abspath(os.path.join(os.path.dirname(os.path.abspath(__file__)), "..", ".."))
os.chdir(TOP)
sys.dont_write_bytecode = True
sys.path.insert(0, os.path.join(TOP, "tools"))
counts = {True: 0, False: 0}


def hold(ok, what):
    """One test: what is said holds."""
    counts[bool(ok)] += 1
    if not ok:
        print("FAILED", what)


def same(what, got, expected):
    """One test: two values are equal."""
    hold(got == expected, f"{what}\n    expected {expected!r}\n    got      {got!r}")


def read(path):
    with open(path, encoding="utf8") as f:
        return f.read()


def end():
    """Prints the sum as the last line and ends the test."""
    print(f"{counts[True]} passed, {counts[False]} failed")
    sys.exit(1 if counts[False] or not counts[True] else 0)
