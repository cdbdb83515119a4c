#!/usr/bin/env python3
"""Writes docs/CHECK-TIMES.md: how long the proof of each crate takes, and each part of the gate.

Run it after the gate (`.ci/run`), whose logs in target/ci it reads. It has the crates proved from nothing, one after
another (`rt all verdict --jobs 1`). It stops where a crate is not proved, where the gate did not pass, and where its
logs lack the time of the whole, so that the document is never of half a run.
"""
import glob
import os
import re
import subprocess
import sys
import time

sys.dont_write_bytecode = True
sys.path.insert(0, os.path.dirname(os.path.abspath(__file__)))
import functions

LOGS = os.path.join("target", "ci")
FILE = os.path.join(functions.TOP, "docs", "CHECK-TIMES.md")
INTRODUCTION = """\
# Check times

Made by `tools/check_times.py`; not changed by hand. Measured on a machine with {processors} processors; what else ran
there is not recorded.

## Crates

The proof of each crate from nothing, one crate after another on one processor, in seconds; how many functions it has;
how many wrong answers, and the files that hold them.

| crate | seconds | functions | wrong answers | files |
|---|---|---|---|---|
"""
PARTS = """
## The gate

The whole gate took {minutes} minutes {seconds} seconds. Its part `rt` proves crates and tries wrong answers side by
side, and does not do again what it passed before on the same machine. It says of this run:
"{done}".

| part | passed | failed | seconds |
|---|---|---|---|
"""


def stop(what):
    sys.exit(f"tools/check_times.py: {what}")


def proofs():
    """The seconds and the number of functions of each crate. rt prints what it has to say of one once that is done."""
    found, crate, began = {}, None, time.monotonic()
    command = ["rt", "all", "verdict", "--jobs", "1"]
    how = {"stdin": subprocess.DEVNULL, "stdout": subprocess.PIPE, "stderr": subprocess.STDOUT}
    with subprocess.Popen(command, cwd=functions.TOP, text=True, **how) as ran:
        for line in ran.stdout:
            head, proved = re.match(r"== (\w+)$", line), re.match(r"logic=proved functions=(\d+) ", line)
            if head:
                crate, now = head.group(1), time.monotonic()
                took, began = round(now - began), now
            elif proved:
                found[crate] = took, int(proved.group(1))
    if ran.returncode or set(found) != set(functions.crates()):
        stop("rt all verdict proves not all crates")
    return found


def row(crate, took, number):
    """The line of a crate: its proof, and its must-fail files as far as it has any."""
    files = glob.glob(os.path.join(functions.TOP, "crates", crate, "must-fail", "*.edit"))
    answers = sum(len(found) for found in functions.wrong_answers(crate).values())
    known = [took, number] + ([answers, len(files)] if files else ["", ""])
    return f"| `{crate}` | {' | '.join(map(str, known))} |\n"


def document():
    log, parts = functions.read(LOGS, "rt.log"), functions.read(LOGS, "parts.log")
    done = re.search(r"^rt: ok; .*; ((?:every|done in this run)[^;\n]*)", log, re.M) or stop("rt ci did not pass")
    whole = re.search(r"^whole: (\d+) s on (\d+) processors$", parts, re.M) or stop("no time of the whole")
    seconds, processors = map(int, whole.groups())
    found = proofs()
    text = INTRODUCTION.format(processors=processors)
    text += "".join(row(crate, *found[crate]) for crate in functions.crates())
    text += PARTS.format(minutes=seconds // 60, seconds=seconds % 60, done=done.group(1))
    for name, passed, failed, took in re.findall(r"^part (\S+): (\d+) passed, (\d+) failed, (\d+) s$", parts, re.M):
        text += f"| `{name}` | {int(passed):,} | {failed} | {took} |\n"
    return text


if __name__ == "__main__":
    text = document()
    with open(FILE, "w", encoding="utf8") as f:
        f.write(text)
