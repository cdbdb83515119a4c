#!/usr/bin/env python3
"""Each wrong answer of crates/*/must-fail/*.edit is refused, and for its own fact.

`rt ci` tries an edit file as a whole: one refusal in it is enough. So each file is tried here once more, and what the
prover says is read. A file holds wrong answers for different functions, each with its `label:` and, after `refused:`,
the function and the fact that is to fail. That fact must be among the prover's errors in the proof of this function, or
among the facts of it that the prover finds no proof of, and the edit must stand in the function: what fails there rests
on the function's own code and on the contracts of others, which are as they were, so that no other wrong answer of the
file can be the reason. A wrong constant or definition stands alone in its file.
"""
import glob
import os
import re
import subprocess
import sys
from concurrent.futures import ThreadPoolExecutor

sys.dont_write_bytecode = True
sys.path.insert(0, os.path.join(os.path.dirname(os.path.abspath(__file__)), "support"))
from tally import end, hold, read
from edits import answers
from sources import functions
from tries import tried

# A fact fails for want of a name where a proof cites what the edit took away: that says nothing of the contract.
UNNAMED = re.compile(r"was not admitted|is not in scope|has no (field )?`")


def functions_at(crate, edits):
    """The functions that the edits stand in; None for a constant or a definition, which is in none."""
    inside = set()
    for file, old, _ in edits:
        path = f"crates/{crate}/{file}"
        place = read(path).find(old)
        there = functions(crate).items()
        inside.update({name for name, (at, a, b) in there if at == path and a <= place < b} or {None})
    return inside


def proof_of(crate, function):
    """The folder with the proof of a function: functions that call each other, or themselves, have one of the cycle."""
    cycle = re.compile(r"^#\[cycle\((\w+)\)\]\n(?:#.*\n)*(?:pub )?fn %s\b" % function, re.M)
    found = cycle.search(read(f"crates/{crate}/src/lib.rt"))
    name = f"+{found.group(1) if found else function}"
    return name if found or os.path.isdir(f"crates/{crate}/proofs/{name}") else function.replace("::", "/")


def errors_in(log, place):
    """The facts at which the prover refuses what stands in a file or a folder, but for those that it could not name."""
    lines = re.findall(r"^(?:\./)?%s.*?:\d+:\d+: error: `([^`]*)`: (.*(?:\n  .*)?)" % re.escape(place), log, re.M)
    return {fact for fact, what in lines if not UNNAMED.search(what)}


def unproved_in(log, crate, function):
    """The facts of a function for which the prover has found no proof."""
    path, *places = functions(crate)[function]
    first, last = (read(path).count("\n", 0, place) + 1 for place in places)
    file = re.escape(path.removeprefix(f"crates/{crate}/"))
    notes = re.findall(rf"^note: {file}:(\d+):\d+: it is not proved that .*\(`([^`]*)`\)", log, re.M)
    found = {fact for line, fact in notes if first <= int(line) <= last}
    for facts in re.findall(r"^fn %s::%s: no proof: .* did not prove ([^;\n]*)" % (crate, function), log, re.M):
        found.update(re.findall(r"`([^`]*)`", facts))
    return found


def refused_at(log, crate, at):
    """The facts at which a function, or a file of lemmas, is refused."""
    if at.endswith(".antt"):
        return errors_in(log, at)
    proof = proof_of(crate, at)
    facts = errors_in(log, f"proofs/{proof}/") | unproved_in(log, crate, at)
    # The proof of several functions that call each other has the facts of each, under its name.
    return {fact for fact in facts if proof.replace("/", "::") in [at, f"+{at}"] or fact.startswith(f"{at}-")}


def is_refused(log):
    """The prover has read the edited crate and does not prove it."""
    last = [line for line in log.splitlines() if not line.startswith("rt: ")][-1:]
    read_all = not re.search(r"error\[|^(\./)?(src|specs)/\S+: error", log, re.M)
    return last == ["logic=not-proved"] and read_all


def hold_answers(path, log):
    """Holds each wrong answer of a file to its fact."""
    crate = path.split("/")[1]
    hold(is_refused(log), f"{path}: it is applied, read and refused:\n{log[-2000:]}")
    found = answers(path)
    hold(all(a["label"] for a in found) and found, f"{path}: each wrong answer has a label")
    for answer in found:
        place = f"{path}: {answer['label']}"
        at, fact, inside = answer["at"], answer["fact"], functions_at(crate, answer["edits"])
        if None in inside:
            hold(len(found) == 1, f"{place}: it stands in no function and not alone")
        else:
            hold(inside == {at}, f"{place}: it stands in {inside}")
        facts = refused_at(log, crate, at)
        hold(fact in facts, f"{place}: refused at {at} {fact}, and not at {sorted(facts)}")
    names = [a["at"] for a in found]
    hold(len(names) == len(set(names)), f"{path}: two wrong answers for one function")


def main():
    # What a try begins with is what the checks of the crates as they are have kept.
    checked = subprocess.run(["rt", "all", "check"], stdout=subprocess.PIPE, stderr=subprocess.STDOUT, text=True)
    hold(checked.returncode == 0, f"the crates are proved:\n{checked.stdout[-2000:]}")
    paths = sorted(glob.glob("crates/*/must-fail/*.edit"))
    with ThreadPoolExecutor(len(os.sched_getaffinity(0))) as pool:
        logs = pool.map(lambda path: tried(path.split("/")[1], [e for a in answers(path) for e in a["edits"]]), paths)
        for path, log in zip(paths, logs):
            hold_answers(path, log)
    end()


main()
