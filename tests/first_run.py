#!/usr/bin/env python3
"""Runs ./check where the program is built, where it is not, and where it cannot be: its output is the program's lines
alone, and standard error shows the crates as they are proved. Run at the top of the repository, once all is proved.

A copy of the script beside an rt of this test's own shows each way that a build can go; the real rt compiles the
program again. Each single comparison is one test. The last line printed is `N passed, M failed`.
"""
import os
import re
import shutil
import subprocess
import sys
import tempfile

sys.dont_write_bytecode = True
sys.path.insert(0, os.path.join(os.path.dirname(os.path.abspath(__file__)), "support"))
from tally import end, read, same

PLACE = "crates/validator/out/validator"
FIRST = """check: proving and compiling the program, 3 crates; this takes some minutes and happens once
check: an interrupted run goes on where it stopped
"""
CHANGED = "check: the code has changed: proving what is new of 3 crates\n"
# What rt prints on standard error while it proves, of tables nothing, as it is proved; and what the program prints.
LINES = ["rt: chose --jobs 2 for report", "fn report::answer: proved"]
REPORT = ["crate report: modules loaded=4 checked=7", "logic=proved functions=3 sum=9f"]
PROGRAM = ["library report: modules loaded=2 checked=0", "crate validator: modules loaded=0 checked=5"]
PROGRAM += ["logic=proved functions=1 axioms=3 sum=9f", "rt: running out/validator"]
UNPROVED = ["crate report: modules loaded=4 checked=6", "logic=not-proved functions=3 sum=9f"]
MAKE = "mkdir -p out; printf '#!/bin/sh\\ncat\\n' >out/validator; chmod +x out/validator\n"
SHOWN = "check: 2 of 3: report, T s\ncheck: 3 of 3: validator, T s\n"
FAILED = "".join(f"{line}\n" for line in [*LINES, *UNPROVED, "rt run: 1", "check: the program could not be built"])


def proves(lines, make=""):
    """An rt whose run in the program's folder prints these lines, makes the program, and runs it on an empty input."""
    printed = "".join(f"echo '{line}' >&2\n" for line in lines)
    return f'[ "${{PWD##*/}} $*" = "validator run" ] || exit 9\n{printed}{make}echo refusal=13,1\n'


def run(folder, job, path=None):
    environment = dict(os.environ, PATH=f"{path}:{os.environ['PATH']}") if path else None
    ran = subprocess.run([f"{folder}/check"], input=job, capture_output=True, text=True, env=environment)
    return ran.stdout, re.sub(r"\d+ s$", "T s", ran.stderr, flags=re.M), ran.returncode


def copied(top):
    """A repository of three crates with the script and a place for an rt."""
    shutil.copy("check", f"{top}/check")
    for crate in ["tables", "report", "validator"]:
        os.makedirs(f"{top}/crates/{crate}/src")
        os.makedirs(f"{top}/crates/{crate}/proofs")
        open(f"{top}/crates/{crate}/src/lib.rt", "w").close()
        os.utime(f"{top}/crates/{crate}/src/lib.rt", (1000, 1000))
    with open(f"{top}/crates.txt", "w") as f:
        f.write("# crates\ntables:\nother: tables\nreport: tables\nffi staticlib: report\nvalidator: report\n")
    os.utime(f"{top}/crates.txt", (1000, 1000))
    os.makedirs(f"{top}/kit")


def each_way(top):
    def with_rt(lines):
        with open(f"{top}/kit/rt", "w") as f:
            f.write("#!/bin/sh\n" + lines)
        os.chmod(f"{top}/kit/rt", 0o755)
        return run(top, "job\n", f"{top}/kit")

    def newer(path):
        open(f"{top}/{path}", "a").close()
        for file, time in [(PLACE, 2000), (path, 3000)]:
            os.utime(f"{top}/{file}", (time, time))

    bad = proves([*LINES, *UNPROVED]) + "exit 1\n"
    well = proves([*LINES, *REPORT, *PROGRAM])
    same("nothing is proved", with_rt(bad), ("", FIRST + FAILED, 1))
    same("no program is made", with_rt(well)[0::2], ("", 1))
    same("the first time", with_rt(proves([*LINES, *REPORT, *PROGRAM], MAKE)), ("job\n", FIRST + SHOWN, 0))
    same("all is built", with_rt(bad), ("job\n", "", 0))
    newer("crates/report/proofs/Job.antt")
    same("a proof is newer", with_rt(bad), ("job\n", "", 0))
    newer("crates/report/src/lib.rt")
    same("code is newer", with_rt(well), ("job\n", CHANGED + SHOWN, 0))
    same("and is then built", with_rt(bad), ("job\n", "", 0))
    newer("crates.txt")
    same("the list is newer, and a proof fails", with_rt(bad), ("", CHANGED + FAILED, 1))


with tempfile.TemporaryDirectory() as folder:
    copied(folder)
    each_way(folder)

job, out = read("tests/jobs/p1.job"), read("tests/jobs/p1.out")
os.remove(PLACE)
answer, shown, status = run(".", job)
same("the program compiled again answers", (answer, status), (out, 0))
last = re.fullmatch(r"check: (\d+) of (\d+): validator, T s", shown.splitlines()[-1])
same("the program is the last crate", last and last.group(1), last and last.group(2) or "a line")
same("and runs again at once", run(".", job), (out, "", 0))
end()
