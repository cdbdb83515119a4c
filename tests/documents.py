#!/usr/bin/env python3
"""What documents, the header and the Rust crate say is what the files have. Each rule is tried at each place.

A crate without a line in the map or in the times, a call without a section in docs/PROMISES.md or a line in the header,
a file, a definition or a law that a document names in vain, docs/FUNCTIONS.md other than the comments, contracts and
edits make it, a citation of docs/FORMAT.md that names no section of it, a section that nothing cites, a citation of a
document that is not here, a job in README.md that is not the one in tests/jobs, a number of the header or of the Rust
crate that the proved code has otherwise.
"""
import glob
import os
import re
import subprocess
import sys

sys.dont_write_bytecode = True
sys.path.insert(0, os.path.join(os.path.dirname(os.path.abspath(__file__)), "support"))
from tally import end, hold, read
import functions

crates = functions.crates()
for crate in crates:
    hold(f"`{crate}`" in read("docs/ARCHITECTURE.md"), f"crate {crate} in docs/ARCHITECTURE.md")
timed = re.findall(r"^\| `(\w+)` \|", read("docs/CHECK-TIMES.md").split("## The gate")[0], re.M)
hold(timed == crates, f"docs/CHECK-TIMES.md has the crates of crates.txt in their order: {set(timed) ^ set(crates)}")

# The C function of a call has its name.
calls = [one["name"][len("farshavan_") :] for one in functions.public("farshavan")]
for call in calls:
    hold(re.search(rf"^### `\w+(?:::\w+)*::{call}`$", read("docs/PROMISES.md"), re.M), f"{call} in docs/PROMISES.md")
    hold(re.search(rf"^uint64_t farshavan_{call}\(", read("include/farshavan.h"), re.M), f"{call} in the header")

# What a document names stands where it says: a file, and the definitions and laws that it says are of a file or folder.
NAME = r"`[\w'-]+`"
PLACE = r"`(?:crates/)?(\w+/(?:specs|proofs)(?:/\w+)?)(?:\.antt)?`"
OF_PLACE = re.compile(rf"({NAME}(?:(?:,|,? and) {NAME})*) (?:of {PLACE}|\({PLACE}\))")
for path in sorted(glob.glob("docs/*.md")) + ["README.md"]:
    text = " ".join(read(path).split())
    for named in sorted(set(re.findall(PLACE, text))):
        hold(os.path.exists(f"crates/{named}") or os.path.exists(f"crates/{named}.antt"), f"{path} names {named}")
    for names, *places in sorted(set(OF_PLACE.findall(text))):
        place = f"crates/{''.join(places)}"
        files = glob.glob(f"{place}/*.antt") if os.path.isdir(place) else glob.glob(f"{place}.antt")
        words = {word for file in files for word in re.findall(r"[^\s(){}.,;:]+", re.sub("--.*", "", read(file)))}
        for name in re.findall(r"`([^`]*)`", names):
            hold(name in words, f"{path} names {name} of {place}")
hold(read("docs/FUNCTIONS.md") == functions.document(), "docs/FUNCTIONS.md: run tools/functions.py")

# A citation stands on one line: the name of the page, a comma, and the section in quotes.
CITATION = re.compile(r'\bFORMAT[,](?: ["]([^"\n]*)["])?')
sections = re.findall(r"^## (.*)$", read("docs/FORMAT.md"), re.M)
tracked = subprocess.run(["git", "ls-files", ":!tests/jobs"], capture_output=True, text=True, check=True).stdout.split()
cited = set()
for path in tracked:
    hold(not re.search("document[ ]01", read(path), re.I), f"{path} cites what is in the repository")
    for section in CITATION.findall(read(path)):
        cited.add(section)
        hold(section in sections, f"{path} cites a section of docs/FORMAT.md: {section}")
for section in sections:
    hold(section in cited, f"docs/FORMAT.md: {section} is cited")

# The notes in a block of README.md stand behind two blanks.
blocks = [re.sub("  .*", "", text) for text in re.findall(r"^```\n(.*?)^```$", read("README.md"), re.M | re.S)]
for path in ["tests/jobs/titles.job", "tests/jobs/titles.out"]:
    hold(read(path) in blocks, f"README.md shows {path}")

# The numbers of the header are those of the proved code, and those of the Rust crate are the header's.
header = dict(re.findall(r"^#define FARSHAVAN_(\w+) (\d+)u", read("include/farshavan.h"), re.M))
OTHER_NAMES = {
    "schema::MAX_ROWS": "MAX_SCHEMA_ROWS",
    "schema::NO_ROW": "NONE",
    "instance::MAX_NODES": "MAX_INSTANCE_ROWS",
    "instance::NO_PARENT": "NONE",
    "limit::SCHEMA_WORDS": "SCHEMA_WORDS",
    "limit::INSTANCE_WORDS": "INSTANCE_WORDS",
    "limit::WORK": "WORK_BYTES",
    "limit::REPORT": "REPORT_BYTES",
}
FORMS = {"instance": "{}_NODE", "node": "{}_NODE", "limit": "MAX_{}", "Code": "CODE_{}"}


def numbers():
    """Each number of the proved code and of the Rust crate, with its place and name."""
    for crate in ["strings", "schema", "instance", "job"]:
        found = re.findall(r"^pub const (\w+): \w+ = (\d+);", read(f"crates/{crate}/src/lib.rt"), re.M)
        yield from ((crate, name, number) for name, number in found)
    for module, body in re.findall(r"^pub mod (\w+) \{(.*?)^\}", read("bindings/rust/src/constants.rs"), re.M | re.S):
        found = re.findall(r"(\w+): \w+ = ([\d_]+);", body)
        yield from ((module, name, number.replace("_", "")) for name, number in found)
    for name, number in re.findall(r"^    (\w+) = (\d+),$", read("bindings/rust/src/refusal.rs"), re.M):
        yield "Code", re.sub(r"(?<!^)(?=[A-Z])", "_", name).upper(), number


for place, name, number in numbers():
    form = "{}" if name.startswith("MAX_") else FORMS.get(place, "{}")
    named = OTHER_NAMES.get(f"{place}::{name}", form.format(name))
    hold(header.get(named) == number, f"{place}::{name} is FARSHAVAN_{named} of include/farshavan.h")
end()
