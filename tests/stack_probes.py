#!/usr/bin/env python3
"""No function of the built program and of the library loses a value to the probe of its own stack.

The fault of the compiler. A function with large local arrays touches its stack page by page before it uses it, and its
loop counts in %r11. Where the function can return before it needs the arrays, clang at -O3 moves this prologue below
the test, and does not look whether %r11 holds a value there that is used later: the probe destroys it, and proved code
answers wrongly. C shows it too: a function that reads two words, returns 1 where they fall, and then fills 64 KiB.

The scan. No value can be destroyed where none is: on every way from the entry of a function to its probe no
instruction may name %r11. The ways are followed back from the probe, over what stands before an instruction and the
jumps to it; where they cannot be followed (an instruction that nothing leads to, as behind a table of jumps), and where
%r11 is compared with %rsp and no probe of the known form stands before it, the function counts as faulty. So the scan
may blame a function that is right, never the reverse. A function that it blames is to be looked at (objdump -d); its
arrays go to a function of their own, which the one with the test calls.
"""
import os
import re
import subprocess
import sys

sys.dont_write_bytecode = True
sys.path.insert(0, os.path.join(os.path.dirname(os.path.abspath(__file__)), "support"))
from tally import end, hold, same

BUILT = ["crates/validator/out/validator", "crates/farshavan/out/libfarshavan.a"]

NAME = re.compile(r"^[0-9a-f]+ <(.*)>:$")
LINE = re.compile(r"^ *([0-9a-f]+):\t(\S.*)$")
R11 = re.compile(r"%r11[dwb]?\b")
# How a probe begins: the end of its loop is worked out from %rsp; and what tells the loop: it has come to that end.
BEGINS = re.compile(r"mov +%rsp,%r11$|lea +-0x[0-9a-f]+\(%rsp\),%r11$")
AT_END = re.compile(r"cmp +(%r11,%rsp|%rsp,%r11)$")
# The loop is this near to its beginning.
LENGTH = 8
JUMP = re.compile(r"(?:notrack |bnd )?j\w+ +([0-9a-f]+)\b")
# What the next instruction does not follow.
LEAVES = re.compile(r"(?:notrack |bnd |repz )?(?:jmp|ret|ud2|hlt|int3)")


def functions(listing):
    """The functions of a listing of objdump: name, addresses and instructions."""
    found = []
    for line in listing.splitlines():
        name, instruction = NAME.match(line), LINE.match(line)
        if name:
            found.append((name.group(1), []))
        elif instruction and found:
            text = re.sub(r" *(#.*|<.*>)$", "", instruction.group(2)).strip()
            found[-1][1].append((int(instruction.group(1), 16), text))
    return found


def leading_to(code):
    """For each instruction of a function, those from which the next step may be to it."""
    places = {address: k for k, (address, _) in enumerate(code)}
    leading = [[] for _ in code]
    for k, (_, text) in enumerate(code):
        jump = JUMP.match(text)
        if jump and int(jump.group(1), 16) in places:
            leading[places[int(jump.group(1), 16)]].append(k)
        if not LEAVES.match(text) and k + 1 < len(code):
            leading[k + 1].append(k)
    return leading


def fault_before(code, probe):
    """What is wrong on the ways from the entry to a probe, if anything."""
    leading, seen, left = leading_to(code), set(), [probe]
    while left:
        k = left.pop()
        if k != 0 and not leading[k]:
            return f"nothing leads to {code[k][0]:x}: {code[k][1]}"
        for before in set(leading[k]) - seen:
            if R11.search(code[before][1]):
                return f"%r11 is in use at {code[before][0]:x}: {code[before][1]}"
            seen.add(before)
            left.append(before)
    return None


def probes(code):
    """The places where the probes of a function begin, and how many loops of probes have no beginning."""
    begins, lost = [], 0
    for k in [k for k, (_, text) in enumerate(code) if AT_END.match(text)]:
        near = [b for b in range(max(0, k - LENGTH), k) if BEGINS.match(code[b][1])]
        begins += near[-1:]
        lost += not near
    return begins, lost


def scan(listing):
    """The number of functions, the number of probes, and the faults, of a listing."""
    found, number, faults = functions(listing), 0, []
    for name, code in found:
        begins, lost = probes(code)
        number += len(begins)
        faults += [f"{name}: a probe of another form"] * lost
        faults += [f"{name}: {fault}" for fault in (fault_before(code, b) for b in begins) if fault]
    return len(found), number, faults


def made_up(*instructions):
    """A listing with one function, an instruction at each multiple of 16."""
    return "0000 <made_up>:\n" + "".join(f" {16 * k:x}:\t{text}\n" for k, text in enumerate(instructions))


PROBE = ["mov    %rsp,%r11", "sub    $0x8000,%r11", "sub    $0x1000,%rsp", "movq   $0x0,(%rsp)", "cmp    %r11,%rsp"]


def probe_at(k):
    """A probe whose first instruction is the k-th of its function."""
    return PROBE + [f"jne    {16 * (k + 2):x} <made_up+0x{16 * (k + 2):x}>"]


def tries(what, listing, number, faults):
    same(what, scan(listing), (1, number, [f"made_up: {fault}" for fault in faults]))


USED = "mov    0x8(%rdi),%r11"
tries("a probe first", made_up("push   %rbx", *probe_at(1), USED, "ret"), 1, [])
# The code of clang for a test and a return before 64 KiB, where %r11 has the second word.
guard = [USED, "cmp    %r11,%rsi", "ja     a0 <made_up+0xa0>", "push   %rbx"]
guarded = made_up(*guard, *probe_at(4), "ret", "imul   %rcx,%r11")
tries("a value before the probe", guarded, 1, ["%r11 is in use at 10: cmp    %r11,%rsi"])
narrow = made_up("movzbl (%rdi),%r11d", *probe_at(1), "add    %r11d,%eax", "ret")
tries("a narrow value before the probe", narrow, 1, ["%r11 is in use at 0: movzbl (%rdi),%r11d"])
late = made_up("jmp    80 <made_up+0x80>", *probe_at(1), "ret", USED, "jmp    10 <made_up+0x10>")
tries("a value behind the probe, and a jump back to it", late, 1, [f"%r11 is in use at 80: {USED}"])
other = made_up("test   %rdi,%rdi", "je     90 <made_up+0x90>", "push   %rbx", *probe_at(3), USED, "ret")
tries("a value on a way that has no probe", other, 1, [])
table = made_up("jmp    *%rax", USED, "ret", *probe_at(3), "ret")
tries("a table of jumps before the probe", table, 1, ["nothing leads to 30: mov    %rsp,%r11"])
shorter = made_up(USED, "push   %rbx", "lea    -0x8000(%rsp),%r11", *probe_at(1)[2:], "ret")
tries("a probe with one instruction less", shorter, 1, [f"%r11 is in use at 0: {USED}"])
tries("a loop of another form", made_up("mov    %rax,%r11", *probe_at(-1)[2:]), 0, ["a probe of another form"])
tries("an address on the stack is no probe", made_up(USED, "mov    %rsp,%r11", "ret"), 0, [])

for path in BUILT:
    hold(os.path.exists(path), f"{path} is built")
    if os.path.exists(path):
        command = ["objdump", "-d", "--no-show-raw-insn", path]
        listed = subprocess.run(command, capture_output=True, text=True)
        number, with_probe, faults = scan(listed.stdout)
        hold(listed.returncode == 0, f"objdump lists {path}: {listed.stderr}")
        hold(with_probe, f"{path} has stack probes that this scan knows, in one of its {number} functions")
        hold(not faults, f"{path} destroys no value at a stack probe: {faults}")
end()
