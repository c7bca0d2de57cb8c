#!/usr/bin/env python3
"""gate.py COMMAND..: runs a command, as `rt ci`, and tells what its checks took: for each crate the processor minutes of its
proof, its tests and its must-fail edits, and the most memory of one process. Looks at /proc every second, so what starts and
ends between two looks is missed; the sum of all is the operating system's own. Its exit status is the command's."""
import collections
import os
import pathlib
import re
import resource
import subprocess
import sys
import time

TICKS = os.sysconf("SC_CLK_TCK")


def label(words, folder):
    """The crate that a process works on, and what it does there, or None."""
    if "--crate-name" not in words or "rattle" not in words[0]:
        return None
    crate = words[words.index("--crate-name") + 1]
    if any("/rt-edit" in word for word in [folder, *words]):
        return crate, "edits"
    return crate, "tests" if "--test" in words else "proof"


def below(child):
    """The processes that a process started, and those that these started, with the fields of their stat."""
    fields = {}
    for it in pathlib.Path("/proc").glob("[0-9]*"):
        try:
            fields[int(it.name)] = (it / "stat").read_text().rpartition(")")[2].split()
        except OSError:
            continue
    ours = {child}
    while more := {it for it in fields if it not in ours and int(fields[it][1]) in ours}:
        ours |= more
    return {it: fields[it] for it in ours if it in fields}


def look(seen, child):
    """Notes the processor seconds and the memory of each process below the command's that checks a crate."""
    for number, fields in below(child).items():
        it = pathlib.Path("/proc") / str(number)
        try:
            words = (it / "cmdline").read_bytes().decode(errors="replace").split("\0")
            found = label(words, os.readlink(it / "cwd"))
            if found:
                memory = int(re.search(r"VmHWM:\s+(\d+)", (it / "status").read_text())[1])
                seen[it.name, fields[19]] = (*found, (int(fields[11]) + int(fields[12])) / TICKS, memory)
        except (OSError, TypeError):
            continue


def main():
    seen, began = {}, time.time()
    child = subprocess.Popen(sys.argv[1:])
    while child.poll() is None:
        try:
            look(seen, child.pid)
        except (OSError, ValueError, IndexError):
            pass  # a process ended while it was looked at
        time.sleep(1)
    taken, memory = collections.Counter(), collections.Counter()
    for crate, what, seconds, kib in seen.values():
        taken[crate, what] += seconds
        memory[crate] = max(memory[crate], kib)
    whole = resource.getrusage(resource.RUSAGE_CHILDREN)
    print("| Crate | proof | tests | edits | GB at most |\n|---|---|---|---|---|")
    for crate in sorted(memory):
        minutes = [f"{taken[crate, what] / 60:.1f}" if taken[crate, what] else "" for what in ("proof", "tests", "edits")]
        print(f"| {crate} | {' | '.join(minutes)} | {memory[crate] / 2**20:.1f} |")
    print(f"{(whole.ru_utime + whole.ru_stime) / 60:.1f} processor minutes, {(time.time() - began) / 60:.1f} minutes of wall time")
    return child.returncode


sys.exit(main())
