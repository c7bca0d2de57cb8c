#!/usr/bin/env python3
"""faults.py TOOL DATA CALLS: runs commands of TOOL in the folder DATA, and in turn refuses each request for memory and
fails each read and write of theirs, whole and one byte a call, up to the last of the run. What then comes of the command
is either as if nothing had failed, or its fault with status 3 and a beginning of its output. And runs CALLS, which calls
the libraries, with each of its requests for memory refused: one call at most is refused, and left what was; the others
are done. Ends with 'faults: N passed, M failed'."""
import concurrent.futures
import itertools
import os
import pathlib
import re
import subprocess
import sys
import tempfile

COMMANDS = [
    "decode beats.txt",
    "decode --width 4 beats.txt",
    "monitor two_caches.trace",
    "monitor rules/H9.trace",
    "monitor --all 3 three_faults.trace",
    "monitor --all 3 --report /dev/null --junit /dev/null three_faults.trace",
    "coherent two_caches.trace",
    "coherent rules/M2.trace",
    "coherent rules/M4.trace",
    "explain two_caches.trace",
    "explain wrong_report.trace",
    "explain H12",
    "chart --block 000 --lines 12-40 two_caches.trace",
    "chart wrong_report.trace",
    "run schedules/a_writer_becomes_a_reader.schedule",
    "run --trace schedules/sixteen_readers_and_a_put.schedule",
    "run --trace --commits schedules/a_whole_block_beside_an_upgrade.schedule",
    "random --seed 1 --events 40",
]
# What fails, the library that makes it fail, and what the command says of it.
MEMORY = ("REFUSE", "refuse", "tltool: no memory\n")
DEVICES = [
    ("FAIL_READ", "failing_device", "tltool: read failed\n"),
    ("FAIL_WRITE", "failing_device", "tltool: write failed\n"),
    ("STUCK_WRITE", "failing_device", "tltool: write failed\n"),
]
# So many calls in a row that change nothing: the run has no more of them.
UNREACHED = 20
BATCH = 64
LEFT_WHAT_WAS = re.compile(r"[A-Za-z_:]+: refused, and left what was")


def build(shims):
    """Compiles the libraries that are preloaded, by the toolchain's own compiler."""
    doc = subprocess.run(["rt", "doc"], capture_output=True, text=True, check=True).stdout.strip()
    clang = pathlib.Path(doc).parent / "toolchain/bin/clang"
    for name in ("refuse", "failing_device"):
        source = pathlib.Path(__file__).with_name(f"{name}.c")
        options = ["-nostdinc", "-nostdlib", "-fuse-ld=lld", "-shared", "-fPIC", "-O2"]
        subprocess.run([clang, *options, "-o", shims / f"{name}.so", source], check=True)


def run(words, place, **changes):
    """The status, standard output and standard error of a program."""
    ran = subprocess.run(words, cwd=place, env={**os.environ, **changes}, capture_output=True, timeout=60)
    return ran.returncode, ran.stdout, ran.stderr


class Failures:
    """What was tried, on several processors at once."""

    def __init__(self, shims):
        self.shims, self.passed, self.failed = shims, 0, 0
        self.pool = concurrent.futures.ThreadPoolExecutor(os.cpu_count())

    def every(self, name, words, place, shim, variable, judge, **changes):
        """Fails the first, second, .. call of a run, until none is reached. Answers how many there are."""
        unreached = 0
        for first in itertools.count(1, BATCH):
            numbers = range(first, first + BATCH)
            preload = str(self.shims / f"{shim}.so")
            one = lambda number: run(words, place, LD_PRELOAD=preload, **{variable: str(number)}, **changes)
            for number, ran in zip(numbers, self.pool.map(one, numbers)):
                reached = judge(ran)
                unreached = 0 if reached is not None else unreached + 1
                if reached:
                    self.passed += 1
                elif reached is False:
                    self.failed += 1
                    print(f"{name}: {variable}={number} {changes}: status {ran[0]}: {ran[2][:80]}")
                if unreached == UNREACHED:
                    return number - UNREACHED


def command_judge(whole, said):
    """Whether a run told its fault after a beginning of its output; nothing where it went as if nothing had failed."""

    def judge(ran):
        status, output, errors = ran
        if (status, output) == whole[:2]:
            return None
        return status == 3 and errors == said.encode() and whole[1].startswith(output)

    return judge


def calls_judge(whole):
    """Whether one call alone was refused, and left what was; nothing where all were done."""

    def judge(ran):
        status, output, _ = ran
        different = [it for it in output.decode().splitlines() if it not in whole[1].decode().splitlines()]
        if status == 0 and not different:
            return None
        return status == 0 and len(different) == 1 and bool(LEFT_WHAT_WAS.fullmatch(different[0]))

    return judge


def main():
    tool, data, calls = (pathlib.Path(it).resolve() for it in sys.argv[1:4])
    with tempfile.TemporaryDirectory() as room:
        build(pathlib.Path(room))
        failures = Failures(pathlib.Path(room))
        for command in COMMANDS:
            words, counts = [tool, *command.split()], []
            whole = run(words, data)
            for single in ({}, {"SINGLE": "1"}):
                for variable, shim, said in DEVICES if single else [MEMORY, *DEVICES]:
                    judge = command_judge(whole, said)
                    counts.append(f"{variable}={failures.every(command, words, data, shim, variable, judge, **single)}")
            print(f"{command}: {' '.join(counts)}", flush=True)
        whole = run([calls], data)
        if whole[0] != 0:
            sys.exit(f"{calls}: status {whole[0]}")
        requests = failures.every("calls of the libraries", [calls], data, "refuse", "REFUSE", calls_judge(whole))
        print(f"calls of the libraries: {requests} requests")
        print(f"faults: {failures.passed} passed, {failures.failed} failed")
    return 1 if failures.failed else 0


sys.exit(main())
