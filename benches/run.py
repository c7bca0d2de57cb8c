#!/usr/bin/env python3
"""Builds the benches and runs them. Each test prints a line; the last line counts them.

    benches/run.py [--long] [--only WORD] [--jobs N]

`make benches` runs this after building the command and the library. What it builds lies in benches/out, and what a test
writes in a folder of its own there, which stays where the test fails. So many tests run side by side, one for each processor if no number is said, each in a
process of its own; those that measure time come last, one after the other. It fails where a tool is missing, and skips
nothing.
"""

import argparse
import collections
import os
import shutil
import sys
import time
import traceback

sys.path.insert(0, os.path.join(os.path.dirname(os.path.abspath(__file__)), "tests"))

from harness import LIBRARY, OUT, TESTS, TLTOOL, Failed, begin, end
# In the order in which their tests begin: those of the longest come first.
SUBJECTS = (
    "formal", "conformance", "commits", "ports", "liberal", "commit_checker", "wide", "checker", "recorder", "shared", "agents", "your_bench",
    "your_cache", "names", "pages", "unknown", "lint", "liberties", "library", "python_library",
)
for subject in SUBJECTS:
    __import__(subject)  # adds its tests


def arguments():
    parser = argparse.ArgumentParser(description=__doc__.splitlines()[0])
    parser.add_argument("--long", action="store_true", help="ten million cycles without a fault")
    parser.add_argument("--only", default="", help="the tests whose names hold this")
    parser.add_argument("--jobs", type=int, default=len(os.sched_getaffinity(0)), help="tests side by side")
    return parser.parse_args()


def look_for_tools():
    for tool in ("verilator", "iverilog", "vvp", "g++", "yosys", "berkeley-abc"):
        if shutil.which(tool) is None:
            sys.exit(f"benches/run.py: {tool} is missing: run benches/setup.sh")
    for built in (TLTOOL, LIBRARY):
        if not os.path.exists(built):
            sys.exit(f"benches/run.py: {built} is missing: run `make benches`")


def run_here(function):
    """Runs a test in this process, and ends it with 0 or 1."""
    status = 1
    try:
        begin(function.__name__)
        function()
        end()
        status = 0
    except Failed as error:
        print(error)
    except BaseException:
        traceback.print_exc(file=sys.stdout)
    finally:
        sys.stdout.flush()
        os._exit(status)


class Running:
    """A test in a process of its own, which writes to a file."""

    def __init__(self, function):
        self.function, self.start = function, time.time()
        self.told = os.path.join(OUT, "tests", f"{function.__name__}.log")
        self.number = os.fork()
        if self.number == 0:
            with open(self.told, "w") as told:
                os.dup2(told.fileno(), 1)
                os.dup2(told.fileno(), 2)
            run_here(function)

    def tell(self, status, usage):
        """Prints how it ended, and gives whether it passed and its processor time with that of all that it started."""
        name, took = self.function.__name__.replace("_", " "), usage.ru_utime + usage.ru_stime
        seconds = f"({time.time() - self.start:.1f} s, {took:.1f} s of processor time)"
        with open(self.told) as told:
            text = told.read()
        print(f"ok      {name} {seconds}\n{text}" if status == 0 else f"FAILED  {name} {seconds}: {text}", end="", flush=True)
        return status == 0, took


class Together:
    """Tests side by side, of which no two share a folder."""

    def __init__(self):
        self.running, self.counts, self.spent = {}, collections.Counter(), collections.Counter()

    def shared(self):
        return {getattr(it.function, "shares", None) for it in self.running.values()} - {None}

    def wait(self):
        """Until one has ended."""
        number, status, usage = os.wait3(0)
        ended = self.running.pop(number)
        passed, took = ended.tell(status, usage)
        self.counts[passed] += 1
        self.spent[ended.function.__module__] += took

    def run(self, tests, jobs):
        left = list(tests)
        while left or self.running:
            ready = [it for it in left if getattr(it, "shares", None) not in self.shared()]
            if ready and len(self.running) < jobs:
                left.remove(ready[0])
                one = Running(ready[0])
                self.running[one.number] = one
            else:
                self.wait()


def main():
    chosen = arguments()
    look_for_tools()
    os.makedirs(os.path.join(OUT, "tests"), exist_ok=True)
    chosen_tests = [it for it in TESTS if chosen.only in it.__name__ and ("long" in it.__name__) == chosen.long]
    tests = sorted(chosen_tests, key=lambda it: SUBJECTS.index(it.__module__))
    together, began = Together(), time.time()
    together.run([it for it in tests if not hasattr(it, "measures")], chosen.jobs)
    together.run([it for it in tests if hasattr(it, "measures")], 1)
    print("processor time by subject:", ", ".join(f"{subject} {seconds:.0f} s" for subject, seconds in together.spent.items()))
    print(f"{time.time() - began:.0f} s of wall time, {sum(together.spent.values()):.0f} s of processor time")
    print(f"{together.counts[True]} passed, {together.counts[False]} failed")
    sys.exit(1 if together.counts[False] else 0)


if __name__ == "__main__":
    main()
