"""Seeds, each run by a process of its own, what is found of each, and the situations that its messages have been in."""

import concurrent.futures
import re
import subprocess
import sys
import time

from .situations import count

# What a bench says when it stops: the checkers, the proved agents, and what watches beside them.
BREAKS = re.compile(r"^\s*(?P<time>\d+): (?P<by>tl_\w+): link \d+ breaks (?P<fault>\w+): (?P<text>.*)$", re.M)
REFUSED = re.compile(r"^\s*(?P<time>\d+): (?P<by>tl_random_client): refused by (?P<fault>\w+): (?P<text>.*)$", re.M)
LOAD = re.compile(r"^\s*(?P<time>\d+): (?P<by>tl_random_\w+): (?P<text>.*a Load of .*)$", re.M)
LATE = re.compile(r"^\s*(?P<time>\d+): (?P<by>tl_\w+): (?P<text>after \d+ cycles there is .*\n.*)$", re.M)
NEVER = re.compile(r"^\s*(?P<time>\d+): (?P<by>tl_never_taken|tl_random_processor): (?P<text>.* (?:has waited|isn't done) .*)$", re.M)
STOPPED = re.compile(r"^\[(?P<time>\d+)\] %(?:Error|Fatal): [^:]+:\d+: (?:Assertion failed in [^:]*: )?(?P<text>.*)$", re.M)
NAMES = {BREAKS: None, REFUSED: None, LOAD: "Load", LATE: "no answer", NEVER: "no answer", STOPPED: "stopped"}
DONE = re.compile(r"^tl-conform: done: (\d+) cycles, (\d+) beats$", re.M)
FOUND_BY = {"tl_proved_manager": "proved manager", "tl_random_client": "proved client", "Load": "comparison of Loads", "no answer": "timeout",
            "stopped": "bench"}
PERIOD = 10  # of the bench's clock, whose first rising edge is at 5


class Seed:
    """What is found of a seed: no fault, or a name for it, where it came, what was said and by whom. And how often each situation came,
    and each bin on each link."""

    def __init__(self, number, said, status, seconds, trace, counts):
        self.number, self.seconds, self.trace = number, seconds, trace
        self.situations, self.bins = counts
        self.fault, self.text, self.by = None, "", ""
        done = DONE.search(said)
        self.cycles, self.beats = (int(it) for it in done.groups()) if done else (None, None)
        if status != 0 or not done:
            self.find_fault(said, status)

    def find_fault(self, said, status):
        """The first thing that the simulation tells."""
        found = [(match.start(), pattern, match) for pattern in NAMES for match in [pattern.search(said)] if match]
        if not found:
            self.fault, self.by, self.text = "ended early", "bench", f"status {status}: {said.strip()[-600:]}"
            return
        _, pattern, match = min(found, key=lambda it: it[0])
        self.fault = NAMES[pattern] or match["fault"]
        self.text = re.sub(r"\s*\n\s*", " ", match["text"])
        self.cycles = int(match["time"]) // PERIOD
        self.by = FOUND_BY.get(self.fault) or FOUND_BY.get(match["by"], "checker")


class Runs:
    """How seeds are run: by the simulation with its words, and by tltool, which counts situations. A trace stays where a fault was
    found, or where all are kept."""

    def __init__(self, program, words, folder, tool, patience, keep):
        self.program, self.words, self.folder = program, words, folder
        self.tool, self.patience, self.keep = tool, patience, keep

    def run(self, number):
        trace = self.folder / f"seed-{number}.trace"
        start = time.monotonic()
        said, status = self.simulate(number, trace)
        (self.folder / f"seed-{number}.log").write_text(said)
        seed = Seed(number, said, status, time.monotonic() - start, trace, count(self.tool, trace))
        if seed.fault is None and not self.keep:
            trace.unlink(missing_ok=True)
        return seed

    def simulate(self, number, trace):
        """What the simulation of a seed says, and its status."""
        words = [f"+verilator+seed+{number}", "+verilator+rand+reset+2", f"+seed={number}", f"+trace={trace}", *self.words]
        try:
            done = subprocess.run([str(self.program), *words], stdout=subprocess.PIPE, stderr=subprocess.STDOUT, text=True, errors="replace",
                                  timeout=self.patience, cwd=self.folder)
        except subprocess.TimeoutExpired as late:
            return (late.stdout or b"").decode(errors="replace") + f"\ntl-conform: not ended after {self.patience} seconds\n", 1
        return done.stdout, done.returncode

    def run_all(self, numbers, jobs, take):
        """Runs the seeds, so many side by side. Each goes to `take` with the number of all; once that says it is enough none begins."""
        found = []
        with concurrent.futures.ThreadPoolExecutor(jobs) as pool:
            waiting = [pool.submit(self.run, number) for number in numbers]
            for future in concurrent.futures.as_completed(waiting):
                if future.cancelled():
                    continue
                found.append(future.result())
                if take(found, sum(1 for it in waiting if not it.cancelled())):
                    for later in waiting:
                        later.cancel()
        return sorted(found, key=lambda seed: seed.number)


def progress(found, count, summary):
    """One line, written over where the output is a terminal."""
    faults = sum(1 for seed in found if seed.fault)
    cycles = sum(seed.cycles or 0 for seed in found)
    line = f"{len(found)} of {count} seeds, {cycles:,} cycles, {faults} at fault, {summary}"
    if sys.stderr.isatty():
        print(f"\r{line}", end="\n" if len(found) == count else "", file=sys.stderr, flush=True)
    elif len(found) == count or len(found) % 10 == 0:
        print(line, file=sys.stderr, flush=True)
