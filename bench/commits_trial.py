#!/usr/bin/env python3
"""commits_trial.py [--runs N] [--without PART] [--traces FOLDER]: tries the rules for stores and loads in a trace (M5, M6, M7) on
the memories of early_trial.py. The cores of right caches store and load; no run may be convicted. In every second run
memory is zero at first, and the header says so. Of each wrong cache it prints
how many runs are convicted, by rule, and how many the beats alone convict. `--without` leaves out one part of the rules. With
`--traces` each run is written as a trace with the verdict beside it, as early_trial.py does."""
import collections

from trial.clients import CACHES, DEVICES
from trial.cores import BUGS, Cores
from trial.runs import Runs
from trial.traces import line_of

LETTERS = {"store": "S", "load": "L", "load_begins": "I"}


def event_line(event):
    """The line of a beat or a commit. Byte i of the model is a word of four bytes."""
    if not isinstance(event, tuple):
        return line_of(event)
    call, link, block, i, *value = event
    return f"{link:02x} {LETTERS[call]} 2 {64 * block + 4 * i:08x}" + "".join(f" {it:02x}{it:02x}{it:02x}{it:02x}" for it in value)


def header(world):
    levels = "".join(" C+" if complete else " C" for complete in world.complete[:CACHES]) + " UH" * DEVICES
    return f"tltrace 4 4 early,{'drops,' if world.drops else ''}reports{' zero' if world.zero else ''}{levels}"


def show(runs, seed, world, verdict):
    """Prints the last events of a run, and its verdict."""
    for event in world.log[-120:]:
        if isinstance(event, tuple):
            print(*event)
        else:
            runs.tell([event])
    print(verdict, "seed", seed, "complete", world.complete)


def main():
    runs = Runs()
    for bug in runs.bugs(BUGS):
        verdicts, alone, beats, commits = collections.Counter(), 0, 0, 0
        for seed in runs.seeds(bug):
            world = Cores(seed, bug, runs.left_out, runs.beats)
            verdict = world.run(runs.steps)
            verdicts[verdict] += 1
            alone += bug is not None and Cores(seed, bug, runs.left_out, runs.beats, True).run(runs.steps) != "coherent"
            commits += world.commits
            beats += len(world.log) - world.commits
            if runs.folder:
                events = world.log[:world.lines if world.fault else None]
                runs.write(bug, seed, header(world), [event_line(event) for event in events], verdict)
            if verdict != "coherent" and bug is None and runs.shows:
                show(runs, seed, world, verdict)
                return
        print(bug or "right", dict(verdicts), "by the beats alone", alone, "beats", beats, "commits", commits)


if __name__ == "__main__":
    main()
