#!/usr/bin/env python3
"""early_trial.py [--runs N] [--without PART] [--traces FOLDER]: tries the rules between links on memories whose clients and
managers answer early, in a small model: all bytes of a beat are the same. Right managers must be coherent; of each wrong
one it prints how many runs are convicted, by rule. `--without` leaves out one part of the definitions. With `--traces` a
block has 16 beats of four bytes, and each run is written as a trace with the verdict beside it, for `tltool coherent`."""
import collections

from trial.manager import BUGS
from trial.runs import Runs
from trial.traces import HEADER, line_of
from trial.world import World


def main():
    runs = Runs()
    for bug in runs.bugs(BUGS):
        verdicts, beats = collections.Counter(), 0
        for seed in runs.seeds(bug):
            world = World(seed, bug, runs.left_out, runs.beats)
            verdict = world.run(runs.steps)
            beats += len(world.log)
            verdicts[verdict] += 1
            if runs.folder:
                runs.write(bug, seed, HEADER, [line_of(beat) for beat in world.log], verdict)
            if verdict != "coherent" and bug is None and runs.shows:
                runs.tell(world.log)
                print(verdict, "seed", seed)
                return
        print(bug or "right", dict(verdicts), "beats", beats)


if __name__ == "__main__":
    main()
