#!/usr/bin/env python3
"""situations.py TOOL [SEEDS]: counts the situations of the random traces of SEEDS seeds (250 if none is said) in each of four
worlds, and of the examples' traces in the folder situations/, by reading the lines, and compares the counts and the first lines
with those of `tltool cover --json`, of each trace and of all together; the tables of the links likewise, and their text with that
of `tltool cover --tables`. Says what came of the events of the schedules, and what part of them came to nothing. Ends with the sums of
outcomes, messages and situations, and `situations: N traces, M differ`."""
import collections
import pathlib
import re
import sys

from counting.comparison import Comparison, said

EXAMPLES = pathlib.Path(__file__).resolve().parent.parent / "crates/tl_examples/data/situations"
WORLDS = [
    [],
    ["--width", "4"],
    ["--width", "16", "--profile", "2"],
    ["--clients", "C:4,C:4,C:4,UH:2", "--blocks", "6"],
]
# What comes to nothing.
IDLE = ("busy", "miss", "empty", "stalled", "no client")


def outcome_of(line):
    """The kind of an outcome's line."""
    if re.match(r"[0-9a-f]{2} [A-E] ", line):
        done = re.search(r" done [0-9a-f]{2} (\w+(?: [BT]\b)?)", line)
        kind = re.match(r"data|.*", done[1])[0] if done else ""
        return f"done {kind}" if done else "moved"
    return re.match(r"busy B\d|no client|\w+", line)[0]


def outcomes(schedule, lines):
    """The kind of what came of each event, those of drains aside."""
    rest = iter(lines)
    for event in schedule[1:]:
        if event == "drain":
            while not next(rest).startswith("drained "):
                pass
        else:
            yield outcome_of(next(rest))


def messages(tool, width, trace):
    """Channel, name and param of each beat of a trace."""
    for line in said(tool, "decode", "--width", width, text=trace.partition("\n")[2]).splitlines():
        fields = line.split(" ")
        yield " ".join(fields[1:4] if fields[1] != "E" else fields[1:3])


def main():
    tool, seeds = pathlib.Path(sys.argv[1]).resolve(), int(sys.argv[2]) if len(sys.argv) > 2 else 250
    comparison = Comparison(tool)
    came, beats = collections.Counter(), collections.Counter()
    for words in WORLDS:
        width = dict(zip(words[::2], words[1::2])).get("--width", "8")
        here = collections.Counter()
        for seed in range(seeds):
            schedule = said(tool, "random", "--seed", str(seed), *words)
            here.update(outcomes(schedule.splitlines(), said(tool, "run", text=schedule).splitlines()))
            trace = said(tool, "run", "--trace", text=schedule)
            beats.update(messages(tool, width, trace))
            comparison.add(f"{' '.join(words)} --seed {seed}", trace)
        idle = sum(n for kind, n in here.items() if kind.startswith(IDLE))
        print(f"{' '.join(words) or 'default options'}: {100 * idle / here.total():.1f} % of {here.total()} events came to nothing")
        came += here
    for path in sorted(EXAMPLES.glob("*.trace")):
        comparison.add(path.name, path.read_text())
    names = comparison.all_together()
    sums = {name: comparison.sums[name] for name in names}
    for title, found in (("outcomes", dict(sorted(came.items()))), ("beats", dict(sorted(beats.items()))), ("situations", sums)):
        print(f"\n{title}, {sum(found.values())} in all")
        for kind, count in found.items():
            print(f"  {kind:32} {count:9}")
    print(f"situations: {comparison.traces} traces, {comparison.differ} differ")
    sys.exit(comparison.differ > 0)


if __name__ == "__main__":
    main()
