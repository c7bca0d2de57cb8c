#!/usr/bin/env python3
"""wide_commits.py TOOL [RUNS]: stores and loads in wide traces.

Traces of caches whose cores store and load, by the model bench/commits_trial.py (RUNS runs of right caches, 30 if none is said, and
a tenth as many of each wrong one), and traces of worlds, by `TOOL random` and `TOOL run --trace --commits`, are written wide: their
beats joined to those of a bus of up to 64 bytes, their blocks named by addresses of 64 bits and their ids by numbers of 16, one to
one; each once more with a line spoiled. `TOOL monitor` and `TOOL coherent` must say of each what they say of the narrow trace that
faults/traces makes of it by the text of docs/FORMATS.md, at the line of the wide event whose part is at fault. Where no beats were
joined they must say what they say of the trace that was written wide, which has the model's verdict. With `--all` and a report they
must find what they find line by line in the trace without the lines found before, and count the beats and the commits of the others.
`cover --json` must count what it counts of the narrow trace, with the lines of the wide one. `chart` must draw the rows of the chart
of the narrow one with those lines and names. `explain`, also with `--coherent`, must write what it writes of the narrow trace with
those lines and names, but for what the narrow one shows of a line that spells no event. Such lines have the fault of the table in
docs/FORMATS.md, and commits take no numbers of sources. Ends with 'wide commits: N passed, M failed'."""
import concurrent.futures
import os
import pathlib
import random
import subprocess
import sys
import tempfile

import traces.spoil
from traces.beats import COMMITS, Beat, beat_of
from traces.charts import mischarted
from traces.command import of
from traces.explanations import misexplained
from traces.reports import misreported
from traces.verdicts import miscounted, wanted, wanted_all
from traces.widen import ANSWER, GET, WideTrace, widened

ROOT = pathlib.Path(__file__).resolve().parent.parent
MODEL = ROOT / "bench/commits_trial.py"
# What is compared of explanations.
FORMS = ["explain"], ["explain", "--coherent"]
WORLDS = [
    ["--seed", str(seed), "--width", width, "--profile", profile, "--clients", clients, "--blocks", "3", "--events", "150"]
    for seed, (width, profile, clients) in enumerate(
        (width, profile, clients) for width, profile in (("4", "1"), ("8", "2"), ("16", "1"))
        for clients in ("C:2", "C:2,C:2,UH:1", "UL:2,C:4,C:3")
    )
]


class Commit(Beat):
    """A store or a load: a letter, a size, an address, and the digits of its bytes."""

    def line(self, width, ids, address):
        told = f"{self.link} {self.channel} {self.size:x} {self.address:0{address}x}"
        return f"{told} {self.opcode}" if self.channel in "SL" else told


def event_of(line):
    """The beat or the commit of a line."""
    link, letter, *fields = line.split()
    if letter not in COMMITS:
        return beat_of(line)
    size, address, *digits = fields
    return Commit(link, letter, opcode="".join(digits), size=int(size, 16), address=int(address, 16))


def spoiled(events, width, rng):
    """The same with one event left out, twice, exchanged with the next, or with another field."""
    events = list(events)
    commits = [i for i, it in enumerate(events) if isinstance(it, Commit)]
    if not commits or rng.random() < 0.4:
        return traces.spoil.spoiled(events, width, rng)
    place = rng.choice(commits)
    commit, kind = events[place], rng.choice(["drop", "twice", "turn", "data", "address", "link", "letter"])
    traces.spoil.rearrange(events, place, kind)
    if kind == "data" and commit.opcode:
        digit = rng.randrange(len(commit.opcode))
        events[place] = commit.copy(opcode=commit.opcode[:digit] + rng.choice("0123456789abcdef") + commit.opcode[digit + 1:])
    elif kind == "address":
        other = rng.choice([commit.address ^ 1 << rng.randrange(3, 6), rng.randrange(2**61) * 8, rng.choice(events).address // 8 * 8])
        events[place] = commit.copy(address=other)
    elif kind == "link":
        events[place] = commit.copy(link=rng.choice(events).link)
    elif kind == "letter" and commit.opcode:
        events[place] = commit.copy(channel="SL"[commit.channel == "S"])
    return events


def compared(told):
    """What is compared of an explanation: of a line that spells no event its fault."""
    status, text = told
    first, *lines = text.splitlines()
    return status, [first, *(lines[:1] if first.split()[-1].startswith("F") else lines)]


def misjudged(tool, trace, rng):
    """What is wrong with the verdicts on a wide trace, and with its reports."""
    for command in "monitor", "coherent":
        says, ought = of(tool, command, text=trace.text()), wanted(tool, [command], trace)
        if says != ought:
            yield f"{command} of {trace.width} bytes says {says}, not {ought}"
        most = rng.choice([1, 2, 3, 20])
        yield from misreported(tool, [command, "--all", str(most)], trace.text(), *wanted_all(tool, [command], trace, most))
    if miscounted(tool, trace):
        yield f"cover of {trace.width} bytes counts other situations than those of the narrow trace"


def otherwise_wide(tool, text, trace, verdict):
    """What is said otherwise of a trace than of the same trace written wide. `verdict` is what `coherent` ought to say of it."""
    for command, ought in ("monitor", None), ("coherent", verdict):
        says = of(tool, command, text=trace.text())
        if says != of(tool, command, text=text) or ought and says[1] != ought:
            yield f"{command} says {says} of the same trace written wide"


def slips(tool, name, text, seed, verdict=None):
    """What is wrong with what is said of a trace that is written wide."""
    rng = random.Random(seed)
    header, *lines = text.splitlines()
    _, _, narrow, liberties, levels = header.split(" ", 4)
    events, narrow = [event_of(it) for it in lines], int(narrow)
    for width in (narrow, rng.choice([it for it in (4, 8, 16, 32, 64) if it >= narrow])):
        whole = widened(events, narrow, width, rng)
        for spoil in False, True:
            trace = WideTrace(liberties, levels, spoiled(whole, width, rng) if spoil and whole else whole, width)
            yield from (f"{name}: {it}" for it in misjudged(tool, trace, rng))
            wrong = [*misexplained(tool, trace, FORMS, compared), *mischarted(tool, trace)]
            yield from (f"{name} at {width} bytes: {it}" for it in wrong)
            if not spoil and width == narrow:
                yield from (f"{name}: {it}" for it in otherwise_wide(tool, text, trace, verdict))


# Lines of a trace `tltrace 5 8 none C+`, each with its fault, by the table of docs/FORMATS.md.
SPELLED = "00 I 0 8000000000000040"
FAULTS = {
    "00 S 0 0000000000000000 0g": "F3", "00 S 0 00000000 00": "F3", "00 S 0 000000000000000000 00": "F3", "0 S 0 0000000000000000 00": "F3",
    "00 S 1 0000000000000001 0000": "F3", "00 S 4 0000000000000000 " + 32 * "0": "F3", "00 S 1 0000000000000000 00": "F3",
    "00 S 3 0000000000000004 0000000000000000": "F3", "00 S 0 A000000000000000 00": "F3", "00 I 0 0000000g00000000": "F3",
    "00 I 0 000000000000000": "F3", "00 S 0 0000000000000000": "F1", "00 S 0 0000000000000000 00 0": "F1", "00 I 0 0000000000000000 00": "F1",
    "00 L": "F1", "00": "F1", "": "F1", "00 M 0 0000000000000000 00": "F2", "00 s 0 0000000000000000 00": "F2", "00 SL 0 0000000000000000 00": "F2",
    "00  S 0 0000000000000000 00": "F2", "00 S 0  0000000000000000 00": "F1", "00 S 0 0000000000000000 00 ": "F1",
    "00000 S00000000 3 0000000000000000 0000000000000000": "F2", "00 S 0 0000000000000000 00" + 300 * "0": "F1",
}


def line_slips(tool):
    """What is wrong with the verdicts on lines of no event, and of commits and requests with many names."""
    for line, fault in FAULTS.items():
        for width in 4, 8, 16, 32, 64:
            for command in "monitor", "coherent":
                told = of(tool, command, text=f"tltrace 5 {width} none C+\n{SPELLED}\n{line}\n")
                if told != (1, f"line 3 {fault}\n"):
                    yield f"{command} says {told} of {line!r} at {width} bytes"
    for line in SPELLED, "00 I 3 fffffffffffffff8", "00 I 2 000000010000003c":
        if of(tool, "monitor", text=f"tltrace 5 16 none C+\n{line}\n") != (0, "clean 1\n"):
            yield f"monitor refuses {line!r}"
    for rest in ("C", "C +", "C+ ", "UL+", "C++", "C+ X"):
        if of(tool, "monitor", text=f"tltrace 5 8 none {rest}\n{SPELLED}\n")[1] not in ("line 1 F7\n", "line 2 F2\n"):
            yield f"monitor takes the header with {rest}"
    many = [it.format(source) for source in range(1, 256) for it in (GET, SPELLED, ANSWER)]
    told = of(tool, "monitor", text="\n".join(["tltrace 5 16 none C+", *many]) + "\n")
    if told != (0, "clean 765\n"):
        yield f"monitor says {told} of 255 sources with commits between"
    told = of(tool, "monitor", text="\n".join(["tltrace 5 16 none C+", *many, SPELLED, GET.format(256)]) + "\n")
    if told != (1, "line 768 F9\n"):
        yield f"monitor says {told} of 257 sources with commits between"


def main():
    tool, runs = pathlib.Path(sys.argv[1]).resolve(), sys.argv[2] if len(sys.argv) > 2 else "30"
    with tempfile.TemporaryDirectory() as folder, concurrent.futures.ThreadPoolExecutor(len(os.sched_getaffinity(0))) as pool:
        subprocess.run([sys.executable, MODEL, "--runs", runs, "--traces", folder], check=True, stdout=subprocess.DEVNULL)
        traces = [it for it in sorted(pathlib.Path(folder).glob("*.trace")) if "C+" in it.open().readline()]
        tasks = [(it.name, it.read_text(), it.with_suffix(".verdict").read_text()) for it in traces]
        for words in WORLDS:
            schedule = of(tool, "random", *words)[1]
            told = of(tool, "run", "--trace", "--commits", text=schedule)[1]
            text = "".join(it for it in told.splitlines(keepends=True) if not it.startswith("line "))
            tasks.append((f"random {' '.join(words)}", text, f"coherent {text.count(chr(10)) - 1}\n"))
        found = list(pool.map(lambda it: list(slips(tool, it[1][0], it[1][1], it[0], it[1][2])), enumerate(tasks)))
    found.append(list(line_slips(tool)))
    for slip in sum(found, []):
        print(slip)
    failed = sum(map(bool, found))
    print(f"wide commits: {len(found) - failed} passed, {failed} failed")
    return failed > 0


if __name__ == "__main__":
    sys.exit(main())
