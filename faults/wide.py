#!/usr/bin/env python3
"""wide.py TOOL [SEEDS]: traces of random schedules, SEEDS of them (three hundred if none is said), are written wide: their beats
joined to those of a bus of up to 64 bytes, their blocks named by addresses of 64 bits and their ids by numbers of 16, one to
one; some with a line spoiled. TOOL must say of each what it says of the narrow trace that this program makes of it by the text of
docs/FORMATS.md, at the line of the wide beat whose part is at fault, `monitor` and `coherent` each. `cover --json` must count
what it counts of the narrow trace, with the lines of the wide beats. Traces with names beyond a limit are F9. With `--all` and a
report it must find what it finds line by line in the trace without the lines found before, and count the beats of the others.
`explain`, also with `--coherent`, must write what it writes of the narrow trace, with the lines and the names of the wide one: the
grounds, the liberties that would allow the beat, and after a trace without a fault, whole or cut off, the pending messages. So it
must of the examples of rules, pending messages and situations in crates/tl_examples/data, written wide. `chart` must draw the rows of the chart of
the narrow one with those lines and names, and up to 16 bytes the same picture. `decode --wide` must write of each what this program
writes of its fields. Ends with 'wide: N passed, M failed'."""
import collections
import concurrent.futures
import os
import pathlib
import random
import sys

from traces.beats import beat_of, in_words
from traces.charts import mischarted
from traces.command import of, options_of
from traces.explanations import misexplained
from traces.reports import misreported
from traces.spoil import spoiled
from traces.verdicts import miscounted, wanted, wanted_all
from traces.widen import ANSWER, GET, WideTrace, widened

CLIENTS = ["C:2,C:2,C:2,UH:1", "C:1,C:1", "C:8,C:1,UL:2", "C:2,UH:2,UL:2", "UL:1,UH:8", "C:3"]
EVENTS, WIDTHS = 120, ("16", "16", "16", "4", "8")
# What is compared of explanations.
FORMS = ["explain"], ["explain", "--coherent"], ["explain", "--allow", "standard"]
DATA = pathlib.Path(__file__).resolve().parent.parent / "crates/tl_examples/data"


def example(file, rng):
    """The traces of a file with a header of one of the forms 1, 2 and 4, written wide."""
    header, *lines = file.read_text().splitlines()
    _, version, *words = header.split()
    if version not in "124" or "+" in header or " zero" in header:
        return
    narrow = 8 if version == "1" else int(words.pop(0))
    liberties = words.pop(0) if version == "4" else "none"
    levels, beats = " ".join(words), [beat_of(it) for it in lines]
    for width in sorted({narrow, 32, 64}):
        yield WideTrace(liberties, levels, widened(beats, narrow, width, rng), width)


def examples(tool):
    """What is wrong with the explanations and charts of the examples that are written wide, and the verdicts of `coherent` on them."""
    rng, wrong, verdicts = random.Random(1), [], collections.Counter()
    for file in [it for folder in ("rules", "pending", "situations") for it in sorted((DATA / folder).glob("*.trace"))]:
        for trace in example(file, rng):
            slips = [*misexplained(tool, trace, FORMS), *mischarted(tool, trace)]
            wrong += [f"{file.name} at {trace.width} bytes: {it}" for it in slips]
            verdicts[of(tool, "coherent", text=trace.text())[1].split()[-1]] += 1
    return wrong, verdicts


def words_of(seed):
    """The options of `random` for a seed."""
    return options_of(seed, EVENTS, CLIENTS[seed % len(CLIENTS)], WIDTHS[seed % len(WIDTHS)])


def undecoded(tool, trace):
    """Whether `decode --wide` says something else of a trace's lines than their fields."""
    said = of(tool, "decode", "--wide", "--width", str(trace.width), text="".join(f"{it}\n" for it in trace.lines()))
    return said != (0, "".join(f"{in_words(it)}\n" for it in trace.lines()))


def misjudged(tool, trace, ought_to_be_right):
    """What is wrong with the verdicts on a trace."""
    for command in ["monitor"], ["coherent"], ["monitor", "--allow", "standard"]:
        says, ought = of(tool, *command, text=trace.text()), wanted(tool, command, trace)
        if says != ought:
            yield f"{' '.join(command)} says {says}, and ought to say {ought}"
        if ought_to_be_right and ought[0]:
            yield f"{' '.join(command)} finds a fault in a right trace: {ought[1]}"


def written_wide(tool, seed, rng):
    """The trace of a seed, written wide, and whether it ought to be right."""
    _, schedule = of(tool, "random", *words_of(seed))
    _, *lines = of(tool, "run", "--trace", text=schedule)[1].splitlines()
    narrow = int(WIDTHS[seed % len(WIDTHS)])
    levels = " ".join(it.split(":")[0] for it in CLIENTS[seed % len(CLIENTS)].split(","))
    width = rng.choice([16, 32, 64]) if narrow == 16 else narrow
    beats = widened([beat_of(it) for it in lines], narrow, width, rng)
    right = seed % 3 == 0
    if not right:
        beats = spoiled(beats, width, rng)
    liberties = rng.choice(["none", "none", "ids", "drops", "writer,drops"])
    return WideTrace(liberties, levels, beats, width), right and width == narrow


def slips(tool, seed):
    """What is wrong with a seed, and the verdict of `monitor`."""
    rng = random.Random(seed)
    trace, right = written_wide(tool, seed, rng)
    wrong = ["decode --wide says something else than its fields"] if undecoded(tool, trace) else []
    wrong += misjudged(tool, trace, right)
    wrong += misexplained(tool, trace, FORMS)
    cut = trace.of(trace.beats[:rng.randrange(len(trace.beats))])
    wrong += [f"cut after {len(cut.beats)} beats: {it}" for it in misexplained(tool, cut, FORMS)]
    wrong += mischarted(tool, trace)
    if miscounted(tool, trace):
        wrong.append("cover counts other situations than those of the narrow trace")
    for command in "monitor", "coherent":
        most = rng.choice([1, 2, 3, 20])
        found, taken = wanted_all(tool, [command], trace, most)
        wrong += misreported(tool, [command, "--all", str(most)], trace.text(), found, taken)
    return wrong, of(tool, "monitor", text=trace.text())[1].split()[-1]


# A block that is granted with a sink, and given back.
GRANT = [
    "00 A 7 1 6 0001 0000000180000000 ffff - 0", "00 D 4 0 6 0001 {:04x} 0 - 0", "00 E {:04x}",
    "00 C 6 1 6 0001 0000000180000000 - 0", "00 D 6 0 6 0001 0000 0 - 0",
]


def beyond(tool):
    """What is wrong with names beyond a limit, and with as many as there may be. 0 is always the first source, and the first sink."""
    for level, lines, names, verdict in (
        ("UH", [GET, ANSWER], range(1, 256), "clean 510\n"),
        ("UH UH", [GET, ANSWER, "01" + GET[2:], "01" + ANSWER[2:]], range(1, 256), "clean 1020\n"),
        ("UH", [GET, ANSWER], range(1, 257), "line 512 F9\n"),
        ("C", GRANT, range(256), "clean 1280\n"),
        ("C", GRANT, range(257), "line 1283 F9\n"),
    ):
        text = "\n".join([f"tltrace 5 16 none {level}", *(it.format(name) for name in names for it in lines)]) + "\n"
        for command, word in ("monitor", "clean"), ("coherent", "coherent"):
            ought = (int("F9" in verdict), verdict.replace("clean", word))
            if of(tool, command, text=text) != ought:
                yield f"{command} of {len(names)} names at {level} ought to say {verdict}"


def main():
    tool, seeds = pathlib.Path(sys.argv[1]).resolve(), int(sys.argv[2]) if len(sys.argv) > 2 else 300
    with concurrent.futures.ThreadPoolExecutor(os.cpu_count()) as pool:
        found = list(pool.map(lambda seed: slips(tool, seed), range(seeds)))
    told = collections.Counter("clean" if verdict.isdigit() else verdict for _, verdict in found)
    for seed, (wrong, _) in enumerate(found):
        for it in wrong:
            print(f"seed {seed}: {it}")
    print("verdicts:", ", ".join(f"{count} {name}" for name, count in sorted(told.items())))
    slipped = list(beyond(tool))
    misexplains, verdicts = examples(tool)
    print("examples:", ", ".join(f"{count} {name}" for name, count in sorted(verdicts.items())))
    for it in slipped + misexplains:
        print(it)
    failed = sum(bool(wrong) for wrong, _ in found) + bool(slipped) + bool(misexplains)
    print(f"wide: {seeds + 2 - failed} passed, {failed} failed")
    return 1 if failed else 0


if __name__ == "__main__":
    sys.exit(main())
