#!/usr/bin/env python3
"""agree.py [--long] [--tool TLTOOL]: replays traces into tl_link_properties, in Icarus, and compares the first fault, its
line and its rule, with what `tltool monitor` says of them, under both profiles and under liberties, and with what
reference.py says. M1 to M4 are compared with `tltool coherent`. Then the wrong modules
of wrong.py have to be told apart.

Traces: the examples, random worlds (`tltool random`) and these spoiled, and links drawn at random that end in a fault. Half of
them are replayed with several beats at one edge."""

import argparse
import collections
import concurrent.futures
import os
import random
import subprocess
import sys
import tempfile
from pathlib import Path

HERE = Path(__file__).resolve().parent
ROOT = HERE.parent.parent.parent
sys.path += [str(HERE), str(ROOT / "bench")]
from reference import LIBERTIES, ORDER, RULES, History
import between
import memory
from spoil import spoil
from traces import LEVELS, drawn, line_of, read_beat, read_header
from wrong import DIRECTED, WRONG, WRONG_BETWEEN, WRONG_MEMORY

KEYS = 4  # of each kind, tracked at a time
MODULES = sorted((HERE.parent).glob("tl_*.sv"))
Case = collections.namedtuple("Case", "name width levels liberties beats said")


def bits(liberties):
    return sum(1 << LIBERTIES.index(it) for it in liberties)


# ---- what is said of a trace


def monitored(tool, text):
    """What `tltool monitor` says: the line and the rule at fault, or the number of lines and None."""
    told = subprocess.run([tool, "monitor"], input=text.encode("latin-1"), stdout=subprocess.PIPE).stdout.decode().split()
    return (int(told[1]), told[2]) if told[0] == "line" else (int(told[1]) + 1, None)


def referred(case):
    """What reference.py says of a case."""
    links = [History(level, case.width, case.liberties) for level in case.levels]
    for line, link, beat in case.beats:
        rule = links[link].judge(beat)
        if rule:
            return line, rule
        links[link].take(beat)
    return case.beats[-1][0] if case.beats else 1, None


def case_of(tool, name, text):
    """The case of a trace, up to the first line that isn't a link's beat."""
    line, rule = monitored(tool, text)
    lines = text.split("\n")
    if line == 1 and rule:
        return None
    width, liberties, levels = read_header(lines[0])
    if rule and (rule[0] == "F" or int(lines[line - 1][:2], 16) >= len(levels)):
        line, rule = line - 1, None
    beats = [(number, *read_beat(lines[number - 1])) for number in range(2, line + 1)]
    return Case(name, width, levels, liberties, beats, (line, rule))


def recorded(path, liberties):
    """The case of a trace that is clean under liberties."""
    lines = Path(path).read_text().splitlines()
    width, _, levels = read_header(lines[0])
    beats = [(number, *read_beat(line)) for number, line in enumerate(lines[1:], 2)]
    return Case(Path(path).name, width, levels, frozenset(liberties), beats, (len(lines) + 1, None))


# ---- the traces


def examples(tool):
    """The examples but those of wide beats and those with stores and loads, or with memory that was zero, which the modules don't take."""
    for path in sorted((ROOT / "crates/tl_examples/data").rglob("*.trace")):
        text = path.read_text("latin-1")
        head = text.partition("\n")[0]
        if not head.startswith("tltrace 5 ") and " C+" not in head and " zero " not in head:
            yield case_of(tool, path.name, text)


def worlds(tool, count):
    """Traces of random worlds, each clean and spoiled."""
    rng = random.Random(count)
    for seed in range(count):
        words = ["--events", str(rng.choice([20, 60, 150])), "--width", str(rng.choice([4, 8, 16])),
                 "--profile", str(rng.choice([1, 2])), "--clients", rng.choice(["C:2,C:2", "C:1,C:3,UH:2", "C:2,UL:1"])]
        schedule = subprocess.run([tool, "random", "--seed", str(seed), *words], stdout=subprocess.PIPE).stdout
        trace = subprocess.run([tool, "run", "--trace"], input=schedule, stdout=subprocess.PIPE).stdout.decode()
        lines = trace.splitlines(keepends=True)
        yield case_of(tool, f"world {seed}", trace)
        kind, channel = rng.choice(["drop", "source", "size", "param", "address"]), rng.choice("ABCD")
        if kind != "address" or channel != "D":
            spoiled = spoil(lines, kind, channel, rng.randrange(2, len(lines) + 1))
            yield case_of(tool, f"world {seed}, {kind} on {channel}", "".join(spoiled))


# The sets of liberties that links are drawn with, each with a width: none, each, and several together.
SETS = [([it], (4, 8, 16)[place % 3]) for place, it in enumerate(LIBERTIES) if it != "writer"] + [
    (LIBERTIES[:7], 8), (LIBERTIES, 16), (["ids", "early", "drops"], 8), (["drops", "reports"], 4), (["early", "denied"], 8)]


def named(liberties):
    """The word of a header for liberties."""
    return ",".join(it for it in LIBERTIES if it in liberties) or "none"


def link(tool, seed, level, width, liberties, wanted):
    """A link drawn at random. Without the command it is judged by the reference."""
    beats, rule = drawn(seed, level, width, liberties, random.Random(seed).choice([0, 5, 20, 60, 120]), wanted)
    lines = "".join(f"{line_of(it, width)}\n" for it in beats)
    if tool and set(liberties) <= {"writer"}:
        return case_of(tool, f"link {seed}", f"tltrace 3 {width} {2 if liberties else 1} {level}\n{lines}")
    numbered = [(line, 0, it) for line, it in enumerate(beats, 2)]
    said = monitored(tool, f"tltrace 4 {width} {named(liberties)} {level}\n{lines}") if tool else (len(beats) + 1, rule)
    return Case(f"link {seed} {level} {width} {named(liberties)}", width, [level], frozenset(liberties), numbered, said)


def links(tool, count):
    """Links drawn at random: half of them as a profile has them."""
    wanted = collections.Counter()
    for seed in range(1, count + 1):
        rng = random.Random(seed)
        level = rng.choice(["UL", "UH", "C", "C", "C", "C"])
        liberties, width = ([["writer"], []][rng.random() < 0.5], rng.choice([4, 8, 16])) if seed % 2 else rng.choice(SETS)
        yield link(tool, seed, level, width, liberties, wanted)


# ---- the module


def rows(case, link, number, packed):
    """The lines that replay.sv reads of one link of a case, in rounds of KEYS keys of each kind."""
    beats = [(line, it) for line, on, it in case.beats if on == link]
    keys = lambda channels, key: sorted({key(it) for _, it in beats if it.channel in channels}) or [0]
    kinds = [(keys("ACD", lambda it: it.source), 8), (keys("DE", lambda it: it.sink), 8), (keys("ABC", lambda it: it.address >> 6), 26)]
    rng = random.Random(number)
    text, before = [], "Z"
    for line, it in beats:
        same = packed and it.channel > before and rng.random() < 0.9
        before = it.channel
        fields = " ".join(f"{field:x}" for field in it[1:])
        text.append(f"{it.channel} {int(same)} {line:x} {fields}\n")
    for start in range(0, max(len(found) for found, _ in kinds), KEYS):
        vectors = []
        for found, width in kinds:
            some = found[start : start + KEYS] or found[:1]
            vectors.append(sum(some[place % len(some)] << (width * place) for place in range(KEYS)))
        yield f"T {number:x} " + " ".join(f"{it:x}" for it in vectors) + "\n" + "".join(text)


def grouped(cases, packed_all=None):
    """What is replayed together, by level, width and liberties."""
    groups = collections.defaultdict(list)
    for number, case in enumerate(cases):
        packed = number % 2 == 1 if packed_all is None else packed_all
        for link, level in enumerate(case.levels):
            groups[LEVELS.index(level), case.width, bits(case.liberties)] += rows(case, link, number, packed)
    return groups


def replay(temp, key, texts, modules):
    """The least fault of each case that has one, as the module says: line and rule."""
    level, width, liberties = key
    program, data = temp / "replay.vvp", temp / "beats"
    subprocess.run(["iverilog", "-g2012", f"-I{HERE.parent}", "-s", "replay", "-o", program, f"-Preplay.LEVEL={level}",
                    f"-Preplay.W={width}", f"-Preplay.LIBERTIES={liberties}", f"-Preplay.KEYS={KEYS}", HERE / "replay.sv", *modules],
                   check=True, stderr=subprocess.DEVNULL)
    data.write_text("".join(texts))
    found = {}
    for row in subprocess.run(["vvp", program, f"+beats={data}"], check=True, stdout=subprocess.PIPE, text=True).stdout.splitlines():
        number, line, broken = row.split()
        names = {RULES[place] for place, bit in enumerate(reversed(broken)) if bit == "1"}
        place = (int(line), min((ORDER.index(it) for it in names), default=len(ORDER)))
        found[int(number)] = min(found.get(int(number), place), place)
    return found


def first_faults(groups, modules, jobs):
    """The module's first fault of each case."""
    found = {}
    with concurrent.futures.ThreadPoolExecutor(jobs) as pool, tempfile.TemporaryDirectory() as temp:
        folders = [Path(temp) / str(it) for it in range(len(groups))]
        for folder in folders:
            folder.mkdir()
        work = [pool.submit(replay, folder, key, texts, modules) for folder, (key, texts) in zip(folders, groups.items())]
        for done in work:
            for number, place in done.result().items():
                found[number] = min(found.get(number, place), place)
    return {number: (line, ORDER[rule] if rule < len(ORDER) else "X") for number, (line, rule) in found.items()}


def differing(cases, groups, modules, jobs):
    found = first_faults(groups, modules, jobs)
    for number, case in enumerate(cases):
        said = case.said if case.said[1] else None
        if found.get(number) != said:
            yield f"{case.name}: said {said}, the module {found.get(number)}"


# ---- wrong modules


def planted(folder, file, old, new):
    """The modules with one edit."""
    for path in MODULES:
        text = path.read_text()
        if path.name == file:
            if text.count(old) != 1:
                sys.exit(f"agree.py: {file} has {text.count(old)} times: {old}")
            text = text.replace(old, new)
        (folder / path.name).write_text(text)
    return sorted(folder.glob("*.sv"))


def told_apart(tool, jobs):
    """How many of the wrong modules differ from what is said of some link; each is printed."""
    count = 0
    directed = [case_of(tool, f"directed {place}", text) for place, text in enumerate(DIRECTED)]
    for name, rule, liberties, file, old, new in WRONG:
        wanted = collections.Counter({it: 1000 for it in ORDER if it != rule})
        cases = [link(None, seed, "C", 8, liberties, wanted) for seed in range(1, 81)] + directed
        with tempfile.TemporaryDirectory() as temp:
            differ = sum(1 for _ in differing(cases, grouped(cases), planted(Path(temp), file, old, new), jobs))
        count += differ > 0
        print(f"wrong module: {name}: {differ} of {len(cases)} links differ", flush=True)
    return count


def together(tool, name, subject, count, wrong, wrong_count):
    """Where the rules between links differ from what `tltool coherent` says, and how many wrong modules are told apart."""
    said, text = subject.prepared(tool, count)
    print(f"{name}: {len(said)} traces: {between.by_rule(said)}", flush=True)
    apart = 0
    with tempfile.TemporaryDirectory() as temp:
        faults = subject.differing(said, text, MODULES, HERE.parent, Path(temp))
        if wrong_count != count:
            said, text = subject.prepared(tool, wrong_count)
        for what, file, old, new in wrong:
            (Path(temp) / "wrong").mkdir(exist_ok=True)
            modules = planted(Path(temp) / "wrong", file, old, new)
            differ = len(subject.differing(said, text, modules, HERE.parent, Path(temp)))
            apart += differ > 0
            print(f"wrong module: {what}: {differ} of {len(said)} traces differ", flush=True)
    return faults, apart


def main():
    words = argparse.ArgumentParser(description=__doc__.split(":")[0])
    words.add_argument("--long", action="store_true")
    words.add_argument("--tool", default=os.environ.get("TLTOOL", str(ROOT / "crates/tltool/out/tltool")))
    words.add_argument("--jobs", type=int, default=1)
    words.add_argument("--worlds", type=int)
    words.add_argument("--links", type=int)
    asked = words.parse_args()
    count_worlds, count_links = (4000, 12500) if asked.long else (30, 500)
    count_worlds = count_worlds if asked.worlds is None else asked.worlds
    count_links = count_links if asked.links is None else asked.links
    cases = [it for it in [*examples(asked.tool), *worlds(asked.tool, count_worlds), *links(asked.tool, count_links)] if it]
    cases += [case_of(asked.tool, f"directed {place}", text) for place, text in enumerate(DIRECTED)]
    faults = [f"{it.name}: said {it.said}, reference.py {referred(it)}" for it in cases if referred(it) != it.said]
    print(f"{len(cases)} traces, {sum(len(it.beats) for it in cases)} beats; reference.py differs in {len(faults)}", flush=True)
    groups = grouped(cases)
    faults += differing(cases, groups, MODULES, asked.jobs)
    print(f"the module differs in {len(faults)}", flush=True)
    by_rule = collections.Counter(it.said[1] or "clean" for it in cases)
    print("first faults:", " ".join(f"{rule} {by_rule[rule]}" for rule in [*ORDER, "clean"]), flush=True)
    rare = [rule for rule in ORDER if by_rule[rule] < (50 if asked.long else 5)]
    if rare:
        faults.append(f"too few first faults of {', '.join(rare)}")
    apart = told_apart(asked.tool, asked.jobs)
    # The directed traces alone tell the wrong modules apart that are about bytes.
    for name, subject, count, wrong, few in (("between links", between, 40, WRONG_BETWEEN, 40),
                                             ("bytes of memory", memory, 20, WRONG_MEMORY, 0)):
        more, told = together(asked.tool, name, subject, 1000 if asked.long else count, wrong, few)
        faults, apart = faults + more, apart + told
    count_wrong = len(WRONG) + len(WRONG_BETWEEN) + len(WRONG_MEMORY)
    if apart < count_wrong:
        faults.append(f"{count_wrong - apart} wrong modules aren't told apart")
    print(*faults[:20], sep="\n", end="\n" if faults else "")
    print(f"agreement: {len(cases)} traces, {len(faults)} faults, {apart} of {count_wrong} wrong modules told apart")
    sys.exit(1 if faults else 0)


if __name__ == "__main__":
    main()
