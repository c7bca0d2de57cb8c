#!/usr/bin/env python3
"""commits.py TOOL [RUNS]: stores and loads in traces.

Random traces of caches whose cores store and load, by the model bench/commits_trial.py: RUNS runs of right caches (60 if none
is said), and a tenth as many of each wrong one; of each run of right caches two with a byte of a GrantData or an AccessAckData
changed, if the model says M2 or M3 of them. `TOOL coherent` must have the model's verdict on each, and `TOOL monitor` must
find no fault in those of right caches. Of each run at fault `TOOL explain --coherent` must have the rule's sentence and the event
in words, and for M5 to M7 the last store to each byte, as they are found here in the lines before it. For M2, M3, M6 and M7 it must
end with the lines of bench/commits_bytes.py: what a byte is, all that it may be, and the line that set each value. For M1 and M4 the line
of each link that it says to hold what conflicts must be one of that link. Each line that it cites
must be the one of its number. `TOOL chart` of each must draw the rows of the chart of its beats, and its stores and loads between
them.

Traces whose beats break a rule of beats, or none: the examples of rules and of pending messages, and those of the worlds below with
a line left out, said twice or changed, each with lines of loads that begin put between. Of each `TOOL explain`, also with
`--coherent`, must write what it writes of the trace without these lines, with the numbers of its lines; of M2 and M3 the first
lines, and of a line that spells no beat its sentence before that. The letters of lines are other ones there.

Traces of worlds: the schedules of the examples and twenty of `TOOL random`. What `TOOL run --trace --commits` writes of each must
be what this script makes of the outcomes that `TOOL run` writes; without stores, loads and marks it must be what `TOOL run --trace`
writes; and `TOOL coherent` must find no fault in it. Ends with 'commits: N passed, M failed'."""
import concurrent.futures
import os
import pathlib
import random
import re
import subprocess
import sys
import tempfile

from traces.beats import COMMITS, commit_words
from traces.charts import told_of
from traces.command import of

sys.path.insert(0, str(pathlib.Path(__file__).resolve().parent.parent / "bench"))
from commits_bytes import bytes_told  # noqa: E402
from commits_model import Beyond, judged  # noqa: E402

# Traces with more lines aren't explained: each load that begins and never ends is followed to the end of a trace.
LONG = 1000
ROOT = pathlib.Path(__file__).resolve().parent.parent
MODEL = ROOT / "bench/commits_trial.py"
DATA = ROOT / "crates/tl_examples/data"
SCHEDULES = DATA / "schedules"
# The options of `random` for each of twenty worlds: widths, profiles and numbers of caches.
WORLDS = [
    ["--seed", str(seed), "--width", width, "--profile", profile, "--clients", clients, "--blocks", blocks]
    for seed, (width, profile, clients, blocks) in enumerate(
        (width, profile, clients, blocks)
        for width, profile in (("4", "1"), ("8", "1"), ("8", "2"), ("16", "1"), ("16", "2"))
        for clients, blocks in (("C:1", "1"), ("C:2,C:2,C:2,UH:1", "2"), ("UL:2,C:8,UH:1,C:3", "5"), (",".join(["C:2"] * 16), "3"))
    )
]


def decoded(tool, width, lines):
    """The lines of a trace in words, by `decode` and by the form of stores and loads."""
    beats = [it for it in lines if it.split()[1] in "ABCDE"]
    told = iter(of(tool, "decode", "--width", width, text="\n".join([*beats, ""]))[1].splitlines())
    for line in lines:
        yield commit_words(*line.split()) if line.split()[1] in COMMITS else next(told)


def reached(line):
    """The addresses that a store or a load reaches."""
    size, address = line.split()[2:4]
    return range(int(address, 16), int(address, 16) + 2 ** int(size))


def bytes_of(lines, width):
    """The addresses that the last of these lines is about."""
    link, letter, *fields = lines[-1].split()
    if letter in "SL":
        return reached(lines[-1])
    address = int(fields[4], 16) // 64 * 64
    if letter == "C" and fields[0] in "57":
        earlier = sum(it.split()[:2] == [link, "C"] and it.split()[2] in "57" for it in lines[:-1])
        first = address + earlier * width % 64
        return range(first, first + width)
    return range(address, address + 64)


def stores_told(lines, words, width):
    """The last stores before the last of these lines to the bytes that it is about."""
    told = []
    for address in bytes_of(lines, width):
        last = [i for i, it in enumerate(lines[:-1]) if it.split()[1] == "S" and address in reached(it)][-1:]
        if last and told[-1:] != last:
            told += last
    return ["  the last stores to these bytes:", *(f"  {i + 2}: {words[i]}" for i in told)] if told else ["  no store before it reached these bytes"]


def altered(text, opcode, rng):
    """A trace with a byte of a response with this opcode changed, and the model's verdict on it. None if that isn't M2 or M3."""
    lines = text.splitlines()
    fields = [it.split() for it in lines]
    places = [i for i, f in enumerate(fields[1:], 1) if f[1] == "D" and f[2] == opcode and f[8] != "-"]
    if not places:
        return None
    i = rng.choice(places)
    digits = fields[i][8]
    at = 2 * rng.randrange(len(digits) // 2)
    fields[i][8] = f"{digits[:at]}{int(digits[at:at + 2], 16) ^ rng.randrange(1, 256):02x}{digits[at + 2:]}"
    lines[i] = " ".join(fields[i])
    found = judged(lines)
    return ("".join(it + "\n" for it in lines), f"line {found[0]} {found[1]}\n") if found and found[1] in ("M2", "M3") else None


def write_altered(trace, folder):
    """Writes traces with a byte of a GrantData or an AccessAckData changed, each with its verdict."""
    rng = random.Random(trace.name)
    for opcode in "51":
        made = altered(trace.read_text(), opcode, rng)
        if made:
            name = folder / f"altered_{opcode}_{trace.name}"
            name.write_text(made[0])
            name.with_suffix(".verdict").write_text(made[1])


def held_slips(told, words):
    """What is wrong with the links that are told to hold what conflicts with the last of these events, and with its request."""
    for line in told or ["nothing"]:
        held = re.fullmatch(r"  link (..) (?:holds|is being granted) (?:Branch|Trunk) of block [0-9a-f]{8} since line (\d+)(?: \(.*\))?", line)
        asked = re.fullmatch(r"  its request was complete in line (\d+)", line)
        front = held[1] if held else f"{words[-1][:2]} A "
        cited = held[2] if held else asked[1] if asked else "0"
        if not words[int(cited) - 2].startswith(front) or cited == "0":
            yield f"explain says {line}"


def story_slips(tool, trace, fault):
    """What is wrong with the reasons for the fault of a line."""
    header, *lines = trace.read_text().splitlines()
    width = header.split()[2]
    number, rule = fault.split()[1:]
    told = of(tool, "explain", "--coherent", trace)[1].splitlines()
    sentence = "  " + of(tool, "explain", rule)[1].splitlines()[0]
    lines = lines[:int(number) - 1]
    words = list(decoded(tool, width, lines))
    if told[:3] != [fault, sentence, f"  {number}: {words[-1]}"]:
        yield f"{trace.name}: explain begins with {told[:3]}"
    for line in told:
        cited = re.fullmatch(r"  (\d+): (.*)", line)
        if cited and words[int(cited[1]) - 2] != cited[2]:
            yield f"{trace.name}: explain cites {line}"
    if rule in ("M1", "M4"):
        yield from (f"{trace.name}: {it}" for it in held_slips(told[3:], words))
        return
    wanted = stores_told(lines, words, int(width)) if rule in ("M5", "M6", "M7") else []
    if rule in ("M2", "M3", "M6", "M7"):
        try:
            wanted += bytes_told([header, *lines])
        except Beyond:
            # the model has no atomics: then the lines about bytes aren't compared
            told = [it for it in told if not re.match(r"  (byte |and \d+ more$)", it)]
    if told[3:] and told[len(told) - len(wanted):] != wanted:
        yield f"{trace.name}: explain ends with {told[-len(wanted):]}, not {wanted}"
    if bool(told[3:]) != bool(wanted):
        yield f"{trace.name}: explain says {told[3:]}"


def slips(tool, trace):
    """What is wrong with the verdicts on a trace, and with their reasons."""
    wanted = trace.with_suffix(".verdict").read_text()
    _, told = of(tool, "coherent", str(trace))
    if told != wanted:
        yield f"{trace.name}: coherent says {told.strip()}, the model {wanted.strip()}"
    elif told.startswith("line "):
        yield from story_slips(tool, trace, told.strip())
    _, told = of(tool, "monitor", str(trace))
    if trace.name.startswith("right_") and told != wanted.replace("coherent", "clean"):
        yield f"{trace.name}: monitor says {told.strip()}"
    count = trace.read_text().count("\n")
    for lines in None, (count // 3, count // 2):
        yield from chart_slips(tool, trace, lines)


def rows_of(tool, text, *words):
    """What `chart` draws of a trace: its rows, with the numbers of their lines, and how many messages and commits follow."""
    chart = of(tool, "chart", *words, text=text)[1]
    rows, _ = told_of(chart)
    marks = len(re.findall(r"<rect class='[rw]' width='6' height='6'", chart))
    more = [re.search(f"{what} that follow: (\\d+)", chart) for what in ("messages", "stores and loads")]
    return rows, [int(it[1]) if it else 0 for it in more], marks, re.search(r"The monitor says: (.*)</desc>", chart)[1]


def chart_slips(tool, trace, lines=None):
    """What is wrong with the chart of a trace: it must have the rows of the chart of its beats alone, with the lines of the trace, and
    between them a row for each commit, up to the message or the commit that is one too many."""
    most, (first, last) = (2000, lines) if lines else (200, (2, 10**9))
    header, *events = trace.read_text().splitlines()
    numbered = list(enumerate(events, 2))
    words = {number: told.removeprefix("link ") for number, told in zip(range(2, 10**9), decoded(tool, header.split()[2], events))}
    commits = [number for number, it in numbered if it.split()[1] in "SLI" and number >= first]
    last = min([last, *(number - 1 for number in commits[most:most + 1])])
    beats = [number for number, it in numbered if it.split()[1] in "ABCDE"]
    plain = "\n".join([header.replace("+", "").replace(" zero", ""), *(events[number - 2] for number in beats), ""])
    place = {number: count for count, number in enumerate(beats, 2)}
    window = f"{min([place[it] for it in beats if it >= first], default=len(beats) + 2)}-{max([place[it] for it in beats if it <= last], default=1)}"
    if int(window.split("-")[0]) > int(window.split("-")[1]):
        return
    rows, _, _, _ = rows_of(tool, plain, "--lines", window)
    began = [beats[line - 2] for line, _ in rows if beats[line - 2] >= first]
    last = min([last, *(number - 1 for number in began[most:most + 1])])
    if began[most:]:
        rows, _, _, _ = rows_of(tool, plain, "--lines", f"{window.split('-')[0]}-{max(place[it] for it in beats if it <= last)}")
    rows = [(beats[line - 2], told) for line, told in rows]
    ought = sorted([*rows, *((it, words[it]) for it in commits if it <= last)])
    all_rows = [beats[line - 2] for line, _ in rows_of(tool, plain, "--lines", f"2-{len(beats) + 1}")[0]]
    follow = [sum(it > last for it in all_rows), sum(it > last for it in commits)]
    verdict = of(tool, "monitor", str(trace))[1].strip()
    says = rows_of(tool, trace.read_text(), *(["--lines", f"{lines[0]}-{lines[1]}"] if lines else []))
    if says != (ought, follow, sum(it <= last for it in commits), verdict):
        yield f"{trace.name}: chart {lines} draws {says}, and ought to draw {ought}, then {follow}, {verdict}"


def marked(header):
    """A header of a trace of beats in the fourth form, with each level C marked; empty if there is none to mark, or no such form."""
    word, version, *fields = header.split()
    if word != "tltrace" or version not in "1234" or "zero" in fields:
        return ""
    width = fields.pop(0) if version != "1" else "8"
    liberties = {"3": {"1": "none", "2": "writer"}.get(fields[0]), "4": fields[0]}.get(version, "none")
    levels = fields[1:] if version in "34" else fields
    return " ".join(["tltrace 4", width, liberties or "", *(it.replace("C", "C+") for it in levels)]) if "C" in levels else ""


def spoiled(lines, rng):
    """The lines of beats with one of them left out, said twice or changed in a digit of its control fields, or cut off before it."""
    at = rng.randrange(len(lines))
    line, digit = lines[at], rng.choice([5, 7, 9, 12, 20])
    changed = line[:digit] + rng.choice("0123456789abcdef") + line[digit + 1:] if len(line) > digit and line[digit] != " " else line
    return rng.choice([lines[:at] + lines[at + 1:], lines[:at] + [line] + lines[at:], lines[:at] + [changed] + lines[at + 1:], lines[:at]])


def with_begun(header, lines, rng):
    """A trace with lines of loads that begin between its beats, and for each of its lines the number of the line there."""
    caches = [link for link, level in enumerate(header.split()[4:]) if level == "C+"]
    text, numbers = [header], {1: 1}
    for number, line in enumerate(lines, 2):
        while rng.random() < 0.4:
            size = rng.randrange(4)
            text.append(f"{rng.choice(caches):02x} I {size} {rng.randrange(64) * 8:08x}")
        text.append(line)
        numbers[number] = len(text)
    return "".join(it + "\n" for it in text), numbers


def reasons_slips(tool, name, trace, seed):
    """What is wrong with the reasons for the verdict on a trace of beats with loads that begin between: they must be those of the
    trace without, with the numbers of its lines."""
    rng = random.Random(f"{name} {seed}")
    header, *lines = trace.splitlines()
    if not marked(header) or any(len(it) > 254 for it in lines):
        return
    header = marked(header)
    with tempfile.TemporaryDirectory() as folder:
        plain, begun = pathlib.Path(folder, "plain.trace"), pathlib.Path(folder, "begun.trace")
        plain.write_text("".join(it + "\n" for it in [header.replace("+", ""), *lines]))
        text, numbers = with_begun(header, lines, rng)
        begun.write_text(text)
        for words in ["explain"], ["explain", "--coherent"], ["explain", "--allow", "standard"]:
            wanted, told = (of(tool, *words, str(it))[1].splitlines() for it in (plain, begun))
            verdict = re.fullmatch(r"line (\d+) (\w+)", wanted[0])
            # its stores aren't in the trace, so a beat may break a rule of stores that it doesn't break in the other
            if re.fullmatch(r"line \d+ M[567]", told[0]):
                continue
            wanted = [re.sub(r"(?<=\bline )\d+|^  \d+(?=: )", lambda it: re.sub(r"\d+", lambda n: str(numbers[int(n[0])]), it[0]), it) for it in wanted]
            if not verdict:
                wanted[0] = f"{wanted[0].split()[0]} {text.count(chr(10)) - 1}"
                wanted, told = wanted[:-1], told[:-1]
            elif verdict[2] in ("M2", "M3"):
                wanted, told = wanted[:3], told[:3]
            elif verdict[2].startswith("F"):
                told = [it.replace("letter: one of A, B, C, D, E, S, L, I", "channel: one of A, B, C, D, E") for it in told]
                told = told[:1] + told[2:] if told[1].startswith(f"  {verdict[2]}: ") else told
            if wanted != told:
                yield f"{name} {seed}: {' '.join(words)} says {told}, and of the beats alone {wanted}"


def header_of(schedule):
    """The header of the trace of a schedule with stores and loads: memory was zero before it."""
    _, version, *fields = schedule.split("\n")[0].split()
    width = fields.pop(0) if version in "23" else "8"
    profile = fields.pop(0) if version == "3" else "1"
    levels = [it.split(":")[0].replace("C", "C+") for it in fields[2:]]
    return " ".join(["tltrace 4", width, "none" if profile == "1" else "writer", "zero", *levels])


def commits_of(said, outcome, begun):
    """The lines of the stores and loads of an outcome. `begun` has the bytes that each client's last request with a source
    stores, if it is a store of a whole block."""
    words, ended = said.split(), re.fullmatch(r"(..) D .* done (..) granted .", outcome)
    if ended and begun.get(ended.groups()):
        block, data = begun[ended.groups()]
        for i in range(8):
            yield f"{ended[1]} S 3 {64 * int(block, 16) + 8 * i:08x} {data[112 - 16 * i :][:16]}"
    elif outcome.startswith("started ") and words[1] != "release":
        begun[words[0], outcome[-2:]] = words[2:4] if words[1] == "whole" else None
    elif outcome.startswith("value ") and words[1] == "load":
        yield f"{words[0]} L {words[2]} {words[3]} {outcome[6:]}"
    elif outcome == "stored":
        yield f"{words[0]} S {words[2]} {words[3]} {words[4]}"


def trace_of(schedule, outcomes):
    """The trace of a schedule with stores and loads, by the outcomes of its events."""
    lines, begun = iter(outcomes.splitlines()), {}
    yield header_of(schedule)
    for said in schedule.splitlines()[1:]:
        for outcome in lines:
            if outcome.startswith("line "):
                yield outcome
                return
            if re.match(r".. [A-E] ", outcome):
                yield outcome.split(" done ")[0]
            yield from commits_of(said, outcome, begun)
            if said != "drain" or outcome.startswith("drained "):
                break


def world_slips(tool, name, schedule):
    """What is wrong with the trace of a schedule with stores and loads."""
    (_, outcomes), (status, beats), (too, told) = (of(tool, "run", *it, text=schedule) for it in ([], ["--trace"], ["--trace", "--commits"]))
    if outcomes.startswith("line 1 "):
        wanted = outcomes
    else:
        wanted = "".join(line + "\n" for line in trace_of(schedule, outcomes))
    if told != wanted:
        yield f"{name}: the trace isn't that of the outcomes"
    if too != status:
        yield f"{name}: the exit status is {too} with stores and loads, {status} without"
    lines = [line for line in told.splitlines()[1:] if not re.match(r".. [SL] ", line)]
    if lines != beats.splitlines()[1:]:
        yield f"{name}: the beats aren't those of the trace without stores and loads"
    trace = "".join(line for line in told.splitlines(keepends=True) if not line.startswith("line "))
    _, verdict = of(tool, "coherent", text=trace)
    if trace and verdict != f"coherent {trace.count(chr(10)) - 1}\n":
        yield f"{name}: coherent says {verdict.strip()}"


def main():
    tool, *rest = sys.argv[1:]
    tool = os.path.abspath(tool)
    with tempfile.TemporaryDirectory() as folder, concurrent.futures.ThreadPoolExecutor(len(os.sched_getaffinity(0))) as pool:
        runs = rest[0] if rest else "60"
        subprocess.run([sys.executable, MODEL, "--runs", runs, "--traces", folder], check=True, stdout=subprocess.DEVNULL)
        # where the header says neither that a link's stores are all there nor that memory was zero the command reads no commits
        traces = [it for it in sorted(pathlib.Path(folder).glob("*.trace")) if re.search(r"C\+| zero ", it.open().readline())]
        for it in traces:
            if it.name.startswith("right_"):
                write_altered(it, pathlib.Path(folder))
        traces += sorted(pathlib.Path(folder).glob("altered_*.trace"))
        found = list(pool.map(lambda it: list(slips(tool, it)), traces))
        schedules = [(it.name, it.read_text()) for it in sorted(SCHEDULES.glob("*.schedule"))]
        schedules += [(f"random {' '.join(it)}", of(tool, "random", *it)[1]) for it in WORLDS]
        found += pool.map(lambda it: list(world_slips(tool, *it)), schedules)
        beats = [(it.stem, it.read_text()) for folder in ("rules", "pending") for it in sorted((DATA / folder).glob("*.trace"))]
        whole = [(name, of(tool, "run", "--trace", text=schedule)[1]) for name, schedule in schedules]
        rng = random.Random(1)
        for name, text in whole:
            header, *lines = [it for it in text.splitlines() if not it.startswith("line ")] or [""]
            beats += [(f"{name} {i}", "\n".join([header, *spoiled(lines, rng)])) for i in range(8 if len(lines) > 1 else 0)]
        beats = [it for it in beats if " S " not in it[1] and " L " not in it[1] and it[1].count("\n") < LONG]
        found += pool.map(lambda it: list(reasons_slips(tool, *it, 0)), beats)
    for slip in sum(found, []):
        print(slip)
    failed = sum(map(bool, found))
    print(f"commits: {len(found) - failed} passed, {failed} failed")
    sys.exit(failed > 0)


if __name__ == "__main__":
    main()
