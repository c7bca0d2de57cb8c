"""M1 and M4: traces of random worlds, some with a Probe and its answer left out, replayed into tl_manager_properties and
compared with `tltool coherent`."""

import collections
import random
import subprocess

from reference import WITH_DATA, name_of
from traces import read_beat, read_header
from wrong import DIRECTED_BETWEEN

CHANNELS = "ABCDE"


def without_a_probe(lines, rng):
    """The lines of a trace without one Probe and its answer, or None where there is no Probe."""
    probes = [place for place, line in enumerate(lines) if line[3:5] == "B "]
    if not probes:
        return None
    start = rng.choice(probes)
    link, address = lines[start][:2], lines[start].split()[6]
    left_out = {start}
    for place in range(start + 1, len(lines)):
        fields = lines[place].split()
        if fields[:2] == [link, "C"] and fields[2] in "45" and fields[6] == address:
            left_out.add(place)
        elif left_out - {start} and fields[:2] == [link, "C"]:
            break
        elif fields[:2] == [link, "B"] and fields[6] == address:
            break
    return [line for place, line in enumerate(lines) if place not in left_out]


def packed(beat, first, last):
    """A beat as tl_link_names.svh has it."""
    value = 1
    for field, bits in ((first, 1), (last, 1), (beat.opcode, 3), (beat.param, 3), (beat.size, 4), (beat.source, 8), (beat.sink, 8),
                        (beat.address, 32), (beat.mask, 16), (beat.denied, 1), (beat.corrupt, 1)):
        value = value << bits | field
    return value


def rows(lines, width):
    """The beats of a trace as manager.sv reads them but for their data, and the blocks and accesses that they name."""
    left, text, blocks, accesses = {}, [], set(), set()
    for number, line in enumerate(lines[1:], 2):
        link, beat = read_beat(line)
        key = link, beat.channel
        first = key not in left
        count = max(1, 2**beat.size // width) if beat.channel != "E" and name_of(beat) in WITH_DATA else 1
        left[key] = left.get(key, count) - 1
        if not left[key]:
            del left[key]
        text.append(f"B {CHANNELS.index(beat.channel):x} {link:x} {number:x} {packed(beat, first, key not in left):x}\n")
        if beat.channel == "A":
            blocks.add(beat.address >> 6)
            if beat.opcode <= 4:
                accesses.add((beat.source, link))
    return "".join(text), blocks, accesses or {(0, 0)}


def traces(tool, count):
    rng = random.Random(count)
    for _, text in DIRECTED_BETWEEN:
        yield text.splitlines()
    for seed in range(count):
        words = ["--events", "60", "--width", str(rng.choice([4, 8, 16])), "--clients", "C:2,C:2,C:1,UH:2"]
        schedule = subprocess.run([tool, "random", "--seed", str(seed), *words], stdout=subprocess.PIPE).stdout
        lines = subprocess.run([tool, "run", "--trace"], input=schedule, stdout=subprocess.PIPE).stdout.decode().splitlines()
        lines = without_a_probe(lines, rng) if rng.random() < 0.9 else lines
        if lines:
            yield lines


def prepared(tool, count):
    """What is said of each trace, its line and its rule, and what manager.sv reads of them."""
    said, text = [], []
    for number, lines in enumerate(traces(tool, count)):
        told = subprocess.run([tool, "coherent"], input="\n".join(lines) + "\n", stdout=subprocess.PIPE, text=True).stdout.split()
        line, rule = (int(told[1]), told[2]) if told[0] == "line" else (len(lines) + 1, None)
        said.append((line, rule))
        beats, blocks, accesses = rows(lines[:line], read_header(lines[0])[0])
        beats = beats.replace("\n", " 0\n")  # no data
        for block in blocks:
            text += [f"T {number:x} {block << 6:x} 0 {source:x} {link:x}\n{beats}" for source, link in sorted(accesses)]
    return said, "".join(text)


def replayed(text, modules, include, folder, **parameters):
    """The first line and rule that manager.sv says of each trace."""
    program, data = folder / "manager.vvp", folder / "beats"
    subprocess.run(["iverilog", "-g2012", f"-I{include}", "-s", "manager", "-o", program,
                    *(f"-Pmanager.{name}={value}" for name, value in parameters.items()), include / "agreement/manager.sv", *modules],
                   check=True, stderr=subprocess.DEVNULL)
    data.write_text(text)
    found = {}
    for row in subprocess.run(["vvp", program, f"+beats={data}"], check=True, stdout=subprocess.PIPE, text=True).stdout.splitlines():
        number, line, rule = row.split()
        found[int(number)] = min(found.get(int(number), (int(line), rule)), (int(line), rule))
    return found


def otherwise(said, found, rules):
    """Where something else is said. Where another rule is broken first, the module may say nothing before that line."""
    return [f"world {number}: said {it}, the module {found.get(number)}" for number, it in enumerate(said)
            if (found.get(number) != it if it[1] in rules else found.get(number, it)[0] < it[0])]


def differing(said, text, modules, include, folder):
    return otherwise(said, replayed(text, modules, include, folder, N=4), ("M1", "M4"))


def by_rule(said):
    return ", ".join(f"{rule or 'coherent'} {count}" for rule, count in sorted(collections.Counter(rule for _, rule in said).items(), key=str))
