"""M2 and M3: traces of random worlds, many with one byte of their data changed, replayed into tl_memory_properties and compared
with `tltool coherent`. The worlds have no atomics: what one writes is any value for the module."""

import collections
import random
import re
import subprocess

from between import otherwise, replayed, rows
from reference import WITH_DATA, name_of
from traces import read_beat, read_header
from wrong import DIRECTED_MEMORY

CLIENTS = ["C:2,C:2,UL:2", "C:1,C:2,UL:4", "C:3,UL:2,UL:2"]
LINKS = 3
PLACE = {"A": 8, "B": 8, "C": 7, "D": 8}  # of the data among a line's fields

# A byte that a beat of channel D brings: its address, its value, and source and link of the beat.
Byte = collections.namedtuple("Byte", "at value source link")


def with_another_byte(lines, rng):
    """The lines with one byte of one beat's data changed."""
    places = [place for place, line in enumerate(lines[1:], 1) if line[3] in "CD" and line.split()[PLACE[line[3]]] != "-"]
    if not places:
        return lines
    place = rng.choice(places)
    fields = lines[place].split()
    at, data = PLACE[fields[1]], fields[PLACE[fields[1]]]
    byte = 2 * rng.randrange(len(data) // 2)
    fields[at] = data[:byte] + f"{rng.choice([0, 255, rng.randrange(256)]):02x}" + data[byte + 2:]
    return lines[:place] + [" ".join(fields)] + lines[place + 1:]


def traces(tool, count):
    """The lines and the width of each."""
    for _, text in DIRECTED_MEMORY:
        yield text.splitlines(), read_header(text.split("\n")[0])[0]
    rng = random.Random(count)
    for seed in range(count):
        width = rng.choice([4, 8, 16])
        words = ["--seed", str(seed), "--events", str(rng.choice([40, 80, 120])), "--width", str(width), "--clients", rng.choice(CLIENTS)]
        schedule = subprocess.run([tool, "random", *words], stdout=subprocess.PIPE, text=True).stdout
        plain = "".join(line for line in schedule.splitlines(keepends=True) if not re.search(" (arith|logic) ", line))
        lines = subprocess.run([tool, "run", "--trace"], input=plain, stdout=subprocess.PIPE, text=True).stdout.splitlines()
        yield (with_another_byte(lines, rng) if rng.random() < 0.85 else lines), width


def brought(lines, width):
    """The bytes of each beat of a GrantData or AccessAckData, by the beat's line."""
    requests, begun, found = {}, {}, {}
    for number, line in enumerate(lines[1:], 2):
        link, beat = read_beat(line)
        name = name_of(beat) if beat.channel != "E" else None
        if beat.channel == "A" and (link, "A") not in begun:
            requests[link, beat.source] = beat.address
        if beat.channel == "D" and name in ("GrantData", "AccessAckData"):
            count = begun.get((link, "D"), 0)
            address = requests[link, beat.source] & (-64 if name == "GrantData" else -width)
            data = line.split()[PLACE["D"]]
            values = [int(data[-2 * (lane + 1):][:2], 16) for lane in range(width)]
            found[number] = [Byte(address + width * count + lane, value, beat.source, link) for lane, value in enumerate(values)]
        if name in WITH_DATA:
            count = begun.get((link, beat.channel), 0) + 1
            begun[link, beat.channel] = count
            if count * width >= 2**beat.size:
                del begun[link, beat.channel]
    return found


def with_data(text, lines, width):
    """The beats' rows with their data."""
    for row, line in zip(text.splitlines(), lines[1:]):
        data = line.split()[PLACE[line[3]]] if line[3] in PLACE else "-"
        yield f"{row} {data if data != '-' else '0'}\n"


def prepared(tool, count):
    """What is said of each trace, its line and its rule, and by width what manager.sv reads of them: all bytes of the beat at
    fault are tracked, and some of other beats."""
    rng = random.Random(count)
    said, text = [], collections.defaultdict(list)
    for number, (lines, width) in enumerate(traces(tool, count)):
        told = subprocess.run([tool, "coherent"], input="\n".join(lines) + "\n", stdout=subprocess.PIPE, text=True).stdout.split()
        line, rule = (int(told[1]), told[2]) if told[0] == "line" else (len(lines) + 1, None)
        said.append((line, rule))
        lines = lines[:line]
        beats = "".join(with_data(rows(lines, width)[0], lines, width))
        found = brought(lines, width)
        others = [byte for at, bytes_of in found.items() if at != line for byte in bytes_of]
        some = others if number < len(DIRECTED_MEMORY) else rng.sample(others, min(6, len(others)))
        for byte in found.get(line, []) + some:
            text[width].append(f"T {number:x} {byte.at:x} {byte.value:x} {byte.source:x} {byte.link:x}\n{beats}")
    return said, text


def differing(said, text, modules, include, folder):
    found = {}
    for width, traces_of in text.items():
        found |= replayed("".join(traces_of), modules, include, folder, W=width, N=LINKS, BYTES=1)
    return otherwise(said, found, ("M2", "M3"))
