"""Traces: reading and writing their lines, and traces at random under liberties, which end in a fault."""

import random

from reference import LIBERTIES, NAMES, REPORTS, WITH_DATA, Beat, History, name_of

LEVELS = ["UL", "UH", "C"]
# Words of a header that name no liberty or several.
SETS_BY_NAME = {"none": [], "standard": LIBERTIES[:7]}


def read_beat(line):
    """The link and the beat of a line of a trace."""
    link, channel, *rest = line.split(" ")
    data = {"A": 6, "B": 6, "C": 5, "D": 6}.get(channel)
    fields = [int(it, 16) for place, it in enumerate(rest) if place != data]
    if channel in "AB":
        opcode, param, size, source, address, mask, corrupt = fields
        return int(link, 16), Beat(channel, opcode, param, size, source, 0, address, mask, 0, corrupt)
    if channel == "C":
        opcode, param, size, source, address, corrupt = fields
        return int(link, 16), Beat(channel, opcode, param, size, source, 0, address, 0, 0, corrupt)
    if channel == "D":
        opcode, param, size, source, sink, denied, corrupt = fields
        return int(link, 16), Beat(channel, opcode, param, size, source, sink, 0, 0, denied, corrupt)
    return int(link, 16), Beat("E", 0, 0, 0, 0, fields[0], 0, 0, 0, 0)


def read_header(line):
    """The width of a beat, the liberties and the levels of the links."""
    version, *rest = line.split(" ")[1:]
    if version == "1":
        return 8, frozenset(), rest
    if version == "2":
        return int(rest[0]), frozenset(), rest[1:]
    words = {"1": [], "2": ["writer"]}[rest[1]] if version == "3" else rest[1].split(",")
    return int(rest[0]), frozenset(it for word in words for it in SETS_BY_NAME.get(word, [word])), rest[2:]


def line_of(beat, width):
    """The line of a beat of link 0."""
    it = beat
    if it.channel == "E":
        return f"00 E {it.sink:02x}"
    data = "0" * (2 * width) if name_of(it) in WITH_DATA else "-"
    start = f"00 {it.channel} {it.opcode:x} {it.param:x} {it.size:x} {it.source:02x}"
    if it.channel == "D":
        return f"{start} {it.sink:02x} {it.denied} {data} {it.corrupt}"
    mask = f" {it.mask:0{width // 4}x}" if it.channel in "AB" else ""
    return f"{start} {it.address:08x}{mask} {data} {it.corrupt}"


class Drawer:
    """Draws beats of one link, most of them lawful, from few sources, sinks and blocks."""

    def __init__(self, rng, level, width, liberties):
        self.rng, self.level, self.width, self.liberties = rng, level, width, liberties
        self.keys = [rng.randrange(256) for _ in range(3)]
        self.blocks = [rng.randrange(1 << 26) for _ in range(2)]

    def beat(self, history):
        rng = self.rng
        channel = rng.choice("AAABCCDDDDEE" if self.level == "C" else "AAADDDD")
        if rng.random() < 0.01:
            channel = rng.choice("ABCDE")
        if channel in history.unfinished and rng.random() < 0.97:
            begun = history.unfinished[channel][0].beat
            corrupt = 1 if begun.denied else int(rng.random() < 0.1)
            return begun._replace(corrupt=corrupt)
        beat = getattr(self, "on_" + channel)(history)
        return self.spoiled(beat) if rng.random() < 0.15 else beat

    def spoiled(self, beat):
        """The beat with another value in one field that its channel has."""
        rng = self.rng
        fields = {"A": "opcode param size source address mask corrupt", "B": "opcode param size source address mask corrupt",
                  "C": "opcode param size source address corrupt", "D": "opcode param size source sink denied corrupt", "E": "sink"}
        field = rng.choice(fields[beat.channel].split())
        value = {"opcode": rng.choice([it for it, name in enumerate(NAMES[beat.channel]) if name]), "param": rng.randrange(8),
                 "size": rng.randrange(8), "source": rng.choice(self.keys + [0]), "sink": rng.choice(self.keys + [0]),
                 "address": beat.address ^ (1 << rng.randrange(8)), "mask": beat.mask ^ (1 << rng.randrange(self.width)),
                 "denied": 1, "corrupt": 1}[field]
        if field == "param" and beat.channel == "D":
            value &= 3
        return beat._replace(**{field: value})

    def lanes(self, size, address):
        size, at = min(2**size, self.width), address % self.width
        return sum(1 << lane for lane in range(at, at + size))

    def on_A(self, history):
        rng = self.rng
        if self.level == "C" and rng.random() < 0.7:
            opcode, size, param = rng.choice([6, 6, 6, 7]), 6, rng.randrange(3)
        else:
            opcode = rng.choice([0, 1, 4] if self.level == "UL" else [0, 1, 2, 3, 4, 5])
            size = rng.choice([2, 3] if opcode in (2, 3) else [0, 1, 2] if self.level == "UL" else [0, 2, 3, 4, 5, 6])
            param = rng.randrange(2) if opcode in (2, 3, 5) else 0
        address = rng.choice(self.blocks) * 64 + rng.randrange(64) // 2**size * 2**size
        return Beat("A", opcode, param, size, rng.choice(self.keys), 0, address, self.lanes(size, address), 0, 0)

    def on_B(self, history):
        rng = self.rng
        address = rng.choice(self.blocks) * 64
        source = rng.choice(self.keys) if "ids" in self.liberties else 0
        return Beat("B", rng.choice([6, 6, 7]), rng.randrange(3), 6, source, 0, address, self.lanes(6, 0), 0, 0)

    def on_C(self, history):
        rng = self.rng
        address = rng.choice(self.blocks) * 64
        probe, held = history.probe_of(address // 64), history.held(address // 64)
        fitting = [it for it in range(6) if REPORTS[it][0] == held] if rng.random() < 0.8 else range(6)
        if probe and rng.random() < 0.8:
            opcode = 4 if probe.name == "ProbePerm" else rng.choice([4, 5])
            return Beat("C", opcode, rng.choice(fitting), 6, probe.beat.source, 0, address, 0, 0, 0)
        given_up = [it for it in fitting if it < 3 or "reports" in self.liberties] or [0]
        return Beat("C", rng.choice([6, 7]), rng.choice(given_up), 6, rng.choice(self.keys), 0, address, 0, 0, 0)

    def on_D(self, history):
        rng = self.rng
        source = rng.choice(self.keys)
        sink = rng.choice(self.keys) if "sinks" in self.liberties else 0
        request = history.request(source)
        if history.release(source) and (not request or rng.random() < 0.5):
            return Beat("D", 6, 0, 6, source, sink, 0, 0, 0, 0)
        if not request:
            return Beat("D", rng.choice([0, 1, 2, 4, 5, 6]), 0, 6, source, 0, 0, 0, 0, 0)
        denied = int(rng.random() < 0.15)
        opcode = {0: 0, 1: 0, 2: 1, 3: 1, 4: 1, 5: 2, 6: rng.choice([4, 5, 5]), 7: 4}[request.beat.opcode]
        if opcode in (4, 5):
            denied = denied if "denied" in self.liberties else 0
            sink, param = rng.choice(self.keys), rng.choice([0, 1])
        else:
            param = 0
        corrupt = denied if opcode in (1, 5) else 0
        return Beat("D", opcode, param, request.beat.size, source, sink, 0, 0, denied, corrupt)

    def on_E(self, history):
        return Beat("E", 0, 0, 0, 0, self.rng.choice(self.keys), 0, 0, 0, 0)


def drawn(seed, level, width, liberties, length, wanted):
    """A trace at random of one link: its beats, and the rule that the last one breaks. `wanted` counts the faults so far;
    of some tries at the end the beat is taken whose rule is rarest."""
    rng = random.Random(seed)
    drawer, history, beats = Drawer(rng, level, width, liberties), History(level, width, liberties), []
    for _ in range(40 * length):
        if len(beats) >= length:
            break
        beat = drawer.beat(history)
        if history.judge(beat) is None:
            history.take(beat)
            beats.append(beat)
    tries = [drawer.beat(history) for _ in range(60)]
    faults = [(beat, rule) for beat, rule in ((it, history.judge(it)) for it in tries) if rule]
    if not faults or rng.random() < 0.03:
        return beats, None
    beat, rule = min(faults, key=lambda it: wanted[it[1]])
    wanted[rule] += 1
    return beats + [beat], rule
